//! A twin of metarun for one worker: the same traces, rules and bytes, tuned by hand and not
//! proved.
//!
//! What it is for is in bench/README.md: its instructions and its memory are what metarun's are
//! held against. The rules are those of docs/FORMATS.md and docs/MODEL.md. It has no bound on
//! memory: where that is wanting it ends. A trace is run as it is read, and its answers are kept
//! until the last line has run, since a fault forbids them.

mod arena;
mod bits;
mod contents;
mod free_blocks;
mod loaders;
mod names;
mod options;
mod pool;
mod reading;
mod replies;
mod report;

use loaders::Loaders;
use options::Options;
use reading::{Command, Reader};
use replies::Replies;
use std::io::{self, Read, Write};
use std::process::ExitCode;

/// Runs a whole trace: what is printed, or the line and the kind of its fault.
fn run(options: &Options, input: impl Read) -> io::Result<Result<Vec<u8>, (u32, &'static str)>> {
    let mut reader = Reader::new(input);
    let mut loaders = Loaders::new(options);
    let mut replies = Replies::new(options.addresses);
    loop {
        let command = match reader.next()? {
            None => return Ok(Ok(replies.into_text())),
            Some(Err(fault)) => return Ok(Err((reader.line(), fault))),
            Some(Ok(command)) => command,
        };
        replies.label(reader.line());
        match command {
            Command::New(name, kind) => replies.done(loaders.add(name, kind)),
            Command::Alloc(space, name, block, words) => {
                replies.at(loaders.alloc(space, name, block, words))
            }
            Command::Write(name, block, index, value) => {
                replies.done(loaders.write(name, block, index, value))
            }
            Command::Read(name, block, index) => replies.value(loaders.read(name, block, index)),
            Command::Free(name, block) => replies.done(loaders.free(name, block)),
            Command::Unload(name) => replies.done(loaders.unload(name)),
            Command::Purge => {
                loaders.purge();
                replies.done(Ok(()));
            }
            Command::Sync => replies.done(Ok(())),
            Command::Report => {
                replies.done(Ok(()));
                report::append(replies.text(), &loaders);
            }
        }
    }
}

fn main() -> ExitCode {
    let options = match Options::from_words(std::env::args().skip(1)) {
        Ok(options) => options,
        Err(word) => {
            eprintln!("twin: {word}");
            return ExitCode::from(2);
        }
    };
    match run(&options, io::stdin().lock()) {
        Err(_) => {
            eprintln!("metarun: input failed");
            ExitCode::from(5)
        }
        Ok(Err((line, fault))) => {
            eprintln!("metarun: line {line}: {fault}");
            ExitCode::from(1)
        }
        Ok(Ok(text)) => match io::stdout()
            .write_all(&text)
            .and_then(|()| io::stdout().flush())
        {
            Ok(()) => ExitCode::SUCCESS,
            Err(_) => {
                eprintln!("metarun: output failed");
                ExitCode::from(5)
            }
        },
    }
}
