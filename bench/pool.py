"""Makes a program that takes and closes chunks in a fragmented pool.

    python3 bench/pool.py /tmp/pool && cd /tmp/pool/crates/bench && rt run -- 10000 1000 balanced

Its words are how many free parts of level 12 the pool has, each beside a lent one, how many times it opens an account, takes a
chunk of level 10 and closes the account again, and the policy. It stands on the crates as they are, and is proved with them: the
account that holds the lent parts and the one that gave its parts back are the pool's own. The numbers are in README.md.
"""
import argparse
import pathlib
import shutil
import sys

here = pathlib.Path(__file__).resolve().parent.parent
parser = argparse.ArgumentParser(description=__doc__, formatter_class=argparse.RawDescriptionHelpFormatter)
parser.add_argument('folder', metavar='FOLDER', type=pathlib.Path, help='where the program is made')
out = parser.parse_args().folder
names = ['ms_base', 'ms_commit', 'ms_buddy', 'ms_pool']
for name in names:
    for part in ['src', 'specs', 'proofs']:
        shutil.copytree(here / 'crates' / name / part, out / 'crates' / name / part, dirs_exist_ok=True)
lines = [line for line in (here / 'crates.txt').read_text().split('\n') if line.split(':')[0].split(' ')[0] in names]
if len(lines) != len(names):
    sys.exit(f'{here / "crates.txt"} has no line for each of {", ".join(names)}')
(out / 'crates.txt').write_text('\n'.join(lines) + '\nbench: ms_base ms_pool\n')
(out / 'crates/bench/src').mkdir(parents=True, exist_ok=True)
(out / 'crates/bench/src/main.rt').write_text('''#![tactic(auto)]
ghost use Rattle.std.specs.Prelude.{◌≡◌, ◌≢◌, ◌<◌, ◌≤◌};
ghost use Rattle.ms_base.specs.Level.{size_of};

use ms_base::{Level, Policy, Refusal, Settings, Space};
use ms_pool::{Account, ChunkSource, Pool};
use std::alloc::Global;
use std::env;
use std::io;

/// Takes a chunk for each account.
fn lend_two<S: ChunkSource>(source: &mut S, stays: &mut Account, goes: &mut Account, level: Level)
    requires served { S.serves source.old stays.old }
    requires served_too { S.serves source.old goes.old }
    requires apart { stays.old.owner ≢ goes.old.owner }
    requires some { 10 ≤ size_of level }
    ensures served { S.serves source.new stays.new }
    ensures served_too { S.serves source.new goes.new }
    ensures apart { stays.new.owner ≢ goes.new.owner }
    ensures space { goes.new.space ≡ goes.old.space }
    ensures counted { S.opened source.new ≡ S.opened source.old }
{
    let _ = source.take(stays, level, level, 10);
    let _ = source.take(goes, level, level, 10);
}

/// Takes so many chunks of the smallest size for each account in turn.
fn lend_by_turns<S: ChunkSource>(source: &mut S, stays: &mut Account, goes: &mut Account, parts: u64)
    requires served { S.serves source.old stays.old }
    requires served_too { S.serves source.old goes.old }
    requires apart { stays.old.owner ≢ goes.old.owner }
    ensures served { S.serves source.new goes.new }
    ensures space { goes.new.space ≡ goes.old.space }
    ensures counted { S.opened source.new ≡ S.opened source.old }
{
    let smallest = Level::new(12);
    for _ in 0..parts {
        lend_two(source, stays, goes, smallest);
    }
}

/// Leaves so many free parts of the smallest size, each beside a lent one.
fn fragment<S: ChunkSource>(source: &mut S, stays: Account, goes: Account, parts: u64)
    requires served { S.serves source.old stays }
    requires served_too { S.serves source.old goes }
    requires apart { stays.owner ≢ goes.owner }
    requires counted { 0 < S.opened source.old goes.space }
{
    let mut stays = stays;
    let mut goes = goes;
    lend_by_turns(source, &mut stays, &mut goes, parts);
    source.close(goes);
}

fn fragmented(pool: &mut Pool, parts: u64) -> Result<(), Refusal> {
    let stays = pool.open(Space::NonClass)?;
    let goes = pool.open(Space::NonClass)?;
    fragment(pool, stays, goes, parts);
    Ok(())
}

/// Takes a chunk of 512 words, which none of those parts has, and closes the account.
fn take_and_close<S: ChunkSource>(source: &mut S, account: Account) -> u64
    requires served { S.serves source.old account }
    requires counted { 0 < S.opened source.old account.space }
{
    let level = Level::new(10);
    let mut account = account;
    let start = match source.take(&mut account, level, level, 10) {
        Ok(span) => span.start,
        Err(_) => 0,
    };
    source.close(account);
    start
}

fn taken_and_closed(pool: &mut Pool) -> Result<u64, Refusal> {
    let account = pool.open(Space::NonClass)?;
    Ok(take_and_close(pool, account))
}

fn settings(policy: Policy) -> Settings {
    Settings { workers: 1, nodes: 64, max_granules: 40960, policy, class_nodes: 0 }
}

fn measured(alloc: Global, parts: u64, turns: u64, policy: Policy) -> Result<u64, Refusal> {
    let Ok(mut pool) = Pool::new(alloc, settings(policy)) else {
        return Err(Refusal::OutOfMemory);
    };
    fragmented(&mut pool, parts)?;
    let mut last = 0;
    for _ in 0..turns {
        last = taken_and_closed(&mut pool)?;
    }
    Ok(last)
}

fn main(rt: HostRuntime) -> io::Result<()> {
    let words: Vec<String> = env::args(&rt)?.collect(rt.alloc())?;
    let number = |place: usize| match words.get(place) {
        Some(word) => word.parse::<u64>().unwrap_or(0),
        None => 0,
    };
    let (parts, turns) = (number(1), number(2));
    let policy = match words.get(3) {
        Some(word) if word.as_str() == "none" => Policy::None,
        _ => Policy::Balanced,
    };
    match measured(rt.alloc(), parts, turns, policy) {
        Ok(last) => println!(rt; "{parts} free parts, {turns} turns, the last at {last}"),
        Err(refusal) => println!(rt; "{refusal}"),
    }
}
''')
(out / 'crates/bench/proofs/lend_by_turns').mkdir(parents=True, exist_ok=True)
(out / 'crates/bench/proofs/lend_by_turns/Invariants.antt').write_text('''use Rattle.std.proofs.Common.{◌≡◌, ◌≢◌}
use Rattle.bench.proofs.lend_by_turns.Given as goal

abbrev pub invariant-loop : goal.invariant-loop
invariant-loop g l = record {
  served : g.S.ChunkSource.serves l.source l.stays;
  served_too : g.S.ChunkSource.serves l.source l.goes;
  apart : l.stays.owner ≢ l.goes.owner;
  space : l.goes.space ≡ l.fn.goes.space;
  counted : g.S.ChunkSource.opened l.source ≡ g.S.ChunkSource.opened l.fn.source;
}
''')
