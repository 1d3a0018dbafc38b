//! The trace, line by line, each read in one pass; which fault a line has is looked for only where
//! it has one.

use std::io::{self, ErrorKind, Read};

const MOST_LINES: u32 = 100_000;
const MOST_BYTES: usize = 80;
/// What is read at a time.
const PIECE: usize = 65_536;
/// More than a line without a fault and a word of eight bytes behind it.
const MARGIN: usize = 96;

#[derive(Clone, Copy, PartialEq, Eq)]
pub enum Kind {
    Standard,
    Boot,
    Reflection,
    Hidden,
}

impl Kind {
    pub const fn word(self) -> &'static str {
        match self {
            Kind::Standard => "standard",
            Kind::Boot => "boot",
            Kind::Reflection => "reflection",
            Kind::Hidden => "hidden",
        }
    }
}

pub const KINDS: [Kind; 4] = [Kind::Standard, Kind::Boot, Kind::Reflection, Kind::Hidden];

#[derive(Clone, Copy, PartialEq, Eq)]
pub enum Space {
    NonClass,
    Class,
}

#[derive(Clone, Copy)]
pub enum Command {
    New(u16, Kind),
    Alloc(Space, u16, u32, u64),
    Write(u16, u32, u64, u64),
    Read(u16, u32, u64),
    Free(u16, u32),
    Unload(u16),
    Purge,
    Sync,
    Report,
}

/// A text with a cursor. Behind the last byte stands a newline, so that each line ends in one.
pub struct Reader<R> {
    input: R,
    text: Box<[u8]>,
    at: usize,
    end: usize,
    ended: bool,
    line: u32,
}

/// The first bytes of a command, as a word of eight: those that count, and what they are.
const fn head(word: &[u8]) -> (u64, u64) {
    let (mut mask, mut bytes, mut place) = (0, 0, 0);
    while place < word.len() {
        mask |= 0xff << (8 * place);
        bytes |= (word[place] as u64) << (8 * place);
        place += 1;
    }
    (mask, bytes)
}

/// Tells whether eight bytes begin with a word.
macro_rules! begins {
    ($bytes:expr, $word:literal) => {{
        const HEAD: (u64, u64) = head($word);
        $bytes & HEAD.0 == HEAD.1
    }};
}

impl<R: Read> Reader<R> {
    pub fn new(input: R) -> Reader<R> {
        Reader {
            input,
            text: vec![0; PIECE + 2 * MARGIN].into_boxed_slice(),
            at: 0,
            end: 0,
            ended: false,
            line: 0,
        }
    }

    /// The number of the line that was read last, from 1 on.
    pub fn line(&self) -> u32 {
        self.line
    }

    /// Reads the next line that has a command; a fault is told by its kind.
    #[inline]
    pub fn next(&mut self) -> io::Result<Option<Result<Command, &'static str>>> {
        loop {
            if self.end - self.at < MARGIN && !self.ended {
                self.refill()?;
            }
            if self.at == self.end {
                return Ok(None);
            }
            self.line += 1;
            if self.line > MOST_LINES {
                return Ok(Some(Err("TooManyLines")));
            }
            if let Some((command, next)) = self.command(self.at) {
                self.at = next.min(self.end);
                return Ok(Some(Ok(command)));
            }
            if let Err(fault) = self.pass_over() {
                return Ok(Some(Err(fault)));
            }
        }
    }

    /// Moves what is left to the front, and reads until there is a margin or nothing more comes.
    #[cold]
    fn refill(&mut self) -> io::Result<()> {
        self.text.copy_within(self.at..self.end, 0);
        self.end -= self.at;
        self.at = 0;
        while self.end < MARGIN && !self.ended {
            match self.input.read(&mut self.text[self.end..PIECE]) {
                Ok(count) => {
                    self.ended = count == 0;
                    self.end += count;
                }
                Err(error) if error.kind() == ErrorKind::Interrupted => {}
                Err(error) => return Err(error),
            }
        }
        self.text[self.end] = b'\n';
        Ok(())
    }

    /// Passes over a line that is no command; where it should be one, tells its fault.
    #[cold]
    fn pass_over(&mut self) -> Result<(), &'static str> {
        let within = &self.text[self.at..=self.end.min(self.at + MOST_BYTES)];
        let length = within
            .iter()
            .position(|&byte| byte == b'\n')
            .ok_or("LineTooLong")?;
        match within[..length].first() {
            None | Some(b'#') => {
                self.at = (self.at + length + 1).min(self.end);
                Ok(())
            }
            Some(_) => Err(fault_of(&within[..length])),
        }
    }

    #[inline(always)]
    fn eight(&self, at: usize) -> u64 {
        u64::from_le_bytes(self.text[at..at + 8].try_into().unwrap())
    }

    /// Reads a whole command line without a fault, and tells where the next one begins.
    #[inline]
    fn command(&self, at: usize) -> Option<(Command, usize)> {
        let start = self.eight(at);
        if begins!(start, b"alloc ") {
            self.alloc(Space::NonClass, at + 6)
        } else if begins!(start, b"read ") {
            let (name, at) = self.number(at + 5, u16::MAX.into(), b' ')?;
            let (block, at) = self.number(at, u32::MAX.into(), b' ')?;
            let (index, at) = self.number(at, u64::MAX, b'\n')?;
            Some((Command::Read(name as u16, block as u32, index), at))
        } else if begins!(start, b"write ") {
            let (name, at) = self.number(at + 6, u16::MAX.into(), b' ')?;
            let (block, at) = self.number(at, u32::MAX.into(), b' ')?;
            let (index, at) = self.number(at, u64::MAX, b' ')?;
            let (value, at) = self.number(at, u64::MAX, b'\n')?;
            Some((Command::Write(name as u16, block as u32, index, value), at))
        } else if begins!(start, b"free ") {
            let (name, at) = self.number(at + 5, u16::MAX.into(), b' ')?;
            let (block, at) = self.number(at, u32::MAX.into(), b'\n')?;
            Some((Command::Free(name as u16, block as u32), at))
        } else if begins!(start, b"calloc ") {
            self.alloc(Space::Class, at + 7)
        } else if begins!(start, b"new ") {
            let (name, at) = self.number(at + 4, u16::MAX.into(), b' ')?;
            let (kind, at) = self.kind(at)?;
            Some((Command::New(name as u16, kind), at))
        } else if begins!(start, b"unload ") {
            let (name, at) = self.number(at + 7, u16::MAX.into(), b'\n')?;
            Some((Command::Unload(name as u16), at))
        } else if begins!(start, b"purge\n") {
            Some((Command::Purge, at + 6))
        } else if begins!(start, b"sync\n") {
            Some((Command::Sync, at + 5))
        } else if begins!(start, b"report\n") {
            Some((Command::Report, at + 7))
        } else {
            None
        }
    }

    #[inline]
    fn alloc(&self, space: Space, at: usize) -> Option<(Command, usize)> {
        let (name, at) = self.number(at, u16::MAX.into(), b' ')?;
        let (block, at) = self.number(at, u32::MAX.into(), b' ')?;
        let (words, at) = self.number(at, u64::MAX, b'\n')?;
        Some((Command::Alloc(space, name as u16, block as u32, words), at))
    }

    fn kind(&self, at: usize) -> Option<(Kind, usize)> {
        let rest = &self.text[at..];
        let kind = KINDS
            .into_iter()
            .find(|kind| rest.starts_with(kind.word().as_bytes()))?;
        let end = at + kind.word().len();
        (self.text[end] == b'\n').then_some((kind, end + 1))
    }

    /// Reads a number up to the greatest that ends before this byte, and tells where the next field
    /// begins.
    #[inline(always)]
    fn number(&self, at: usize, most: u64, then: u8) -> Option<(u64, usize)> {
        let bytes = self.eight(at);
        let (value, count) = leading_digits(bytes);
        let (value, end) = match count {
            0 => return None,
            8 => self.long_number(at)?,
            _ if bytes as u8 == b'0' && count > 1 => return None,
            _ => (value, at + count),
        };
        (value <= most && self.text[end] == then).then_some((value, end + 1))
    }

    /// Reads a number of eight digits or more that has a place in 64 bits.
    #[inline(never)]
    fn long_number(&self, at: usize) -> Option<(u64, usize)> {
        if self.text[at] == b'0' {
            return None;
        }
        let (mut value, mut end) = (0u64, at);
        while self.text[end].is_ascii_digit() {
            value = value
                .checked_mul(10)?
                .checked_add((self.text[end] - b'0').into())?;
            end += 1;
        }
        Some((value, end))
    }
}

/// Tells the number that eight bytes begin with, and of how many digits it is; of eight digits it
/// tells the count alone.
#[inline(always)]
fn leading_digits(bytes: u64) -> (u64, usize) {
    let digits = bytes ^ 0x3030_3030_3030_3030;
    let others = (digits.wrapping_add(0x7676_7676_7676_7676) | digits) & 0x8080_8080_8080_8080;
    let count = (others.trailing_zeros() / 8) as usize;
    // the digits stand highest, with zeros before them; then two, four and eight of them become one
    let ones = digits << ((64 - 8 * count) & 63);
    let tens = ones.wrapping_mul(10).wrapping_add(ones >> 8);
    let high = (tens & 0x0000_00ff_0000_00ff).wrapping_mul(0x000f_4240_0000_0064);
    let low = (tens >> 16 & 0x0000_00ff_0000_00ff).wrapping_mul(0x0000_2710_0000_0001);
    (high.wrapping_add(low) >> 32, count)
}

/// What a field has to be: a kind, or a number up to a greatest.
enum Form {
    Kind,
    Upto(u64),
}

const LOADER: Form = Form::Upto(u16::MAX as u64);
const BLOCK: Form = Form::Upto(u32::MAX as u64);
const WORD: Form = Form::Upto(u64::MAX);

/// Tells the fault of a line that has one, the first of those that it has.
fn fault_of(line: &[u8]) -> &'static str {
    let mut fields = line.split(|&byte| byte == b' ');
    let forms: &[Form] = match fields.next().unwrap_or_default() {
        b"new" => &[LOADER, Form::Kind],
        b"alloc" | b"calloc" | b"read" => &[LOADER, BLOCK, WORD],
        b"write" => &[LOADER, BLOCK, WORD, WORD],
        b"free" => &[LOADER, BLOCK],
        b"unload" => &[LOADER],
        b"purge" | b"sync" | b"report" => &[],
        _ => return "UnknownCommand",
    };
    if fields.clone().count() != forms.len() {
        return "FieldCount";
    }
    let mut faults = fields
        .zip(forms)
        .filter_map(|(field, form)| fault_in(field, form));
    faults.next().expect("a line that isn't read has a fault")
}

fn fault_in(field: &[u8], form: &Form) -> Option<&'static str> {
    match *form {
        Form::Kind => {
            (!KINDS.iter().any(|kind| kind.word().as_bytes() == field)).then_some("BadKind")
        }
        Form::Upto(most) => {
            let digits = !field.is_empty() && field.iter().all(u8::is_ascii_digit);
            if !digits || field.len() > 1 && field[0] == b'0' {
                return Some("BadNumber");
            }
            let number = std::str::from_utf8(field).ok()?.parse::<u64>();
            (!number.is_ok_and(|number| number <= most)).then_some("NumberTooLarge")
        }
    }
}
