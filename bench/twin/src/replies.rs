//! The answers as text: a line each, with the number of the line that it answers.

/// Why a command changes nothing.
#[derive(Clone, Copy)]
pub enum Refusal {
    LoaderExists,
    NoLoader,
    BlockExists,
    ZeroWords,
    TooLarge,
    ReserveLimit,
    CommitLimit,
    NoBlock,
    OutOfRange,
}

impl Refusal {
    const fn text(self) -> &'static [u8] {
        match self {
            Refusal::LoaderExists => b"refused LoaderExists\n",
            Refusal::NoLoader => b"refused NoLoader\n",
            Refusal::BlockExists => b"refused BlockExists\n",
            Refusal::ZeroWords => b"refused ZeroWords\n",
            Refusal::TooLarge => b"refused TooLarge\n",
            Refusal::ReserveLimit => b"refused ReserveLimit\n",
            Refusal::CommitLimit => b"refused CommitLimit\n",
            Refusal::NoBlock => b"refused NoBlock\n",
            Refusal::OutOfRange => b"refused OutOfRange\n",
        }
    }
}

pub struct Replies {
    text: Vec<u8>,
    addresses: bool,
    line: u32,
    /// The line's number and a space: so many bytes of eight.
    label: u64,
    length: usize,
}

impl Replies {
    pub fn new(addresses: bool) -> Replies {
        Replies {
            text: Vec::new(),
            addresses,
            line: 0,
            label: u64::from_le_bytes(*b"0       "),
            length: 2,
        }
    }

    pub fn text(&mut self) -> &mut Vec<u8> {
        &mut self.text
    }

    pub fn into_text(self) -> Vec<u8> {
        self.text
    }

    /// Begins the answer to a line: its number is mostly the last one and 1.
    #[inline]
    pub fn label(&mut self, line: u32) {
        while self.line < line {
            self.line += 1;
            self.count_up();
        }
    }

    /// Adds 1 to the label's number, a digit at a time from the last on.
    #[inline]
    fn count_up(&mut self) {
        for place in (0..self.length - 1).rev() {
            if (self.label >> (8 * place)) as u8 != b'9' {
                self.label += 1 << (8 * place);
                return;
            }
            self.label -= 9 << (8 * place);
        }
        self.label = self.label << 8 | u64::from(b'1');
        self.length += 1;
    }

    /// Appends the first bytes of eight.
    #[inline]
    fn append(&mut self, eight: u64, length: usize) {
        self.text.extend_from_slice(&eight.to_le_bytes());
        self.text.truncate(self.text.len() - 8 + length);
    }

    #[inline]
    pub fn done(&mut self, answer: Result<(), Refusal>) {
        self.append(self.label, self.length);
        match answer {
            Ok(()) => self.append(u64::from_le_bytes(*b"ok\n     "), 3),
            Err(refusal) => self.text.extend_from_slice(refusal.text()),
        }
    }

    #[inline]
    pub fn at(&mut self, answer: Result<u32, Refusal>) {
        match answer {
            Ok(start) if self.addresses => self.number(b"at      ", 3, start.into()),
            _ => self.done(answer.map(|_| ())),
        }
    }

    #[inline]
    pub fn value(&mut self, answer: Result<u64, Refusal>) {
        match answer {
            Ok(value) => self.number(b"value   ", 6, value),
            Err(refusal) => self.done(Err(refusal)),
        }
    }

    fn number(&mut self, word: &[u8; 8], length: usize, number: u64) {
        self.append(self.label, self.length);
        self.append(u64::from_le_bytes(*word), length);
        let mut digits = [b'\n'; 24];
        let start = put_number(&mut digits, 23, number);
        self.text.extend_from_slice(&digits[start..]);
    }
}

/// Writes a number so that it ends before a place, and tells where it starts.
#[inline]
pub fn put_number(bytes: &mut [u8], end: usize, number: u64) -> usize {
    let (mut place, mut rest) = (end, number);
    loop {
        place -= 1;
        bytes[place] = b'0' + (rest % 10) as u8;
        rest /= 10;
        if rest == 0 {
            return place;
        }
    }
}
