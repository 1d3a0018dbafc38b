//! What the words of blocks hold: the whole space as one array of zeros, of which the system gives
//! pages as they are written. A page that was written is zeroed where a new block lies in it.

use crate::bits::Bits;

const PAGE: usize = 512;

pub struct Contents {
    first: u32,
    size: usize,
    /// Empty till a word is written.
    words: Vec<u64>,
    written: Bits,
}

impl Contents {
    pub fn new(first: u32, size: usize) -> Contents {
        Contents {
            first,
            size,
            words: Vec::new(),
            written: Bits::new(size / PAGE),
        }
    }

    pub fn read(&self, word: u32) -> u64 {
        self.words
            .get((word - self.first) as usize)
            .copied()
            .unwrap_or(0)
    }

    pub fn write(&mut self, word: u32, value: u64) {
        if self.words.is_empty() {
            self.words = vec![0; self.size];
        }
        let place = (word - self.first) as usize;
        self.words[place] = value;
        self.written.add(place / PAGE);
    }

    /// Makes the words of a new block 0.
    #[inline]
    pub fn zero(&mut self, start: u32, words: u32) {
        if !self.words.is_empty() {
            self.zero_written(
                (start - self.first) as usize,
                (start - self.first + words) as usize,
            );
        }
    }

    #[inline(never)]
    fn zero_written(&mut self, from: usize, to: usize) {
        let (low, high) = (from / PAGE, to.div_ceil(PAGE));
        if self.written.missing(low, high) as usize == high - low {
            return;
        }
        for page in (low..high).filter(|&page| self.written.has(page)) {
            self.words[from.max(PAGE * page)..to.min(PAGE * (page + 1))].fill(0);
        }
    }
}
