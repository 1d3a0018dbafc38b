//! Sets of numbers as bits: plain ones, and ones that find their least member by three looks.

/// A set of numbers below a bound.
pub struct Bits {
    words: Vec<u64>,
}

impl Bits {
    pub fn new(bound: usize) -> Bits {
        Bits {
            words: vec![0; bound.div_ceil(64)],
        }
    }

    pub fn has(&self, number: usize) -> bool {
        self.words[number / 64] >> (number % 64) & 1 == 1
    }

    pub fn add(&mut self, number: usize) {
        self.words[number / 64] |= 1 << (number % 64);
    }

    pub fn remove(&mut self, number: usize) {
        self.words[number / 64] &= !(1 << (number % 64));
    }

    /// Counts the numbers from `from` up to, and without, `to` that aren't members.
    pub fn missing(&self, from: usize, to: usize) -> u32 {
        pieces(from, to)
            .map(|(place, mask)| (mask & !self.words[place]).count_ones())
            .sum()
    }

    /// Makes those numbers members.
    pub fn fill(&mut self, from: usize, to: usize) {
        pieces(from, to).for_each(|(place, mask)| self.words[place] |= mask);
    }

    /// Takes those numbers out, and tells how many of them were members.
    pub fn clear(&mut self, from: usize, to: usize) -> u32 {
        let take_out = |(place, mask): (usize, u64)| {
            let members = (mask & self.words[place]).count_ones();
            self.words[place] &= !mask;
            members
        };
        pieces(from, to).map(take_out).sum()
    }

    /// The members in rising order.
    pub fn members(&self) -> impl Iterator<Item = usize> + '_ {
        self.words.iter().enumerate().flat_map(|(place, &word)| {
            let rest = std::iter::successors(Some(word), |rest| Some(rest & rest.wrapping_sub(1)));
            rest.take_while(|&rest| rest != 0)
                .map(move |rest| 64 * place + rest.trailing_zeros() as usize)
        })
    }
}

/// The words that numbers from `from` up to, and without, `to` lie in, each with the bits of it
/// that are meant.
fn pieces(from: usize, to: usize) -> impl Iterator<Item = (usize, u64)> {
    (from / 64..to.div_ceil(64)).map(move |place| {
        let low = u64::MAX << from.saturating_sub(64 * place);
        let high = u64::MAX >> (64 * (place + 1)).saturating_sub(to);
        (place, low & high)
    })
}

/// A set of at most 2^19 numbers that knows its least member: above each 64 words stands a word
/// that tells which of them have a member, and above those a last one of 128 bits.
pub struct LeastBits {
    bits: Bits,
    middle: Vec<u64>,
    top: u128,
    pub count: u32,
}

impl LeastBits {
    pub fn new(bound: usize) -> LeastBits {
        LeastBits {
            bits: Bits::new(bound),
            middle: vec![0; bound.div_ceil(4096)],
            top: 0,
            count: 0,
        }
    }

    pub fn has(&self, number: usize) -> bool {
        self.bits.has(number)
    }

    pub fn add(&mut self, number: usize) {
        self.bits.add(number);
        self.middle[number / 4096] |= 1 << (number / 64 % 64);
        self.top |= 1 << (number / 4096);
        self.count += 1;
    }

    pub fn remove(&mut self, number: usize) {
        self.bits.remove(number);
        self.count -= 1;
        if self.bits.words[number / 64] == 0 {
            let middle = &mut self.middle[number / 4096];
            *middle &= !(1 << (number / 64 % 64));
            if *middle == 0 {
                self.top &= !(1 << (number / 4096));
            }
        }
    }

    /// The least member of a set that has any.
    pub fn least(&self) -> usize {
        let middle = self.top.trailing_zeros() as usize;
        let word = 64 * middle + self.middle[middle].trailing_zeros() as usize;
        64 * word + self.bits.words[word].trailing_zeros() as usize
    }

    pub fn members(&self) -> impl Iterator<Item = usize> + '_ {
        self.bits.members()
    }
}
