//! An arena's free blocks by best fit: sorted by words and then by start, in leaves of a few
//! hundred.

const MOST: usize = 256;

/// The leaves, none of them empty; a key is the words and then the start.
#[derive(Default)]
pub struct FreeBlocks {
    leaves: Vec<Vec<u64>>,
    words: u64,
}

fn key_of(start: u32, words: u32) -> u64 {
    u64::from(words) << 32 | u64::from(start)
}

fn last_of(leaf: &[u64]) -> u64 {
    leaf.last().copied().unwrap_or(0)
}

impl FreeBlocks {
    /// The words of all.
    pub fn words(&self) -> u64 {
        self.words
    }

    /// Adds a block.
    pub fn add(&mut self, start: u32, words: u32) {
        let key = key_of(start, words);
        self.words += u64::from(words);
        let leaf = self
            .leaves
            .partition_point(|leaf| last_of(leaf) < key)
            .min(self.leaves.len().wrapping_sub(1));
        let Some(keys) = self.leaves.get_mut(leaf) else {
            self.leaves.push(vec![key]);
            return;
        };
        let place = keys.partition_point(|&other| other < key);
        keys.insert(place, key);
        if keys.len() == MOST {
            let upper = keys.split_off(MOST / 2);
            self.leaves.insert(leaf + 1, upper);
        }
    }

    /// Takes the first words of the smallest block that has so many, the lowest of equal ones:
    /// where they start. What is left of it stays a free block, but for a single word.
    #[inline]
    pub fn take(&mut self, words: u32) -> Option<u32> {
        if self.words < u64::from(words) {
            return None;
        }
        let wanted = key_of(0, words);
        let leaf = self.leaves.partition_point(|leaf| last_of(leaf) < wanted);
        let keys = self.leaves.get_mut(leaf)?;
        let place = keys.partition_point(|&key| key < wanted);
        let key = keys.remove(place);
        if keys.is_empty() {
            self.leaves.remove(leaf);
        }
        let (start, had) = (key as u32, (key >> 32) as u32);
        self.words -= u64::from(had);
        if had - words >= 2 {
            self.add(start + words, had - words);
        }
        Some(start)
    }

    pub fn clear(&mut self) {
        self.leaves.clear();
        self.words = 0;
    }
}
