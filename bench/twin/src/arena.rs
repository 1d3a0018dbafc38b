//! A loader's arena in one space: its chunks, the top of the current one, and free blocks.

use crate::free_blocks::FreeBlocks;
use crate::pool::{level_for, size_of, Chunk, Pool};
use crate::reading::{Kind, Space};
use crate::replies::Refusal;

#[derive(Default)]
pub struct Arena {
    /// In the order in which they were taken; the last one is current.
    chunks: Vec<Chunk>,
    /// How many of the current chunk's words are in use; of each other chunk it is the front.
    top: u32,
    free_blocks: FreeBlocks,
    pub used: u64,
    pub live: u64,
}

/// The level of a loader's next chunk, where it has so many in the space.
fn growth(kind: Kind, space: Space, chunks: usize) -> u32 {
    let levels: &[u32] = match (kind, space) {
        (Kind::Standard, Space::NonClass) => &[10, 10, 10, 9, 8],
        (Kind::Boot, Space::NonClass) => &[0, 2],
        (Kind::Reflection, Space::NonClass) => &[11, 12],
        (Kind::Standard, Space::Class) => &[11, 11, 10, 9, 8],
        (Kind::Boot, Space::Class) => &[2, 4],
        (Kind::Hidden, _) | (Kind::Reflection, Space::Class) => &[12],
    };
    levels[chunks.min(levels.len() - 1)]
}

impl Arena {
    pub fn chunks(&self) -> usize {
        self.chunks.len()
    }

    pub fn capacity(&self) -> u64 {
        self.chunks
            .iter()
            .map(|chunk| u64::from(size_of(chunk.level)))
            .sum()
    }

    pub fn free_words(&self) -> u64 {
        self.free_blocks.words()
    }

    /// Finds a place for a block of so many words: in a free block, at the current chunk's top, or
    /// in a chunk that grows or is taken.
    #[inline]
    pub fn alloc(
        &mut self,
        pool: &mut Pool,
        kind: Kind,
        space: Space,
        words: u32,
    ) -> Result<u32, Refusal> {
        let start = match (self.free_blocks.take(words), self.chunks.last()) {
            (Some(start), _) => start,
            (None, Some(current)) if self.top + words <= current.front => {
                let start = current.start + self.top;
                self.top += words;
                self.used += u64::from(words);
                start
            }
            _ => self.alloc_in_chunk(pool, kind, space, words)?,
        };
        self.live += u64::from(words);
        Ok(start)
    }

    #[inline(never)]
    fn alloc_in_chunk(
        &mut self,
        pool: &mut Pool,
        kind: Kind,
        space: Space,
        words: u32,
    ) -> Result<u32, Refusal> {
        let next = growth(kind, space, self.chunks.len());
        if let Some(current) = self.chunks.last_mut() {
            let total = self.top + words;
            if pool.grow(space, current, total, next <= current.level) {
                let start = current.start + self.top;
                self.top = total;
                self.used += u64::from(words);
                return Ok(start);
            }
        }
        let most = level_for(words);
        let chunk = pool.take(space, most.min(next), most, words)?;
        self.retire();
        self.chunks.push(chunk);
        self.top = words;
        self.used += u64::from(words);
        Ok(chunk.start)
    }

    /// The committed words past the current chunk's top become a free block, where they are two at
    /// least.
    fn retire(&mut self) {
        if let Some(current) = self.chunks.last() {
            let rest = current.front - self.top;
            self.used += u64::from(rest);
            if rest >= 2 {
                self.free_blocks.add(current.start + self.top, rest);
            }
        }
    }

    /// Makes a live block a free one.
    pub fn free(&mut self, start: u32, words: u32) {
        self.live -= u64::from(words);
        self.free_blocks.add(start, words);
    }

    /// Gives all back.
    pub fn empty(&mut self, pool: &mut Pool, space: Space) {
        self.chunks
            .drain(..)
            .for_each(|chunk| pool.give_back(space, chunk));
        self.top = 0;
        self.used = 0;
        self.live = 0;
        self.free_blocks.clear();
    }
}
