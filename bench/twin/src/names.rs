//! A loader's live blocks by name: open addressing, each entry behind no gap from where its name
//! hashes to.

/// A live block and its name; an entry of no words is a gap.
#[derive(Clone, Copy)]
pub struct Block {
    name: u32,
    pub start: u32,
    pub words: u32,
}

const GAP: Block = Block {
    name: 0,
    start: 0,
    words: 0,
};

#[derive(Default)]
pub struct Names {
    entries: Vec<Block>,
    count: usize,
}

impl Names {
    /// The place that a name hashes to.
    fn home(&self, name: u32) -> usize {
        let bits = self.entries.len().trailing_zeros();
        (u64::from(name.wrapping_mul(0x9e37_79b9)) >> (32 - bits)) as usize
    }

    fn after(&self, place: usize) -> usize {
        (place + 1) & (self.entries.len() - 1)
    }

    /// Finds the place of a name, or else the gap that it would have.
    fn place_of(&self, name: u32) -> Result<usize, usize> {
        let mut place = self.home(name);
        loop {
            let entry = &self.entries[place];
            if entry.words == 0 {
                return Err(place);
            }
            if entry.name == name {
                return Ok(place);
            }
            place = self.after(place);
        }
    }

    #[inline]
    pub fn get(&self, name: u32) -> Option<Block> {
        if self.entries.is_empty() {
            return None;
        }
        self.place_of(name).ok().map(|place| self.entries[place])
    }

    /// Finds a gap for a new name, for `put`; there is none where the name is in use.
    #[inline]
    pub fn gap(&mut self, name: u32) -> Option<usize> {
        if 4 * self.count >= 3 * self.entries.len() {
            self.grow();
        }
        self.place_of(name).err()
    }

    /// Puts a block into the gap that was found for its name.
    #[inline]
    pub fn put(&mut self, gap: usize, name: u32, start: u32, words: u32) {
        self.entries[gap] = Block { name, start, words };
        self.count += 1;
    }

    #[inline(never)]
    fn grow(&mut self) {
        let size = (2 * self.entries.len()).max(4);
        let old = std::mem::replace(&mut self.entries, vec![GAP; size]);
        for block in old.into_iter().filter(|block| block.words > 0) {
            if let Err(gap) = self.place_of(block.name) {
                self.entries[gap] = block;
            }
        }
    }

    /// Takes a name out, and moves what stands behind it into the gap where that is nearer its
    /// home.
    pub fn remove(&mut self, name: u32) -> Option<Block> {
        if self.entries.is_empty() {
            return None;
        }
        let mut gap = self.place_of(name).ok()?;
        let removed = self.entries[gap];
        let last = self.entries.len() - 1;
        let mut place = self.after(gap);
        while self.entries[place].words > 0 {
            let home = self.home(self.entries[place].name);
            if place.wrapping_sub(home) & last >= place.wrapping_sub(gap) & last {
                self.entries[gap] = self.entries[place];
                gap = place;
            }
            place = self.after(place);
        }
        self.entries[gap] = GAP;
        self.count -= 1;
        Some(removed)
    }

    /// Forgets all names, and keeps the room of a small table.
    pub fn clear(&mut self) {
        self.entries.truncate(if self.entries.len() > 128 {
            0
        } else {
            self.entries.len()
        });
        self.entries.fill(GAP);
        self.count = 0;
    }
}
