//! The pool of both spaces: free parts by level, reserved nodes, committed granules.

use crate::bits::{Bits, LeastBits};
use crate::options::{Options, Policy};
use crate::reading::Space;
use crate::replies::Refusal;

pub const LEVELS: usize = 13;
pub const ROOT_WORDS: u32 = 524_288;
pub const NODE_WORDS: u32 = 1_048_576;
pub const CLASS_START: u32 = 64 * NODE_WORDS;
const CLASS_SLOTS: u32 = 16;

/// The words of a chunk of a level.
pub const fn size_of(level: u32) -> u32 {
    ROOT_WORDS >> level
}

/// The greatest level whose chunks hold so many words, at most a root's.
pub const fn level_for(words: u32) -> u32 {
    let level = (words - 1).leading_zeros() - ROOT_WORDS.leading_zeros() - 1;
    if level < 12 {
        level
    } else {
        12
    }
}

/// The space that a word lies in.
pub const fn space_of(start: u32) -> Space {
    if start < CLASS_START {
        Space::NonClass
    } else {
        Space::Class
    }
}

/// A chunk that is lent: so many of its first words are committed for its holder.
#[derive(Clone, Copy)]
pub struct Chunk {
    pub start: u32,
    pub front: u32,
    pub level: u32,
}

/// The levels from low up to high, a bit each.
fn levels(low: u32, high: u32) -> u32 {
    if low > high {
        0
    } else {
        (2 << high) - (1 << low)
    }
}

fn lowest(levels: u32) -> Option<u32> {
    (levels != 0).then(|| levels.trailing_zeros())
}

fn highest(levels: u32) -> Option<u32> {
    (levels != 0).then(|| levels.ilog2())
}

/// What the pool has of one space.
pub struct Area {
    first: u32,
    /// The free parts of each level, by number from the space's first word on, and the levels that
    /// have any.
    free: [LeastBits; LEVELS],
    some: u32,
    /// The reserved nodes, a bit each, and how many there may be.
    slots: u64,
    most_slots: u32,
    pub granules: u32,
    pub held: [u32; LEVELS],
    pub capacity: u64,
    pub fronts: u64,
}

impl Area {
    fn new(first: u32, slots: u32, most_slots: u32) -> Area {
        Area {
            first,
            free: std::array::from_fn(|level| LeastBits::new((2 * slots as usize) << level)),
            some: 0,
            slots: 0,
            most_slots,
            granules: 0,
            held: [0; LEVELS],
            capacity: 0,
            fronts: 0,
        }
    }

    pub fn nodes(&self) -> u32 {
        self.slots.count_ones()
    }

    pub fn free_parts(&self, level: usize) -> u32 {
        self.free[level].count
    }

    fn start_of(&self, level: u32, part: usize) -> u32 {
        self.first + part as u32 * size_of(level)
    }

    fn part_at(&self, level: u32, start: u32) -> usize {
        ((start - self.first) / size_of(level)) as usize
    }

    fn add(&mut self, level: u32, part: usize) {
        self.free[level as usize].add(part);
        self.some |= 1 << level;
    }

    fn remove(&mut self, level: u32, part: usize) {
        let parts = &mut self.free[level as usize];
        parts.remove(part);
        if parts.count == 0 {
            self.some &= !(1 << level);
        }
    }

    fn reserve(&mut self, slot: u32) {
        self.slots |= 1 << slot;
        self.add(0, 2 * slot as usize);
        self.add(0, 2 * slot as usize + 1);
    }

    /// Takes the first part of a level out of a free part that is as large.
    fn carve(&mut self, from: u32, part: usize, to: u32) {
        self.remove(from, part);
        let mut first = part;
        for level in from + 1..=to {
            first *= 2;
            self.add(level, first + 1);
        }
    }

    /// Makes a part free, joined with its buddy as long as that is free; tells the level that it
    /// has then.
    fn release(&mut self, mut level: u32, mut part: usize) -> u32 {
        while level > 0 && self.free[level as usize].has(part ^ 1) {
            self.remove(level, part ^ 1);
            part /= 2;
            level -= 1;
        }
        self.add(level, part);
        level
    }
}

pub struct Pool {
    pub areas: [Area; 2],
    committed: Bits,
    /// A granule has 2 to this words.
    shift: u32,
    /// Parts of greater levels are smaller than a granule, and committed where they are free.
    granule_level: u32,
    keeps: bool,
    most_granules: u32,
}

impl Pool {
    pub fn new(options: &Options) -> Pool {
        let shift = if options.policy == Policy::Aggressive {
            11
        } else {
            13
        };
        let mut class_area = Area::new(CLASS_START, CLASS_SLOTS, options.class_nodes);
        (0..options.class_nodes).for_each(|slot| class_area.reserve(slot));
        Pool {
            areas: [Area::new(0, 64, options.nodes), class_area],
            committed: Bits::new(((CLASS_START + CLASS_SLOTS * NODE_WORDS) >> shift) as usize),
            shift,
            granule_level: 19 - shift,
            keeps: options.policy == Policy::None,
            most_granules: options.max_granules,
        }
    }

    pub fn granule_words(&self) -> u64 {
        1 << self.shift
    }

    /// The granules that meet so many words from a start on, the last not included.
    fn granules(&self, start: u32, words: u32) -> (usize, usize) {
        (
            (start >> self.shift) as usize,
            ((start + words - 1) >> self.shift) as usize + 1,
        )
    }

    fn front_for(&self, level: u32, words: u32) -> u32 {
        if self.keeps || level > self.granule_level {
            size_of(level)
        } else {
            words.next_multiple_of(1 << self.shift)
        }
    }

    /// Commits what a front lacks, where the limit allows it.
    fn commit(&mut self, space: Space, start: u32, front: u32) -> Result<(), Refusal> {
        let (from, to) = self.granules(start, front);
        let missing = self.committed.missing(from, to);
        if self.areas[0].granules + self.areas[1].granules + missing > self.most_granules {
            return Err(Refusal::CommitLimit);
        }
        if missing > 0 {
            self.committed.fill(from, to);
            self.areas[space as usize].granules += missing;
        }
        Ok(())
    }

    fn uncommit(&mut self, space: Space, start: u32, words: u32) {
        let (from, to) = self.granules(start, words);
        self.areas[space as usize].granules -= self.committed.clear(from, to);
    }

    /// The lowest free part of a level whose first words are committed, for levels not below a
    /// granule's.
    fn committed_part(&self, area: &Area, level: u32, words: u32) -> Option<usize> {
        area.free[level as usize].members().find(|&part| {
            let (from, to) = self.granules(area.start_of(level, part), words);
            self.committed.missing(from, to) == 0
        })
    }

    /// The levels that have a free part which is committed enough, up to the most that serves.
    fn committed_levels(&self, area: &Area, most: u32, words: u32) -> u32 {
        let small = area.some & levels(self.granule_level + 1, 12);
        if !self.keeps {
            return small;
        }
        let large = (0..=self.granule_level.min(most)).filter(|&level| area.some >> level & 1 == 1);
        large
            .filter(|&level| self.committed_part(area, level, words).is_some())
            .fold(small, |all, level| all | 1 << level)
    }

    /// The free part that the searches find first: its level and number.
    fn found(&self, area: &Area, wanted: u32, most: u32, words: u32) -> Option<(u32, usize)> {
        let committed = self.committed_levels(area, most, words);
        let near = lowest(committed & levels(wanted, most.min(wanted + 2)));
        let larger = || highest(committed & levels(0, wanted));
        let smaller = || lowest(committed & levels(wanted, most));
        if let Some(level) = near.or_else(larger).or_else(smaller) {
            let part = if level > self.granule_level {
                None
            } else {
                self.committed_part(area, level, words)
            };
            return Some((
                level,
                part.unwrap_or_else(|| area.free[level as usize].least()),
            ));
        }
        let any = lowest(area.some & levels(wanted, most))
            .or_else(|| highest(area.some & levels(0, wanted)));
        any.map(|level| (level, area.free[level as usize].least()))
    }

    /// Lends a chunk of the wanted level, or of one up to the most, for so many words.
    pub fn take(
        &mut self,
        space: Space,
        wanted: u32,
        most: u32,
        words: u32,
    ) -> Result<Chunk, Refusal> {
        let area = &self.areas[space as usize];
        let found = self.found(area, wanted, most, words);
        let new_slot = (!area.slots).trailing_zeros();
        if found.is_none() && area.nodes() == area.most_slots {
            return Err(Refusal::ReserveLimit);
        }
        let (from, part) = found.unwrap_or((0, 2 * new_slot as usize));
        let level = from.max(wanted);
        let start = area.start_of(from, part);
        let front = self.front_for(level, words);
        self.commit(space, start, front)?;
        let area = &mut self.areas[space as usize];
        if found.is_none() {
            area.reserve(new_slot);
        }
        area.carve(from, part, level);
        area.held[level as usize] += 1;
        area.capacity += u64::from(size_of(level));
        area.fronts += u64::from(front);
        Ok(Chunk {
            start,
            front,
            level,
        })
    }

    /// Makes a chunk's front reach so many words in its place, if it can; the chunk may become its
    /// parent.
    pub fn grow(&mut self, space: Space, chunk: &mut Chunk, total: u32, may_enlarge: bool) -> bool {
        let size = size_of(chunk.level);
        let area = &self.areas[space as usize];
        let part = area.part_at(chunk.level, chunk.start);
        let enlarges = total > size;
        if enlarges {
            let fits = total <= 2 * size && may_enlarge && chunk.level > 0;
            if !fits || part % 2 == 1 || !area.free[chunk.level as usize].has(part + 1) {
                return false;
            }
        }
        let level = chunk.level - u32::from(enlarges);
        let front = self.front_for(level, total);
        if self.commit(space, chunk.start, front).is_err() {
            return false;
        }
        let area = &mut self.areas[space as usize];
        if enlarges {
            area.remove(chunk.level, part + 1);
            area.held[chunk.level as usize] -= 1;
            area.held[level as usize] += 1;
            area.capacity += u64::from(size);
        }
        area.fronts += u64::from(front - chunk.front);
        chunk.level = level;
        chunk.front = front;
        true
    }

    /// Takes a chunk back.
    pub fn give_back(&mut self, space: Space, chunk: Chunk) {
        let area = &mut self.areas[space as usize];
        area.held[chunk.level as usize] -= 1;
        area.capacity -= u64::from(size_of(chunk.level));
        area.fronts -= u64::from(chunk.front);
        let level = area.release(chunk.level, area.part_at(chunk.level, chunk.start));
        if !self.keeps && level <= self.granule_level {
            self.uncommit(space, chunk.start, chunk.front);
        }
    }

    /// Gives back the nodes that have no chunk; those of the class space stay.
    pub fn purge(&mut self) {
        let mut rest = self.areas[Space::NonClass as usize].slots;
        while rest != 0 {
            let slot = rest.trailing_zeros();
            rest &= rest - 1;
            let area = &mut self.areas[Space::NonClass as usize];
            let root = 2 * slot as usize;
            if area.free[0].has(root) && area.free[0].has(root + 1) {
                area.remove(0, root);
                area.remove(0, root + 1);
                area.slots &= !(1 << slot);
                self.uncommit(Space::NonClass, slot * NODE_WORDS, NODE_WORDS);
            }
        }
    }
}
