//! The loaders by name, with the pool that they share and the contents of their blocks.

use crate::arena::Arena;
use crate::bits::Bits;
use crate::contents::Contents;
use crate::names::{Block, Names};
use crate::options::Options;
use crate::pool::{space_of, Pool, CLASS_START, NODE_WORDS, ROOT_WORDS};
use crate::reading::{Kind, Space};
use crate::replies::Refusal;

pub struct Loader {
    pub kind: Kind,
    pub arenas: [Arena; 2],
    names: Names,
}

pub const SPACES: [Space; 2] = [Space::NonClass, Space::Class];

pub struct Loaders {
    pub pool: Pool,
    contents: [Contents; 2],
    /// By name: the loader's place and 1, 0 where there is none.
    places: Vec<u32>,
    named: Bits,
    loaders: Vec<Loader>,
    /// The places of emptied loaders.
    spare: Vec<u32>,
}

impl Loaders {
    pub fn new(options: &Options) -> Loaders {
        let size = |nodes: u32| nodes as usize * NODE_WORDS as usize;
        Loaders {
            pool: Pool::new(options),
            contents: [
                Contents::new(0, size(options.nodes)),
                Contents::new(CLASS_START, size(options.class_nodes)),
            ],
            places: vec![0; 1 << 16],
            named: Bits::new(1 << 16),
            loaders: Vec::new(),
            spare: Vec::new(),
        }
    }

    pub fn count(&self) -> usize {
        self.loaders.len() - self.spare.len()
    }

    /// The loaders in rising order of name.
    pub fn by_name(&self) -> impl Iterator<Item = (usize, &Loader)> {
        self.named
            .members()
            .map(|name| (name, &self.loaders[self.places[name] as usize - 1]))
    }

    fn place(&self, name: u16) -> Result<usize, Refusal> {
        (self.places[usize::from(name)] as usize)
            .checked_sub(1)
            .ok_or(Refusal::NoLoader)
    }

    fn block(&self, name: u16, block: u32) -> Result<Block, Refusal> {
        self.loaders[self.place(name)?]
            .names
            .get(block)
            .ok_or(Refusal::NoBlock)
    }

    /// The number of a block's word.
    fn word(&self, name: u16, block: u32, index: u64) -> Result<u32, Refusal> {
        let block = self.block(name, block)?;
        if index < u64::from(block.words) {
            Ok(block.start + index as u32)
        } else {
            Err(Refusal::OutOfRange)
        }
    }

    pub fn add(&mut self, name: u16, kind: Kind) -> Result<(), Refusal> {
        if self.place(name).is_ok() {
            return Err(Refusal::LoaderExists);
        }
        let place = match self.spare.pop() {
            Some(place) => {
                self.loaders[place as usize].kind = kind;
                place
            }
            None => {
                self.loaders.push(Loader {
                    kind,
                    arenas: Default::default(),
                    names: Names::default(),
                });
                self.loaders.len() as u32 - 1
            }
        };
        self.places[usize::from(name)] = place + 1;
        self.named.add(usize::from(name));
        Ok(())
    }

    #[inline]
    pub fn alloc(
        &mut self,
        space: Space,
        name: u16,
        block: u32,
        words: u64,
    ) -> Result<u32, Refusal> {
        let place = self.place(name)?;
        let loader = &mut self.loaders[place];
        let gap = loader.names.gap(block).ok_or(Refusal::BlockExists)?;
        if words == 0 {
            return Err(Refusal::ZeroWords);
        }
        if words > u64::from(ROOT_WORDS) {
            return Err(Refusal::TooLarge);
        }
        let words = (words as u32).max(2);
        let start =
            loader.arenas[space as usize].alloc(&mut self.pool, loader.kind, space, words)?;
        loader.names.put(gap, block, start, words);
        self.contents[space as usize].zero(start, words);
        Ok(start)
    }

    pub fn write(&mut self, name: u16, block: u32, index: u64, value: u64) -> Result<(), Refusal> {
        let word = self.word(name, block, index)?;
        self.contents[space_of(word) as usize].write(word, value);
        Ok(())
    }

    pub fn read(&self, name: u16, block: u32, index: u64) -> Result<u64, Refusal> {
        let word = self.word(name, block, index)?;
        Ok(self.contents[space_of(word) as usize].read(word))
    }

    pub fn free(&mut self, name: u16, block: u32) -> Result<(), Refusal> {
        let place = self.place(name)?;
        let loader = &mut self.loaders[place];
        let block = loader.names.remove(block).ok_or(Refusal::NoBlock)?;
        loader.arenas[space_of(block.start) as usize].free(block.start, block.words);
        Ok(())
    }

    pub fn unload(&mut self, name: u16) -> Result<(), Refusal> {
        let place = self.place(name)?;
        let loader = &mut self.loaders[place];
        for space in SPACES {
            loader.arenas[space as usize].empty(&mut self.pool, space);
        }
        loader.names.clear();
        self.spare.push(place as u32);
        self.places[usize::from(name)] = 0;
        self.named.remove(usize::from(name));
        Ok(())
    }

    pub fn purge(&mut self) {
        self.pool.purge();
    }
}
