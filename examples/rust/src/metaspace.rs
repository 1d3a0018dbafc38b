//! A safe wrapper of the library: what a caller owes is kept by ownership, and nothing is left to owe.
use std::ops::Range;
use std::ptr;

pub(crate) mod ffi {
    //! The calls as nizgrabul.h has them.
    use super::{Counts, LoaderSums, Run};

    #[repr(C)]
    pub struct Handle {
        pub at: *mut u8,
        pub live: bool,
    }

    #[repr(C)]
    pub struct Options {
        pub nodes: u32,
        pub class_nodes: u32,
        pub max_granules: u64,
        pub policy: u32,
    }

    #[repr(C)]
    pub struct Answer {
        pub status: u32,
        pub value: u64,
        pub limit: u64,
        pub need: u64,
    }

    #[repr(C)]
    pub struct Seat {
        pub at: *mut u8,
        pub live: bool,
    }

    unsafe extern "C" {
        pub fn nizgrabul_version() -> u32;
        pub fn nizgrabul_new(options: *const Options, out: *mut Handle) -> u32;
        pub fn nizgrabul_delete(handle: *mut Handle);
        pub fn nizgrabul_new_loader(handle: *mut Handle, loader: u16, kind: u32) -> Answer;
        pub fn nizgrabul_unload(handle: *mut Handle, loader: u16) -> Answer;
        pub fn nizgrabul_alloc_with_run(handle: *mut Handle, loader: u16, block: u32, words: u64, out: *mut Run) -> Answer;
        pub fn nizgrabul_calloc_with_run(handle: *mut Handle, loader: u16, block: u32, words: u64, out: *mut Run) -> Answer;
        pub fn nizgrabul_free_block(handle: *mut Handle, loader: u16, start: u64, words: u64) -> Answer;
        pub fn nizgrabul_purge(handle: *mut Handle) -> Answer;
        pub fn nizgrabul_counts(handle: *mut Handle, out: *mut Counts) -> u32;
        pub fn nizgrabul_holder(handle: *mut Handle, word: u64) -> Answer;
        pub fn nizgrabul_used_by(handle: *mut Handle, loader: u16) -> u64;
        pub fn nizgrabul_granules(handle: *mut Handle, first: u32, out: *mut bool, elements: usize);
        pub fn nizgrabul_loader_totals(handle: *mut Handle, loader: u16, out: *mut LoaderSums) -> u32;
        pub fn nizgrabul_share(options: *const Options, seats: u32, out: *mut Seat) -> u32;
        pub fn nizgrabul_seat_split(seat: *mut Seat, out: *mut Seat) -> u32;
        pub fn nizgrabul_seat_end(seat: *mut Seat);
        pub fn nizgrabul_seat_hold(seat: *mut Seat) -> u32;
        pub fn nizgrabul_seat_let_go(seat: *mut Seat) -> u32;
        pub fn nizgrabul_seat_new_loader(seat: *mut Seat, kind: u32) -> Answer;
        pub fn nizgrabul_seat_unload(seat: *mut Seat) -> Answer;
        pub fn nizgrabul_seat_alloc(seat: *mut Seat, block: u32, words: u64) -> Answer;
        pub fn nizgrabul_seat_calloc(seat: *mut Seat, block: u32, words: u64) -> Answer;
        pub fn nizgrabul_seat_free(seat: *mut Seat, block: u32) -> Answer;
        pub fn nizgrabul_seat_purge(seat: *mut Seat) -> Answer;
        pub fn nizgrabul_seat_used(seat: *mut Seat) -> u64;
        pub fn nizgrabul_seat_granules(seat: *mut Seat, first: u32, out: *mut bool, elements: usize) -> u32;
        pub fn nizgrabul_seat_next_uncommitted(
            seat: *mut Seat,
            was: *const bool,
            elements: usize,
            from: u64,
            out: *mut Run,
        ) -> u32;
    }
}

/// The version of nizgrabul.h that this file was written by.
pub const VERSION: u32 = 7;

/// The settings of a system, under the policy balanced.
#[derive(Clone, Copy)]
pub struct Settings {
    pub nodes: u32,
    pub class_nodes: u32,
    pub max_granules: u64,
}

/// A run of granules, as nizgrabul.h has it.
#[repr(C)]
#[derive(Clone, Copy, Default)]
pub struct Run {
    pub first: u64,
    pub granules: u64,
    pub came: u64,
}

impl Run {
    /// The numbers of its granules.
    pub fn numbers(&self) -> Range<u64> {
        self.first..self.first + self.granules
    }
}

/// A block that was allocated: the word where it starts, and the granules that became committed for it.
pub struct Allocation {
    pub start: u64,
    pub run: Run,
}

/// What is committed and reserved, beside what may be, as nizgrabul.h has it.
#[repr(C)]
#[derive(Clone, Copy, Default)]
pub struct Counts {
    pub granules: u64,
    pub granule_limit: u64,
    pub granule_words: u64,
    pub nodes: u64,
    pub node_limit: u64,
    pub class_nodes: u64,
}

/// The sums over one loader's arena in a space, as nizgrabul.h has them.
#[repr(C)]
#[derive(Clone, Copy, Default, Debug)]
pub struct ArenaSums {
    pub chunks: u64,
    pub capacity: u64,
    pub fronts: u64,
    pub used: u64,
    pub live: u64,
    pub free_blocks: u64,
    pub waste: u64,
}

/// The kind of one loader, by its number, and its sums, as nizgrabul.h has them.
#[repr(C)]
#[derive(Clone, Copy, Default, Debug)]
pub struct LoaderSums {
    pub kind: u64,
    pub space: ArenaSums,
    pub class_space: ArenaSums,
}

/// Kinds of loaders.
pub enum Kind {
    Standard = 0,
    Boot = 1,
    Reflection = 2,
    Hidden = 3,
}

/// Whether a block is one of the class space.
pub enum Space {
    NonClass,
    Class,
}

/// Why a call is refused: the statuses of nizgrabul.h, but for DONE and those that no call answers.
#[derive(Clone, Copy, Debug, PartialEq, Eq)]
pub enum Refusal {
    OutOfMemory = 1,
    ZeroWords = 2,
    TooLarge = 3,
    CommitLimit = 4,
    ReserveLimit = 5,
    NotLive = 6,
    NoLoader = 8,
    LoaderExists = 9,
    NoBlock = 10,
    BlockExists = 11,
    IdsUsedUp = 12,
    NoSystem = 20,
    InUse = 21,
    BadSettings = 22,
    BadKind = 23,
    Busy = 24,
    NotHeld = 25,
    NoSeat = 26,
    NoSpare = 27,
}

impl Refusal {
    const ALL: [Refusal; 19] = [
        Refusal::OutOfMemory,
        Refusal::ZeroWords,
        Refusal::TooLarge,
        Refusal::CommitLimit,
        Refusal::ReserveLimit,
        Refusal::NotLive,
        Refusal::NoLoader,
        Refusal::LoaderExists,
        Refusal::NoBlock,
        Refusal::BlockExists,
        Refusal::IdsUsedUp,
        Refusal::NoSystem,
        Refusal::InUse,
        Refusal::BadSettings,
        Refusal::BadKind,
        Refusal::Busy,
        Refusal::NotHeld,
        Refusal::NoSeat,
        Refusal::NoSpare,
    ];

    fn of(status: u32) -> Refusal {
        *Refusal::ALL.iter().find(|refusal| **refusal as u32 == status).expect("a status of this version")
    }
}

/// A refusal with its numbers, as nizgrabul.h has them.
#[derive(Debug)]
pub struct Refused {
    pub refusal: Refusal,
    pub value: u64,
    pub limit: u64,
    pub need: u64,
}

/// A system, which gives its memory back when it is dropped.
pub struct Metaspace(ffi::Handle);

// SAFETY: between calls a handle may move to another thread, as nizgrabul.h says.
unsafe impl Send for Metaspace {}

pub(crate) fn served(answer: ffi::Answer) -> Result<u64, Refused> {
    let ffi::Answer { status, value, limit, need } = answer;
    match status {
        0 => Ok(value),
        _ => Err(Refused { refusal: Refusal::of(status), value, limit, need }),
    }
}

/// A status that comes with no numbers.
pub(crate) fn done(status: u32) -> Result<(), Refused> {
    served(ffi::Answer { status, value: 0, limit: 0, need: 0 }).map(|_| ())
}

impl Metaspace {
    pub fn new(settings: &Settings) -> Result<Metaspace, Refused> {
        // SAFETY: the call takes and changes nothing.
        assert_eq!(unsafe { ffi::nizgrabul_version() }, VERSION, "the library is of another version");
        let Settings { nodes, class_nodes, max_granules } = *settings;
        let options = ffi::Options { nodes, class_nodes, max_granules, policy: 0 };
        let mut metaspace = Metaspace(ffi::Handle { at: ptr::null_mut(), live: false });
        // SAFETY: the handle is empty, and both are borrowed for the call alone.
        done(unsafe { ffi::nizgrabul_new(&options, &mut metaspace.0) }).map(|()| metaspace)
    }

    pub fn new_loader(&mut self, loader: u16, kind: Kind) -> Result<(), Refused> {
        // SAFETY: only these calls touch the handle, and this one has it to itself; so below.
        served(unsafe { ffi::nizgrabul_new_loader(&mut self.0, loader, kind as u32) }).map(|_| ())
    }

    pub fn unload(&mut self, loader: u16) -> Result<(), Refused> {
        served(unsafe { ffi::nizgrabul_unload(&mut self.0, loader) }).map(|_| ())
    }

    /// Allocates a block, and tells where it starts and which granules became committed.
    pub fn alloc(&mut self, space: Space, loader: u16, block: u32, words: u64) -> Result<Allocation, Refused> {
        let mut run = Run::default();
        let call = match space {
            Space::NonClass => ffi::nizgrabul_alloc_with_run,
            Space::Class => ffi::nizgrabul_calloc_with_run,
        };
        let start = served(unsafe { call(&mut self.0, loader, block, words, &mut run) })?;
        Ok(Allocation { start, run })
    }

    /// Frees the block that starts there and has so many words.
    pub fn free_block(&mut self, loader: u16, start: u64, words: u64) -> Result<(), Refused> {
        served(unsafe { ffi::nizgrabul_free_block(&mut self.0, loader, start, words) }).map(|_| ())
    }

    /// Gives back unused nodes, and answers how many.
    pub fn purge(&mut self) -> Result<u64, Refused> {
        served(unsafe { ffi::nizgrabul_purge(&mut self.0) })
    }

    /// What is committed and reserved, beside what may be.
    pub fn counts(&mut self) -> Counts {
        let mut counts = Counts::default();
        // A wrapper always has a system, so the status is always DONE.
        unsafe { ffi::nizgrabul_counts(&mut self.0, &mut counts) };
        counts
    }

    /// The sums of one loader.
    pub fn loader_totals(&mut self, loader: u16) -> Result<LoaderSums, Refused> {
        let mut sums = LoaderSums::default();
        done(unsafe { ffi::nizgrabul_loader_totals(&mut self.0, loader, &mut sums) })?;
        Ok(sums)
    }

    /// The loader in whose chunk a word lies, if it lies in one.
    pub fn holder(&mut self, word: u64) -> Option<u64> {
        served(unsafe { ffi::nizgrabul_holder(&mut self.0, word) }).ok()
    }

    pub fn used_by(&mut self, loader: u16) -> u64 {
        unsafe { ffi::nizgrabul_used_by(&mut self.0, loader) }
    }

    /// Which granules are committed, from the first on.
    pub fn granules(&mut self, first: u32, elements: usize) -> Vec<bool> {
        let mut bits = vec![false; elements];
        unsafe { ffi::nizgrabul_granules(&mut self.0, first, bits.as_mut_ptr(), elements) };
        bits
    }
}

impl Drop for Metaspace {
    fn drop(&mut self) {
        unsafe { ffi::nizgrabul_delete(&mut self.0) }
    }
}
