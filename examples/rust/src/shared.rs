//! A pool that threads share, and the class loaders over it. A loader goes from thread to thread by value; what needs
//! the pool is a call of a guard, which lets the pool go where it ends. What a caller owes by nizgrabul.h is kept by
//! ownership and by lifetimes: no loader outlives its pool, and none is used after it went.
use crate::metaspace::{done, ffi, served, Kind, Refused, Run, Settings, Space, VERSION};
use std::ptr;
use std::sync::{Mutex, MutexGuard, PoisonError};
use std::thread;

/// A seat, which ends where it is dropped.
struct Seat(ffi::Seat);

// SAFETY: between calls a seat may move to another thread, as nizgrabul.h says.
unsafe impl Send for Seat {}

impl Seat {
    fn empty() -> Seat {
        Seat(ffi::Seat { at: ptr::null_mut(), live: false })
    }
}

impl Drop for Seat {
    fn drop(&mut self) {
        // SAFETY: only these calls touch the seat, and this one has it to itself; so below.
        unsafe { ffi::nizgrabul_seat_end(&mut self.0) }
    }
}

/// The first seat, which has others to spare, and seats whose loaders went.
struct Seats {
    first: Seat,
    free: Vec<Seat>,
}

/// A pool that threads share. It is borrowed by each of its loaders.
pub struct Pool(Mutex<Seats>);

impl Pool {
    /// Makes a pool for at most so many loaders at once, 1 to 65535.
    pub fn new(settings: &Settings, loaders: u32) -> Result<Pool, Refused> {
        // SAFETY: the call takes and changes nothing.
        assert_eq!(unsafe { ffi::nizgrabul_version() }, VERSION, "the library is of another version");
        let Settings { nodes, class_nodes, max_granules } = *settings;
        let options = ffi::Options { nodes, class_nodes, max_granules, policy: 0 };
        let mut first = Seat::empty();
        done(unsafe { ffi::nizgrabul_share(&options, loaders.saturating_add(1), &mut first.0) })?;
        Ok(Pool(Mutex::new(Seats { first, free: Vec::new() })))
    }

    fn seats(&self) -> MutexGuard<'_, Seats> {
        self.0.lock().unwrap_or_else(PoisonError::into_inner)
    }

    /// A seat without a loader: a former one, or a new one.
    fn seat(&self) -> Result<Seat, Refused> {
        let mut seats = self.seats();
        if let Some(seat) = seats.free.pop() {
            return Ok(seat);
        }
        let mut seat = Seat::empty();
        done(unsafe { ffi::nizgrabul_seat_split(&mut seats.first.0, &mut seat.0) }).map(|()| seat)
    }

    /// Makes a loader, which waits for the pool.
    pub fn loader(&self, kind: Kind) -> Result<Loader<'_>, Refused> {
        let mut seat = self.seat()?;
        let held = Held::of(&mut seat);
        let made = served(unsafe { ffi::nizgrabul_seat_new_loader(&mut held.0 .0, kind as u32) });
        drop(held);
        match made {
            Ok(_) => Ok(Loader { pool: self, seat: Some(seat) }),
            Err(refused) => {
                self.seats().free.push(seat);
                Err(refused)
            }
        }
    }
}

/// A class loader, on whichever thread has it. Where it is dropped it is unloaded. It doesn't outlive its pool, and isn't
/// used once it went:
///
/// ```compile_fail,E0597
/// # use classes::{metaspace::{Kind, Settings}, shared::Pool};
/// # let settings = Settings { nodes: 1, class_nodes: 0, max_granules: 1 };
/// let loader = {
///     let pool = Pool::new(&settings, 1).unwrap();
///     pool.loader(Kind::Standard).unwrap()
/// };
/// ```
///
/// ```compile_fail,E0382
/// # use classes::{metaspace::{Kind, Settings}, shared::Pool};
/// # let settings = Settings { nodes: 1, class_nodes: 0, max_granules: 1 };
/// let pool = Pool::new(&settings, 1).unwrap();
/// let mut loader = pool.loader(Kind::Standard).unwrap();
/// loader.unload(|_| ());
/// loader.used();
/// ```
pub struct Loader<'pool> {
    pool: &'pool Pool,
    // None once it went.
    seat: Option<Seat>,
}

impl Loader<'_> {
    fn seat(&mut self) -> &mut Seat {
        self.seat.as_mut().expect("a loader has its seat until it goes")
    }

    /// Allocates a block in what the loader has, with no lock; `NotHeld` where that doesn't serve.
    pub fn alloc(&mut self, space: Space, block: u32, words: u64) -> Result<u64, Refused> {
        alloc(self.seat(), space, block, words)
    }

    /// Frees a block.
    pub fn free(&mut self, block: u32) -> Result<(), Refused> {
        served(unsafe { ffi::nizgrabul_seat_free(&mut self.seat().0, block) }).map(|_| ())
    }

    /// The words in use, in both spaces.
    pub fn used(&mut self) -> u64 {
        unsafe { ffi::nizgrabul_seat_used(&mut self.seat().0) }
    }

    /// Takes the pool, and waits until no other loader has it. A thread that asks by a second loader meanwhile asks
    /// forever.
    pub fn hold(&mut self) -> Held<'_> {
        Held::of(self.seat())
    }

    /// Unloads the loader, and lets the caller give back what went while no other loader gets it.
    pub fn unload(mut self, give_back: impl FnOnce(&mut Held)) {
        if let Some(seat) = self.seat.take() {
            self.go(seat, give_back);
        }
    }

    fn go(&self, mut seat: Seat, then: impl FnOnce(&mut Held)) {
        let mut held = Held::of(&mut seat);
        // It has a loader and the pool, so nothing is refused.
        unsafe { ffi::nizgrabul_seat_unload(&mut held.0 .0) };
        then(&mut held);
        drop(held);
        self.pool.seats().free.push(seat);
    }
}

impl Drop for Loader<'_> {
    fn drop(&mut self) {
        if let Some(seat) = self.seat.take() {
            self.go(seat, |_| ());
        }
    }
}

/// The pool, while a loader has it.
pub struct Held<'a>(&'a mut Seat);

impl<'a> Held<'a> {
    fn of(seat: &'a mut Seat) -> Held<'a> {
        // A seat that is there is answered with BUSY, or has the pool.
        while unsafe { ffi::nizgrabul_seat_hold(&mut seat.0) } != 0 {
            thread::yield_now();
        }
        Held(seat)
    }

    /// Allocates a block, for which granules may become committed.
    pub fn alloc(&mut self, space: Space, block: u32, words: u64) -> Result<u64, Refused> {
        alloc(self.0, space, block, words)
    }

    /// Writes of each granule from the first on whether it is committed.
    pub fn granules(&mut self, first: u32, out: &mut [bool]) {
        unsafe { ffi::nizgrabul_seat_granules(&mut self.0 .0, first, out.as_mut_ptr(), out.len()) };
    }

    /// The runs of granules that were committed and are no more, in rising order: `was` has a flag for each granule from
    /// 0 on.
    pub fn uncommitted<'b>(&'b mut self, was: &'b [bool]) -> Uncommitted<'b> {
        Uncommitted { seat: self.0, was, from: 0 }
    }

    /// Gives back unused nodes, and returns how many.
    pub fn purge(&mut self) -> u64 {
        served(unsafe { ffi::nizgrabul_seat_purge(&mut self.0 .0) }).unwrap_or(0)
    }
}

impl Drop for Held<'_> {
    fn drop(&mut self) {
        unsafe { ffi::nizgrabul_seat_let_go(&mut self.0 .0) };
    }
}

/// Runs of granules that were committed and are no more.
pub struct Uncommitted<'b> {
    seat: &'b mut Seat,
    was: &'b [bool],
    from: u64,
}

impl Iterator for Uncommitted<'_> {
    type Item = Run;

    fn next(&mut self) -> Option<Run> {
        let mut run = Run::default();
        let (was, elements) = (self.was.as_ptr(), self.was.len());
        unsafe { ffi::nizgrabul_seat_next_uncommitted(&mut self.seat.0, was, elements, self.from, &mut run) };
        self.from = run.first + run.granules;
        (run.granules > 0).then_some(run)
    }
}

/// Allocates a block of the loader of a seat, with or without the pool.
fn alloc(seat: &mut Seat, space: Space, block: u32, words: u64) -> Result<u64, Refused> {
    let call = match space {
        Space::NonClass => ffi::nizgrabul_seat_alloc,
        Space::Class => ffi::nizgrabul_seat_calloc,
    };
    served(unsafe { call(&mut seat.0, block, words) })
}

/// A pool is used from any thread, and a loader goes to any.
const _: () = {
    const fn crosses<T: Send>() {}
    const fn is_shared<T: Sync>() {}
    is_shared::<Pool>();
    crosses::<Loader<'static>>();
};
