//! Class loaders on four threads over one pool: they come, allocate, free, move to another thread and go. No word is
//! ever two loaders', and in the end no granule is left.
use classes::metaspace::{Kind, Refusal, Refused, Settings, Space};
use classes::shared::{Loader, Pool};
use std::sync::atomic::{AtomicU64, Ordering};
use std::sync::mpsc::{self, Receiver, Sender};
use std::sync::Mutex;
use std::thread;

const WORDS: usize = 1_048_576;
const GRANULE: u64 = 8192;
const GRANULES: usize = WORDS / GRANULE as usize;
const THREADS: usize = 4;
const LOADERS: u64 = 16;
const TURNS: u64 = 2000;

/// Whose each word is, and which granules are committed, by whoever has the pool.
struct Memory {
    owners: Vec<AtomicU64>,
    committed: Mutex<Vec<bool>>,
}

/// A loader on its way, with its blocks: the start and the words of each, of none where there is none.
struct Traveller<'pool> {
    loader: Loader<'pool>,
    number: u64,
    turns: u64,
    blocks: [(u64, u64); 8],
}

impl Memory {
    fn set(&self, (start, words): (u64, u64), before: u64, after: u64) {
        for word in &self.owners[start as usize..(start + words) as usize] {
            assert_eq!(word.swap(after, Ordering::Relaxed), before, "a word had another owner");
        }
    }
}

impl Traveller<'_> {
    /// Allocates a block: in what the loader has, and else over the pool.
    fn allocate(&mut self, memory: &Memory, block: usize, words: u64) {
        let start = match self.loader.alloc(Space::NonClass, block as u32, words) {
            Err(Refused { refusal: Refusal::NotHeld, .. }) => {
                let mut held = self.loader.hold();
                let start = held.alloc(Space::NonClass, block as u32, words);
                let mut committed = memory.committed.lock().expect("no thread panics");
                let was: usize = committed.iter().filter(|is| **is).count();
                held.granules(0, &mut committed);
                assert!(was <= committed.iter().filter(|is| **is).count(), "a granule went without an unload");
                start
            }
            start => start,
        };
        match start {
            Ok(start) => {
                memory.set((start, words), 0, self.number);
                self.blocks[block] = (start, words);
            }
            Err(refused) => assert!(matches!(refused.refusal, Refusal::CommitLimit | Refusal::ReserveLimit)),
        }
    }

    fn release(&mut self, memory: &Memory, block: usize) {
        memory.set(self.blocks[block], self.number, 0);
        self.blocks[block] = (0, 0);
        self.loader.free(block as u32).expect("the block is live");
    }

    fn take_turn(&mut self, memory: &Memory) {
        let block = (self.turns * 5 % 8) as usize;
        match self.blocks[block].1 {
            0 => self.allocate(memory, block, 2 + self.turns * self.number % 900),
            _ => self.release(memory, block),
        }
        assert!(self.loader.used() >= self.blocks.iter().map(|block| block.1).sum());
    }

    /// Ends the loader, and gives back what went.
    fn go(self, memory: &Memory) {
        for block in self.blocks {
            memory.set(block, self.number, 0);
        }
        self.loader.unload(|held| {
            let mut committed = memory.committed.lock().expect("no thread panics");
            let runs: Vec<_> = held.uncommitted(&committed).collect();
            for granule in runs.iter().flat_map(|run| run.numbers()) {
                committed[granule as usize] = false;
            }
        });
    }
}

/// A thread takes turns of the loaders that come to it, and sends each on, until all of them went.
fn work<'pool>(memory: &Memory, inbox: Receiver<Option<Traveller<'pool>>>, outboxes: &[Sender<Option<Traveller<'pool>>>]) {
    while let Ok(Some(mut traveller)) = inbox.recv() {
        traveller.take_turn(memory);
        traveller.turns += 1;
        if traveller.turns == TURNS {
            traveller.go(memory);
            if FINISHED.fetch_add(1, Ordering::SeqCst) + 1 == LOADERS {
                outboxes.iter().for_each(|outbox| outbox.send(None).unwrap_or(()));
            }
        } else {
            let next = (traveller.turns + traveller.number) as usize % THREADS;
            outboxes[next].send(Some(traveller)).expect("each thread waits for the last loader");
        }
    }
}

/// How many loaders went.
static FINISHED: AtomicU64 = AtomicU64::new(0);

fn main() -> Result<(), Refused> {
    let pool = Pool::new(&Settings { nodes: 1, class_nodes: 0, max_granules: 64 }, LOADERS as u32)?;
    let memory = Memory {
        owners: (0..WORDS).map(|_| AtomicU64::new(0)).collect(),
        committed: Mutex::new(vec![false; GRANULES]),
    };
    let (outboxes, inboxes): (Vec<_>, Vec<_>) = (0..THREADS).map(|_| mpsc::channel()).unzip();
    for number in 1..=LOADERS {
        let loader = pool.loader(Kind::Standard)?;
        let traveller = Traveller { loader, number, turns: 0, blocks: [(0, 0); 8] };
        outboxes[number as usize % THREADS].send(Some(traveller)).expect("its receiver is there");
    }
    thread::scope(|scope| {
        for inbox in inboxes {
            let (memory, outboxes) = (&memory, outboxes.clone());
            scope.spawn(move || work(memory, inbox, &outboxes));
        }
    });
    println!("{THREADS} threads, {LOADERS} loaders: no word was two loaders'");
    let left = memory.committed.lock().expect("no thread panics").iter().filter(|is| **is).count();
    let mut last = pool.loader(Kind::Hidden)?;
    println!("granules left: {left}, nodes given back: {}", last.hold().purge());
    Ok(())
}
