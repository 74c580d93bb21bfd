//! The same turns and episodes in plain Rust: a turn and the Global Lock's word as atomics, the journal behind the turn.
//!
//! Each line that it prints is a name, how often that was done, and the nanoseconds of all of it.
use std::cell::UnsafeCell;
use std::hint::black_box;
use std::sync::atomic::{AtomicU64, Ordering::SeqCst};
use std::thread;
use std::time::Instant;

const TRIES: u64 = 1_000_000;
const EPISODES: u32 = 200_000;

#[derive(Clone, Copy)]
#[allow(dead_code)]
enum Deed {
    Seek,
    Own,
    Disown,
    Leave(bool),
    Start(u32),
    Finish(u32),
}

/// A table: the turn is 0 while nobody has it.
struct Table {
    turn: AtomicU64,
    lock: AtomicU64,
    journal: UnsafeCell<Vec<(u8, Deed)>>,
}

// SAFETY: the journal is touched only between an exchange of `turn` from 0 to 1 and the store of 0.
unsafe impl Sync for Table {}

impl Table {
    fn new(room: usize) -> Table {
        Table { turn: AtomicU64::new(0), lock: AtomicU64::new(0), journal: UnsafeCell::new(Vec::with_capacity(room)) }
    }

    /// A turn with so many entries of one actor, where nobody else has it.
    fn turn_with(&self, entry: Option<(u8, Deed)>) -> bool {
        if self.turn.compare_exchange(0, 1, SeqCst, SeqCst).is_err() {
            return false;
        }
        // SAFETY: this thread has the turn.
        let journal = unsafe { &mut *self.journal.get() };
        if let Some(entry) = entry {
            assert!(journal.len() < journal.capacity());
            journal.push(entry);
        }
        self.turn.store(0, SeqCst);
        true
    }

    /// One load and one exchange, as the ACPI specification writes it: Pending is set where the lock is owned.
    fn acquire(&self) -> bool {
        loop {
            let old = self.lock.load(SeqCst);
            let new = (old & !3) | 2 | (old >> 1 & 1);
            if self.lock.compare_exchange(old, new, SeqCst, SeqCst).is_ok() {
                return new & 3 != 3;
            }
        }
    }

    fn release(&self) -> bool {
        self.lock.swap(0, SeqCst) & 1 == 1
    }
}

fn turns(seats: u64) -> u64 {
    let table = Table::new(0);
    thread::scope(|scope| {
        let takers: Vec<_> = (0..seats)
            .map(|_| scope.spawn(|| (0..TRIES).filter(|_| black_box(&table).turn_with(None)).count() as u64))
            .collect();
        takers.into_iter().map(|taker| taker.join().unwrap()).sum()
    })
}

fn episodes(locks: bool) {
    let table = Table::new(1_000_000);
    for _ in 0..EPISODES {
        let table = black_box(&table);
        if locks {
            assert!(table.turn_with(Some((0, Deed::Seek))));
            assert!(table.acquire());
            assert!(table.turn_with(Some((0, Deed::Own))));
            assert!(table.turn_with(Some((0, Deed::Disown))));
            let signal = table.release();
            assert!(table.turn_with(Some((0, Deed::Leave(signal)))));
        } else {
            assert!(table.turn_with(Some((0, Deed::Start(0)))));
            assert!(table.turn_with(Some((0, Deed::Start(1)))));
            assert!(table.turn_with(Some((0, Deed::Start(2)))));
            assert!(table.turn_with(Some((0, Deed::Finish(0)))));
        }
    }
}

fn main() {
    for seats in [1, 2, 4] {
        let start = Instant::now();
        let made = turns(seats);
        println!("turns_{seats} {made} {}", start.elapsed().as_nanos());
    }
    for locks in [true, false] {
        let start = Instant::now();
        episodes(locks);
        let name = if locks { "episodes" } else { "four_turns" };
        println!("{name} {EPISODES} {}", start.elapsed().as_nanos());
    }
}
