//! The job of bench/threads in plain Rust: firmware scripts that add 1 to 64 bits from bit 4 on, each addition under the Global Lock,
//! or that read a byte. Every actor has a thread of its own, with as many steps as the proved program gives it, and rounds on one
//! thread finish what is left.
//!
//!     peer run|replay adds|reads SCRIPTS OPERATIONS WORKERS < LINE > LOG
//!
//! The input is the log's first line. The log is one that `check` calls complete.
use std::cell::UnsafeCell;
use std::io::{Read, Write};
use std::sync::atomic::{AtomicU32, AtomicU64, Ordering::SeqCst};
use std::{env, io, thread};

#[derive(Clone, Copy)]
enum Deed {
    Seek,
    Own,
    Disown,
    Leave(bool),
    Read(u16, u8),
    Write(u16, u8),
}

#[derive(Clone, Copy)]
struct Entry {
    firmware: u8,
    deed: Deed,
}

#[derive(Clone, Copy)]
enum Phase {
    Idle,
    Seeking,
    Won,
    Owning,
    Quit,
    Gone(bool),
}

#[derive(Clone, Copy)]
enum Actor {
    Host,
    Worker,
    Firmware(u8, Phase),
}

#[derive(PartialEq)]
enum Outcome {
    Stepped,
    NotReady,
    Out,
    Ended,
}

/// Where a script is: the operations that are left, the moves that its operation made, and the bytes that this read.
#[derive(Clone, Copy)]
struct Place {
    left: u32,
    moves: u8,
    bytes: [u8; 9],
}

enum Act {
    Lock,
    Read(u16),
    Write(u16, u8),
    Unlock,
}

struct Board {
    adds: bool,
    entries: Vec<Entry>,
    cells: [u8; 16],
    competing: Option<u8>,
    owner: Option<u8>,
    pending: [u64; 5],
    jobs: Vec<u32>,
    places: [Place; 8],
}

impl Board {
    /// What a script does next.
    fn act(&self, firmware: u8) -> Option<Act> {
        let place = &self.places[usize::from(firmware)];
        if place.left == 0 {
            return None;
        }
        if !self.adds {
            return Some(Act::Read(0));
        }
        Some(match place.moves {
            0 => Act::Lock,
            moves @ 1..=9 => Act::Read(u16::from(moves) - 1),
            10 => Act::Read(0),
            moves @ 11..=18 => Act::Write(u16::from(moves) - 11, place.sum(moves - 11)),
            19 => Act::Read(8),
            20 => Act::Write(8, place.sum(8)),
            _ => Act::Unlock,
        })
    }

    /// The entry of a firmware in its phase, where there is one now.
    fn deed(&self, firmware: u8, phase: Phase) -> Option<Deed> {
        match phase {
            Phase::Won if self.owner.is_none() => Some(Deed::Own),
            Phase::Gone(signals) => Some(Deed::Leave(signals)),
            Phase::Idle | Phase::Owning => match self.act(firmware)? {
                Act::Lock if self.competing.is_none() => Some(Deed::Seek),
                Act::Read(cell) => Some(Deed::Read(cell, self.cells[usize::from(cell)])),
                Act::Write(cell, byte) => Some(Deed::Write(cell, byte)),
                Act::Unlock => Some(Deed::Disown),
                Act::Lock => None,
            },
            _ => None,
        }
    }

    fn make(&mut self, firmware: u8, deed: Deed) {
        let place = &mut self.places[usize::from(firmware)];
        match deed {
            Deed::Seek => self.competing = Some(firmware),
            Deed::Own => self.owner = Some(firmware),
            Deed::Disown => self.owner = None,
            Deed::Leave(_) => self.competing = None,
            Deed::Read(cell, byte) => place.bytes[usize::from(cell)] = byte,
            Deed::Write(cell, byte) => self.cells[usize::from(cell)] = byte,
        }
        if self.adds && !matches!(deed, Deed::Own | Deed::Leave(_)) {
            place.moves += 1;
        }
        if place.moves == 22 || !self.adds {
            (place.moves, place.left) = (0, place.left - 1);
        }
        self.entries.push(Entry { firmware, deed });
    }

    fn firmware(&mut self, number: u8, phase: &mut Phase) -> Outcome {
        if matches!(phase, Phase::Idle) && self.act(number).is_none() {
            return Outcome::Ended;
        }
        let Some(deed) = self.deed(number, *phase) else {
            return Outcome::NotReady;
        };
        self.make(number, deed);
        *phase = match deed {
            Deed::Seek => Phase::Seeking,
            Deed::Own => Phase::Owning,
            Deed::Disown => Phase::Quit,
            Deed::Leave(_) => Phase::Idle,
            _ => *phase,
        };
        Outcome::Stepped
    }
}

impl Place {
    /// A byte of the sum, with the bits of the cell that are not the field's.
    fn sum(&self, place: u8) -> u8 {
        let mut wide = [0; 16];
        wide[..9].copy_from_slice(&self.bytes);
        let old = u128::from_le_bytes(wide);
        let sum = ((old >> 4) as u64).wrapping_add(1);
        let new = (u128::from(sum) << 4) | old & !(u128::from(u64::MAX) << 4);
        new.to_le_bytes()[usize::from(place)]
    }
}

/// The board is reached by who has set the turn's word.
struct Table {
    turn: AtomicU64,
    lock: AtomicU32,
    pins: [AtomicU64; 5],
    board: UnsafeCell<Board>,
}

unsafe impl Sync for Table {}

impl Table {
    /// What is done with the board in a turn, where that is not out.
    fn in_turn(&self, act: impl FnOnce(&mut Board) -> Outcome) -> Outcome {
        if self.turn.compare_exchange(0, 1, SeqCst, SeqCst).is_err() {
            return Outcome::Out;
        }
        let outcome = act(unsafe { &mut *self.board.get() });
        self.turn.store(0, SeqCst);
        outcome
    }

    /// An attempt at the lock. With actors of the firmware alone it is always free.
    fn attempt(&self, phase: &mut Phase) -> Outcome {
        let word = self.lock.load(SeqCst);
        let wanted = word & !3 | 2 | (word & 2) >> 1;
        if word & 2 != 0 || self.lock.compare_exchange(word, wanted, SeqCst, SeqCst).is_err() {
            return Outcome::NotReady;
        }
        *phase = Phase::Won;
        Outcome::Stepped
    }

    /// Collects the pins and latches what was set; else there is nothing to claim.
    fn host(&self) -> Outcome {
        self.in_turn(|board| {
            let mut found = 0;
            for (pending, pins) in board.pending.iter_mut().zip(&self.pins) {
                *pending |= pins.swap(0, SeqCst);
                found |= *pending;
            }
            if found == 0 { Outcome::NotReady } else { Outcome::Stepped }
        })
    }

    fn worker(&self) -> Outcome {
        self.in_turn(|board| if board.jobs.pop().is_none() { Outcome::NotReady } else { Outcome::Stepped })
    }

    fn step(&self, actor: &mut Actor) -> Outcome {
        match actor {
            Actor::Host => self.host(),
            Actor::Worker => self.worker(),
            Actor::Firmware(_, phase @ Phase::Seeking) => self.attempt(phase),
            Actor::Firmware(_, phase @ Phase::Quit) => {
                *phase = Phase::Gone(self.lock.swap(0, SeqCst) & 1 != 0);
                Outcome::Stepped
            }
            Actor::Firmware(number, phase) => self.in_turn(|board| board.firmware(*number, phase)),
        }
    }

    fn run_one(&self, actor: &mut Actor, steps: u64) {
        for _ in 0..steps {
            if self.step(actor) == Outcome::Ended {
                return;
            }
        }
    }

    fn race(&self, actors: &mut [Actor], steps: u64) {
        thread::scope(|scope| {
            for actor in actors {
                scope.spawn(move || self.run_one(actor, steps));
            }
        });
    }

    fn drain(&self, actors: &mut [Actor]) {
        let mut stepped = true;
        while stepped {
            stepped = false;
            for actor in actors.iter_mut() {
                stepped |= self.step(actor) == Outcome::Stepped;
            }
        }
    }
}

fn write_log(first: &[u8], entries: &[Entry]) -> io::Result<()> {
    let mut out = io::BufWriter::with_capacity(16384, io::stdout().lock());
    out.write_all(first)?;
    for entry in entries {
        match entry.deed {
            Deed::Seek => writeln!(out, "f{} seek", entry.firmware)?,
            Deed::Own => writeln!(out, "f{} own", entry.firmware)?,
            Deed::Disown => writeln!(out, "f{} disown", entry.firmware)?,
            Deed::Leave(signals) => writeln!(out, "f{} leave {}", entry.firmware, u8::from(signals))?,
            Deed::Read(cell, byte) => writeln!(out, "f{} read 00:{cell:04X} {byte:02X}", entry.firmware)?,
            Deed::Write(cell, byte) => writeln!(out, "f{} write 00:{cell:04X} {byte:02X}", entry.firmware)?,
        }
    }
    writeln!(out, "rest {}", entries.len())?;
    out.flush()
}

fn main() -> io::Result<()> {
    let words: Vec<String> = env::args().collect();
    let number = |k: usize| words[k].parse::<u32>().unwrap();
    let (adds, scripts, left) = (words[2] == "adds", number(3), number(4));
    let mut first = Vec::new();
    io::stdin().read_to_end(&mut first)?;
    let weight = u64::from(scripts) * u64::from(left) * if adds { 28 } else { 1 };
    let board = Board {
        adds,
        entries: Vec::with_capacity(weight as usize),
        cells: [0; 16],
        competing: None,
        owner: None,
        pending: [0; 5],
        jobs: Vec::new(),
        places: [Place { left, moves: 0, bytes: [0; 9] }; 8],
    };
    let pins = [const { AtomicU64::new(0) }; 5];
    let table = Table { turn: AtomicU64::new(0), lock: AtomicU32::new(0), pins, board: UnsafeCell::new(board) };
    let mut actors = vec![Actor::Host, Actor::Host];
    actors.extend((0..number(5)).map(|_| Actor::Worker));
    actors.extend((0..scripts as u8).map(|number| Actor::Firmware(number, Phase::Idle)));
    if words[1] == "run" {
        table.race(&mut actors, weight + 64);
    }
    table.drain(&mut actors);
    write_log(&first, &table.board.into_inner().entries)
}
