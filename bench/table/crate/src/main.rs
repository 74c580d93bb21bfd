//! Measures a table that threads share, over a small journal: turns on threads, and the Global Lock where nobody else wants it.
//!
//! Each line that it prints is a name, how often that was done, and the nanoseconds of all of it.
#![tactic(auto)]

mod episodes;
mod journal;
mod turns;

use std::io;
use std::time::Instant;

/// How often each seat tries for the turn.
const TRIES: u64 = 1_000_000;

fn main(rt: HostRuntime) -> io::Result<()> {
    for seats in [1, 2, 4] {
        let start = Instant::now(&rt)?;
        let raced = turns::race_seats(&rt, rt.alloc(), seats, TRIES);
        let spent = start.elapsed(&rt)?.as_nanos();
        if let Ok(turns) = raced {
            println!(rt; "turns_{seats} {turns} {spent}")?;
        }
    }
    for locks in [true, false] {
        let start = Instant::now(&rt)?;
        let made = episodes::run(&rt, rt.alloc(), locks);
        let spent = start.elapsed(&rt)?.as_nanos();
        if let Ok(made) = made {
            let name = if locks { "episodes" } else { "four_turns" };
            println!(rt; "{name} {made} {spent}")?;
        }
    }
    Ok(())
}
