//! Episodes of the Global Lock that one firmware makes alone.
ghost use Rattle.std.specs.Prelude.{◌≡◌, [], IfOk};
ghost use Rattle.acpi_regs.specs.declared.actor.Actor.TheVariants as actor;
ghost use Rattle.acpi_regs.specs.declared.entry.Deed.TheVariants as deed;
ghost use Rattle.acpi_regs.specs.declared.phase.LockPhase.TheVariants as lock;
ghost use Rattle.lock_table.specs.Roots.{HasFreshBut};
ghost use Rattle.lock_table.specs.declared.view.SeatPhase.TheVariants as kept;
ghost use Rattle.global_lock.specs.TestSeats.{IsRootHere, MayNote, Rests};
ghost use Rattle.measured_table.specs.Episodes.{before, behind};

use crate::journal::Journal;
use acpi_regs::{Actor, Deed, Entry, Memory};
use global_lock::{Acquired, Quit, Seeking, acquire, give_up};
use lock_table::{Entered, LockTable, TableSeat};
use std::alloc::Global;
use std::process::Abort;
use std::sync::Wait;

/// How many episodes are made.
const EPISODES: u32 = 200_000;

const F0: Actor = Actor::Firmware(0);

/// A table over an empty journal, with its root.
pub fn opened(alloc: Global, room: usize) -> Result<(LockTable<Journal>, TableSeat), Memory>
    ensures root { IfOk result (λ t. IsRootHere t.0.table.shared.table_id t.1) }
    ensures fresh { IfOk result (λ t. HasFreshBut [] t.1.view) }
{
    LockTable::new(alloc, Journal::new(alloc, room)?)
}

/// Makes all episodes, or only as many turns. How many episodes.
pub fn run<R: Abort + Wait>(rt: &R, alloc: Global, locks: bool) -> Result<u32, Memory> {
    let (table, mut root) = opened(alloc, 1_000_000)?;
    let mut seat = table.split(&mut root, F0);
    for _ in 0..EPISODES {
        if locks {
            episode(rt, &table, &mut seat);
        } else {
            four_turns(rt, &table, &mut seat);
        }
    }
    Ok(EPISODES)
}

/// Seeks the lock, acquires it, gives it up, and leaves.
fn episode<R: Abort + Wait>(rt: &R, table: &LockTable<Journal>, seat: &mut TableSeat)
    requires { Rests table.now.table.shared.table_id (actor.Firmware 0) (kept.Lock lock.Idle) seat.old }
    ensures { Rests table.now.table.shared.table_id (actor.Firmware 0) (kept.Lock lock.Idle) seat.new }
{
    turn_with(rt, table, seat, Deed::Seek);
    acquired(rt, table, seat);
    turn_with(rt, table, seat, Deed::Own);
    turn_with(rt, table, seat, Deed::Disown);
    let signal = given_up(table, seat);
    turn_with(rt, table, seat, Deed::Leave(signal));
}

/// As many turns with an entry as an episode has.
fn four_turns<R: Abort>(rt: &R, table: &LockTable<Journal>, seat: &mut TableSeat)
    requires { Rests table.now.table.shared.table_id (actor.Firmware 0) (kept.Lock lock.Idle) seat.old }
    ensures { Rests table.now.table.shared.table_id (actor.Firmware 0) (kept.Lock lock.Idle) seat.new }
{
    turn_with(rt, table, seat, Deed::Start(0));
    turn_with(rt, table, seat, Deed::Start(1));
    turn_with(rt, table, seat, Deed::Start(2));
    turn_with(rt, table, seat, Deed::Finish(0));
}

/// A turn in which one entry is made.
fn turn_with<R: Abort>(rt: &R, table: &LockTable<Journal>, seat: &mut TableSeat, deed: Deed)
    requires rests { Rests table.now.table.shared.table_id (actor.Firmware 0) (before deed) seat.old }
    requires may { MayNote (before deed) deed }
    ensures { Rests table.now.table.shared.table_id (actor.Firmware 0) (behind deed) seat.new }
{
    let entry = Entry { actor: F0, deed };
    let mut turn = match table.enter(seat) {
        Entered::Turn(turn) => turn,
        Entered::Out => panic!(rt; "nobody else is at the table"),
    };
    assert!(rt; turn.board().lets(entry));
    assert!(rt; turn.board().note(entry));
    table.leave(seat, turn);
}

/// Acquires the lock, which is free.
fn acquired<R: Abort + Wait>(rt: &R, table: &LockTable<Journal>, seat: &mut TableSeat)
    requires { Rests table.now.table.shared.table_id (actor.Firmware 0) (behind deed.Seek) seat.old }
    ensures { Rests table.now.table.shared.table_id (actor.Firmware 0) (before deed.Own) seat.new }
{
    let seeking = Seeking::of(seat);
    let Acquired::Owned(_) = acquire(rt, table, seat, seeking) else {
        panic!(rt; "the lock is free");
    };
}

/// Gives the lock up: whether the other side has to be signalled.
fn given_up(table: &LockTable<Journal>, seat: &mut TableSeat) -> bool
    requires { Rests table.now.table.shared.table_id (actor.Firmware 0) (behind deed.Disown) seat.old }
    ensures { Rests table.now.table.shared.table_id (actor.Firmware 0) (before (deed.Leave result)) seat.new }
{
    let quit = Quit::of(seat);
    let gone = give_up(table, seat, quit);
    gone.signal()
}
