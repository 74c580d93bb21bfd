//! Seats on threads that take turns with nothing to add.
ghost use Rattle.std.specs.Prelude.{◌≡◌, ◌∷◌, All, List, Some};
ghost use Rattle.acpi_regs.specs.declared.actor.Actor.{Actor};
ghost use Rattle.acpi_regs.specs.declared.phase.LockPhase.TheVariants as lock;
ghost use Rattle.lock_table.specs.Roots.{HasFreshBut};
ghost use Rattle.lock_table.specs.Views.{find, first_kept, fresh, root_parts};
ghost use Rattle.lock_table.specs.declared.view.SeatPhase.TheVariants as kept;
ghost use Rattle.global_lock.specs.TestSeats.{IsIdle, IsRootHere};

use crate::episodes::opened;
use crate::journal::Journal;
use acpi_regs::{Actor, Memory};
use lock_table::{Entered, LockTable, TableSeat};
use std::alloc::Global;
use std::thread;
use std::thread::Threads;

/// A seat with how often it tries for the turn, and how often it had it.
#[derive(Drop)]
pub struct Taker {
    pub actor: Actor,
    pub seat: TableSeat,
    pub tries: u64,
    pub turns: u64,
}

/// Has so many seats, of four on threads, try for the turn so often. How many turns there were.
pub fn race_seats<R: Threads + Sync>(
    rt: &R,
    alloc: Global,
    seats: u64,
    tries: u64,
) -> Result<u64, Memory> {
    let (table, mut root) = opened(alloc, 0)?;
    let mut takers = [
        seated(&table, &mut root, Actor::Worker(0), tries),
        seated(
            &table,
            &mut root,
            Actor::Worker(1),
            tries_of(2, seats, tries),
        ),
        seated(
            &table,
            &mut root,
            Actor::Firmware(0),
            tries_of(3, seats, tries),
        ),
        seated(
            &table,
            &mut root,
            Actor::Firmware(1),
            tries_of(4, seats, tries),
        ),
    ];
    race(rt, &table, &mut takers);
    let mut turns = 0u64;
    for taker in &takers {
        turns = turns.saturating_add(taker.turns);
    }
    Ok(turns)
}

/// How often the seat of this number tries, of so many that do.
fn tries_of(number: u64, seats: u64, tries: u64) -> u64 {
    if number <= seats { tries } else { 0 }
}

/// A seat for an actor that may make entries.
fn seated(table: &LockTable<Journal>, root: &mut TableSeat, actor: Actor, tries: u64) -> Taker
    requires root { IsRootHere table.now.table.shared.table_id root.old }
    requires idle { first_kept actor ≡ kept.Lock lock.Idle }
    requires fresh { find actor (root_parts root.old.view.who) ≡ Some (fresh actor) }
    ensures root { IsRootHere table.now.table.shared.table_id root.new }
    ensures idle { IsIdle table.now.table.shared.table_id actor result.seat × (result.actor ≡ actor) }
    ensures fresh { (away : List Actor) → HasFreshBut away root.old.view → HasFreshBut (actor ∷ away) root.new.view }
{
    let seat = table.split(root, actor);
    Taker {
        actor,
        seat,
        tries,
        turns: 0,
    }
}

/// All of these seats, each on a thread of its own.
fn race<R: Threads + Sync>(rt: &R, table: &LockTable<Journal>, takers: &mut [Taker])
    requires { All (λ x. IsIdle table.now.table.shared.table_id x.actor x.seat) takers.old }
{
    thread::for_each_mut(
        rt,
        takers,
        4,
        &|_, at: &mut Taker|
            requires { IsIdle table.now.table.shared.table_id at.old.actor at.old.seat }
            ensures { (at.new.actor ≡ at.old.actor) × IsIdle table.entry.now.table.shared.table_id at.new.actor at.new.seat }
        { take_turns(table, at) },
    );
}

/// The turns of one seat.
fn take_turns(table: &LockTable<Journal>, at: &mut Taker)
    requires { IsIdle table.now.table.shared.table_id at.old.actor at.old.seat }
    ensures actor { at.new.actor ≡ at.old.actor }
    ensures idle { IsIdle table.now.table.shared.table_id at.new.actor at.new.seat }
{
    for _tries in 0..at.tries {
        if took(table, at) {
            at.turns = at.turns.saturating_add(1);
        }
    }
}

/// One try for the turn, which is given back with nothing added. Whether it was had.
fn took(table: &LockTable<Journal>, at: &mut Taker) -> bool
    requires { IsIdle table.now.table.shared.table_id at.old.actor at.old.seat }
    ensures same { (at.new.actor ≡ at.old.actor) × (at.new.tries ≡ at.old.tries) × (at.new.turns ≡ at.old.turns) }
    ensures idle { IsIdle table.now.table.shared.table_id at.new.actor at.new.seat }
{
    match table.enter(&mut at.seat) {
        Entered::Turn(turn) => {
            table.leave(&mut at.seat, turn);
            true
        }
        Entered::Out => false,
    }
}
