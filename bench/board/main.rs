//! Makes entry after entry on the board of a machine, and tells when it has made so many.
#![tactic(auto)]

use acpi_regs::{Actor, Deed, Entry};
use handler_script::Act;
use machine_core::Board;
use machine_reader::read_machine;
use std::io;
use std::io::Read;
use std::time::Instant;

/// After how many entries the time is told.
const MARKS: [u32; 3] = [1_000, 10_000, 100_000];

fn main(rt: HostRuntime) -> io::Result<()> {
    let mut bytes = Vec::new(rt.alloc());
    rt.stdin().read_to_end(&mut bytes)?;
    if let Ok(machine) = read_machine(rt.alloc(), bytes.as_slice()) {
        if machine.weight() <= 1_048_576 {
            if let Ok(mut board) = Board::new(rt.alloc(), machine) {
                measure(&rt, &mut board)?;
            }
        }
    }
    Ok(())
}

/// Rounds over the actors, until the last mark or until nobody has anything to do.
fn measure(rt: &HostRuntime, board: &mut Board) -> io::Result<()> {
    let start = Instant::now(rt)?;
    let mut next = 0;
    for _ in 0..1_000_000u32 {
        let before = board.len();
        round(board);
        if next < MARKS.len() && board.len() >= MARKS[next] {
            let spent = start.elapsed(rt)?.as_nanos();
            println!(rt; "{} {spent}", MARKS[next])?;
            next += 1;
        }
        if next == MARKS.len() || board.len() == before {
            return Ok(());
        }
    }
    Ok(())
}

/// One entry of each actor of the OS and the hardware that has one, and where none has, one of each firmware.
fn round(board: &mut Board) {
    let before = board.len();
    step(board, Actor::Int);
    step(board, Actor::Poll);
    step(board, Actor::Worker(0));
    step(board, Actor::Ec);
    if board.len() > before {
        return;
    }
    for number in 0..8u8 {
        step(board, Actor::Firmware(number));
    }
}

/// The entry of an actor: the first that is allowed of those that may be.
fn step(board: &mut Board, actor: Actor) {
    let offers = [
        of_act(board, actor),
        board.host_move().map(Deed::Step),
        board.ctl_move().map(Deed::Ctl),
        board.taking().map(Deed::Take),
        board.pending().map(Deed::Claim),
        Some(Deed::Own),
        Some(Deed::Leave(false)),
        finished(board, actor),
        board.waiting().map(Deed::Start),
    ];
    for offer in offers {
        if let Some(deed) = offer {
            if make(board, Entry { actor, deed }) {
                return;
            }
        }
    }
}

/// Makes an entry where it is allowed.
fn make(board: &mut Board, entry: Entry) -> bool {
    let may = board.can(&entry);
    if may {
        board.apply(entry);
    }
    may
}

/// The entry that an actor's next act asks for.
fn of_act(board: &Board, actor: Actor) -> Option<Deed> {
    match board.act(actor)? {
        Act::Lock => Some(Deed::Seek),
        Act::Unlock => Some(Deed::Disown),
        Act::Read(cell) => read(board, cell),
        Act::Write(cell, byte) => Some(Deed::Write(cell, byte)),
        Act::Ask(request) => Some(Deed::Begin(request)),
        Act::Notify(device, value) => Some(Deed::Notify(device, value)),
        Act::Drop(event) => Some(Deed::Drop(event)),
        Act::Up(event) => Some(Deed::Up(event)),
        Act::Down(event) => Some(Deed::Down(event)),
        Act::Raise(event) => Some(Deed::Raise(event)),
        Act::Assert(event) => Some(Deed::Assert(event)),
        Act::Push(code) => Some(Deed::Push(code)),
    }
}

/// A read of what a cell of the machine has.
fn read(board: &Board, cell: acpi_regs::Cell) -> Option<Deed> {
    let region = board.machine().regions().get(usize::from(cell.region))?;
    if usize::from(cell.offset) < region.cells().len() {
        Some(Deed::Read(cell, board.cell(cell)))
    } else {
        None
    }
}

/// The end of the job that a worker runs.
fn finished(board: &Board, actor: Actor) -> Option<Deed> {
    match actor {
        Actor::Worker(number) => board.running(number).map(Deed::Finish),
        _ => None,
    }
}
