//! A journal with room that is taken at the start, for a machine without devices.
ghost use Rattle.std.specs.Prelude.{◌≡◌, ◌<◌, ◌^◌, ◌++◌, ◌∷◌, [], IfOk, reverse, false, true, vec_len};
ghost use Rattle.acpi_regs.specs.CoreEvents.{IsUnsought};
ghost use Rattle.measured_table.specs.Episodes.{IsCalm};

use acpi_regs::{Actor, Deed, Entry, Event};
use lock_table::{PulseLists, Recorded};
use std::alloc::{AllocError, Global};

/// No pulse lists.
#[derive(Drop)]
pub struct NoLists {}

impl PulseLists for NoLists {
    ghost use Rattle.std.specs.Prelude.{[]};

    ghost lists = { λ _. [] };

    fn pulses(&self, _device: u8) -> &[Event] {
        &[]
    }
}

/// The journal. It is calm where no firmware is known to seek the lock.
#[derive(Drop)]
pub struct Journal {
    lists: NoLists,
    entries: Vec<Entry>,
    calm: bool,
    ghost small: { vec_len entries < 2 ^ 32 },
    ghost none_seeks: { IsCalm calm (reverse entries.items) },
}

impl Recorded for Journal {
    type Base = NoLists;

    ghost base = { λ n. n.lists };

    ghost entries = { λ n. n.entries.items };

    fn len(&self) -> u32 {
        self.entries.len() as u32
    }
}

impl Journal {
    /// A journal without entries, with room for so many.
    pub fn new(alloc: Global, room: usize) -> Result<Journal, AllocError>
        ensures { IfOk result (λ n. n.entries.items ≡ []) }
    {
        Ok(Journal {
            lists: NoLists {},
            entries: Vec::with_capacity(alloc, room)?,
            calm: true,
        })
    }

    /// Appends an entry where there is room.
    pub fn note(&mut self, entry: Entry) -> bool
        ensures lists { self.new.lists ≡ self.old.lists }
        ensures noted { result ≡ true → self.new.entries.items ≡ self.old.entries.items ++ entry ∷ [] }
        ensures full { result ≡ false → self.new.entries.items ≡ self.old.entries.items }
    {
        if self.entries.len() >= self.entries.capacity() || self.entries.len() >= 1_000_000 {
            return false;
        }
        self.calm = match (entry.actor, entry.deed) {
            (Actor::Firmware(_), Deed::Leave(_)) => true,
            (_, Deed::Seek) => false,
            _ => self.calm,
        };
        self.entries.push_reserved(entry);
        true
    }

    /// Whether an entry is no seek, or one of a firmware while the journal is calm.
    pub fn lets(&self, entry: Entry) -> bool
        ensures { result ≡ true → IsUnsought (reverse self.now.entries.items) entry.actor entry.deed }
    {
        match (entry.actor, entry.deed) {
            (Actor::Firmware(_), Deed::Seek) => self.calm,
            (_, Deed::Seek) => false,
            _ => true,
        }
    }
}
