//! A chip with twelve listed GPEs: four edge events in the first words, and level ones in the middle and at the end.
use acpi_regs::{Event, Listed};
use event_chip::EventChip;
pub use std::alloc::Global;

pub fn chip(alloc: Global) -> Option<EventChip> {
    let edge = |number: u8| Listed { event: Event::Gpe(number), level: false, refs: 1 };
    let level = |number: u8| Listed { event: Event::Gpe(number), level: true, refs: 1 };
    let listed = [
        edge(0), edge(1), edge(2), edge(3), level(100), level(101), level(102), level(103),
        level(252), level(253), level(254), level(255),
    ];
    EventChip::new(alloc, &listed, None).ok()
}

pub fn event(number: u64) -> Event {
    Event::Gpe((number % 256) as u8)
}

pub fn number(event: Event) -> u64 {
    match event {
        Event::Gpe(number) => u64::from(number),
        Event::Fixed(_) => 256,
    }
}
