// Loops over the calls of `ec_chip`. bench/leaf/run compiles this text twice: over the proved crate, and over peer.rs.
use crate::start::{Global, chip};
use ec_chip::Port;

pub fn read_a_cell(alloc: Global, turns: u64) -> u64 {
    let mut sum: u64 = 0;
    if let Some(mut chip) = chip(alloc) {
        for turn in 0..turns {
            let address = (turn % 256) as u8;
            if chip.can_write(Port::Sc, 0x80) {
                chip.host_write(Port::Sc, 0x80);
            }
            chip.controller_step();
            if chip.can_write(Port::Data, address) {
                chip.host_write(Port::Data, address);
            }
            chip.controller_step();
            if chip.can_read() {
                sum = sum.wrapping_mul(3).wrapping_add(u64::from(chip.host_read()));
            }
        }
    }
    sum
}

pub fn push_and_query(alloc: Global, turns: u64) -> u64 {
    let mut sum: u64 = 0;
    if let Some(mut chip) = chip(alloc) {
        for turn in 0..turns {
            if !chip.is_full() {
                chip.push((turn % 255 + 1) as u8);
            }
            if chip.can_write(Port::Sc, 0x84) {
                chip.host_write(Port::Sc, 0x84);
            }
            chip.controller_step();
            if chip.can_read() {
                sum = sum.wrapping_mul(3).wrapping_add(u64::from(chip.host_read()));
            }
        }
    }
    sum
}
