// Loops over the calls of `ec_driver`. bench/leaf/run compiles this text twice: over the proved crate, and over peer.rs.
use crate::start::{Global, Request, chip};
use ec_driver::{Transaction, laws};

pub fn read_a_cell(alloc: Global, turns: u64) -> u64 {
    let mut sum: u64 = 0;
    if let Some(mut chip) = chip(alloc) {
        for turn in 0..turns {
            if chip.is_quiet() {
                laws::law_stands();
                let mut transaction = Transaction::new(Request::Rd((turn % 256) as u8));
                transaction.advance(&mut chip);
                chip.controller_step();
                transaction.advance(&mut chip);
                chip.controller_step();
                transaction.advance(&mut chip);
                if let Some(Some(byte)) = transaction.finished(&chip) {
                    sum = sum.wrapping_mul(3).wrapping_add(u64::from(byte));
                }
            }
        }
    }
    sum
}

pub fn write_a_cell(alloc: Global, turns: u64) -> u64 {
    let mut sum: u64 = 0;
    if let Some(mut chip) = chip(alloc) {
        for turn in 0..turns {
            if chip.is_quiet() {
                laws::law_stands();
                let mut transaction = Transaction::new(Request::Wr((turn % 256) as u8, (turn % 251) as u8));
                transaction.advance(&mut chip);
                chip.controller_step();
                transaction.advance(&mut chip);
                chip.controller_step();
                transaction.advance(&mut chip);
                chip.controller_step();
                sum = sum.wrapping_mul(3).wrapping_add(u64::from(chip.cell((turn % 256) as u8)));
            }
        }
    }
    sum
}
