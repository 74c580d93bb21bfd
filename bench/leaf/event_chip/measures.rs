// Loops over the calls of `event_chip`. bench/leaf/run compiles this text twice: over the proved crate, and over peer.rs.
use crate::start::{Global, chip, event, number};

pub fn raise_claim_and_finish(alloc: Global, turns: u64) -> u64 {
    let mut sum: u64 = 0;
    if let Some(mut chip) = chip(alloc) {
        for turn in 0..turns {
            let raised = event(turn % 4);
            if chip.slot(raised).kind.is_listed() {
                chip.raise(raised);
            }
            if let Some(first) = chip.first_pending() {
                chip.claim(first);
                if chip.slot(first).state.held {
                    chip.finish(first);
                    sum = sum.wrapping_mul(3).wrapping_add(turn);
                }
            }
        }
    }
    sum
}

pub fn assert_and_find_first(alloc: Global, turns: u64) -> u64 {
    let mut sum: u64 = 0;
    if let Some(mut chip) = chip(alloc) {
        for turn in 0..turns {
            let line = event(100 + turn % 3);
            if chip.slot(line).kind.is_level() {
                if chip.slot(line).state.line {
                    chip.drop_line(line);
                } else {
                    chip.assert_line(line);
                }
            }
            if let Some(first) = chip.first_pending() {
                sum = sum.wrapping_mul(3);
                if chip.parked(first) {
                    sum = sum.wrapping_add(1);
                }
            }
            sum = sum.wrapping_add(turn);
        }
    }
    sum
}

pub fn raise(alloc: Global, turns: u64) -> u64 {
    let mut sum: u64 = 0;
    if let Some(mut chip) = chip(alloc) {
        for turn in 0..turns {
            let raised = event(turn % 4);
            if chip.slot(raised).kind.is_listed() {
                chip.raise(raised);
                sum = sum.wrapping_add(turn);
            }
        }
        if let Some(first) = chip.first_pending() {
            sum = sum.wrapping_add(number(first));
        }
    }
    sum
}

pub fn raise_claim_finish_one(alloc: Global, turns: u64) -> u64 {
    let mut sum: u64 = 0;
    if let Some(mut chip) = chip(alloc) {
        for turn in 0..turns {
            let one = event(turn % 4);
            if chip.slot(one).kind.is_listed() {
                chip.raise(one);
            }
            if chip.pending(one) {
                chip.claim(one);
            }
            if chip.slot(one).state.held {
                chip.finish(one);
                sum = sum.wrapping_add(turn);
            }
        }
        if let Some(first) = chip.first_pending() {
            sum = sum.wrapping_add(number(first));
        }
    }
    sum
}

pub fn assert_and_drop(alloc: Global, turns: u64) -> u64 {
    let mut sum: u64 = 0;
    if let Some(mut chip) = chip(alloc) {
        for turn in 0..turns {
            let line = event(100 + turn % 3);
            if chip.slot(line).kind.is_level() {
                chip.assert_line(line);
            }
            if chip.slot(line).kind.is_level() {
                chip.drop_line(line);
                sum = sum.wrapping_add(turn);
            }
        }
        if let Some(first) = chip.first_pending() {
            sum = sum.wrapping_add(number(first));
        }
    }
    sum
}

pub fn assert_claim_drop_finish(alloc: Global, turns: u64) -> u64 {
    let mut sum: u64 = 0;
    if let Some(mut chip) = chip(alloc) {
        for turn in 0..turns {
            let line = event(100 + turn % 3);
            if chip.slot(line).kind.is_level() {
                chip.assert_line(line);
            }
            if chip.pending(line) {
                chip.claim(line);
            }
            if chip.slot(line).kind.is_level() {
                chip.drop_line(line);
            }
            if chip.slot(line).state.held {
                chip.finish(line);
                sum = sum.wrapping_add(turn);
            }
        }
        if let Some(first) = chip.first_pending() {
            sum = sum.wrapping_add(number(first));
        }
    }
    sum
}

pub fn up_and_down(alloc: Global, turns: u64) -> u64 {
    let mut sum: u64 = 0;
    if let Some(mut chip) = chip(alloc) {
        for turn in 0..turns {
            let one = event(turn % 4);
            if chip.slot(one).kind.is_listed() {
                chip.up(one);
            }
            if chip.slot(one).kind.is_listed() {
                chip.down(one);
                sum = sum.wrapping_add(turn);
            }
        }
        if let Some(first) = chip.first_pending() {
            sum = sum.wrapping_add(number(first));
        }
    }
    sum
}

pub fn raise_and_first_at_front(alloc: Global, turns: u64) -> u64 {
    let mut sum: u64 = 0;
    if let Some(mut chip) = chip(alloc) {
        for turn in 0..turns {
            let front = event(turn % 4);
            if chip.slot(front).kind.is_listed() {
                chip.raise(front);
            }
            if let Some(first) = chip.first_pending() {
                sum = sum.wrapping_add(number(first));
            }
            sum = sum.wrapping_add(turn);
        }
    }
    sum
}

pub fn raise_and_first_at_end(alloc: Global, turns: u64) -> u64 {
    let mut sum: u64 = 0;
    if let Some(mut chip) = chip(alloc) {
        for turn in 0..turns {
            let end = event(252 + turn % 4);
            if chip.slot(end).kind.is_listed() {
                chip.raise(end);
            }
            if let Some(first) = chip.first_pending() {
                sum = sum.wrapping_add(number(first));
            }
            sum = sum.wrapping_add(turn);
        }
    }
    sum
}

pub fn drop_and_find_none(alloc: Global, turns: u64) -> u64 {
    let mut sum: u64 = 0;
    if let Some(mut chip) = chip(alloc) {
        for turn in 0..turns {
            let end = event(252 + turn % 4);
            if chip.slot(end).kind.is_level() {
                chip.drop_line(end);
            }
            if let Some(first) = chip.first_pending() {
                sum = sum.wrapping_add(number(first));
            }
            sum = sum.wrapping_add(turn);
        }
    }
    sum
}
