// Loops over the calls of `facs_word`. bench/leaf/run compiles this text twice: over the proved crate, and over peer.rs.
use facs_word::{Facs, acquire_of, owned, pending, release_of};

pub fn acquire_and_release(turns: u64) -> u64 {
    let mut sum: u64 = 0;
    for turn in 0..turns {
        let word = (sum.wrapping_add(turn) % 4) as u32;
        sum = sum.wrapping_mul(3).wrapping_add(u64::from(acquire_of(word)));
        sum = sum.wrapping_add(u64::from(release_of(word)));
    }
    sum
}

pub fn owned_and_pending(turns: u64) -> u64 {
    let mut sum: u64 = 0;
    for turn in 0..turns {
        let word = (sum.wrapping_add(turn) % 4) as u32;
        if owned(word) {
            sum = sum.wrapping_add(5);
        }
        if pending(word) {
            sum = sum.wrapping_mul(3);
        }
    }
    sum
}

pub fn read_lock_and_write(turns: u64) -> u64 {
    let mut bytes = Facs::fresh().write();
    let mut sum: u64 = 0;
    for turn in 0..turns {
        bytes[16] = (turn % 4) as u8;
        bytes[20 + (sum % 44) as usize] = (turn % 256) as u8;
        if let Ok(facs) = Facs::read(&bytes) {
            bytes = facs.write();
            sum = sum.wrapping_mul(3).wrapping_add(u64::from(facs.lock())).wrapping_add(u64::from(bytes[40]));
        }
    }
    sum
}
