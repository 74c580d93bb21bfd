// Loops over the calls of `field_units`. bench/leaf/run compiles this text twice: over the proved crate, and over peer.rs.
use field_units::{FieldFault, FieldUnit, LockRule, RegionKind, UpdateRule};

fn field(bit: u32, width: u8, update: UpdateRule) -> Result<FieldUnit, FieldFault> {
    FieldUnit::new(0, RegionKind::Memory, 64, bit, width, LockRule::NoLock, update)
}

fn read_field(unit: &FieldUnit, cells: &[u8]) -> u64 {
    let span = unit.bytes_of();
    let mut value = 0;
    for k in 0..span.count {
        let place = span.first as usize + k as usize;
        let byte = cells.get(place).copied().unwrap_or(0);
        value = unit.get_bits(k, byte, value);
    }
    value
}

fn write_field(unit: &FieldUnit, cells: &mut [u8], value: u64) {
    let span = unit.bytes_of();
    for k in 0..span.count {
        let place = span.first as usize + k as usize;
        if let Some(cell) = cells.get_mut(place) {
            *cell = unit.put_bits(k, *cell, value);
        }
    }
}

fn write_and_read(turns: u64, unit: &FieldUnit) -> u64 {
    let mut cells = [0u8; 64];
    let mut sum: u64 = 0;
    for turn in 0..turns {
        write_field(unit, &mut cells, sum.wrapping_add(turn));
        sum = sum.wrapping_mul(3).wrapping_add(read_field(unit, &cells));
    }
    sum
}

pub fn twelve_bits_in_two_bytes(turns: u64) -> u64 {
    match field(2 + (turns % 2) as u32, 12, UpdateRule::Preserve) {
        Ok(unit) => write_and_read(turns, &unit),
        Err(_) => 0,
    }
}

pub fn sixty_four_bits_in_nine_bytes(turns: u64) -> u64 {
    match field(4 + (turns % 2) as u32, 64, UpdateRule::WriteAsOnes) {
        Ok(unit) => write_and_read(turns, &unit),
        Err(_) => 0,
    }
}

pub fn new_and_partial(turns: u64) -> u64 {
    let mut sum: u64 = 0;
    for turn in 0..turns {
        let bit = (sum.wrapping_add(turn) % 400) as u32;
        if let Ok(unit) = field(bit, (turn % 70) as u8, UpdateRule::Preserve) {
            sum = sum.wrapping_mul(3);
            if unit.partial(0) {
                sum = sum.wrapping_add(unit.bytes_of().count as u64);
            }
        }
    }
    sum
}
