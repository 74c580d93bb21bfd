//! The calls of `field_units` in plain Rust.
#[derive(Clone, Copy)]
pub enum LockRule {
    Lock,
    NoLock,
}

#[derive(Clone, Copy)]
pub enum UpdateRule {
    Preserve,
    WriteAsOnes,
    WriteAsZeros,
}

#[derive(Clone, Copy)]
pub enum RegionKind {
    Memory,
    Controller,
}

pub enum FieldFault {
    BadWidth,
    OutsideRegion,
}

#[derive(Clone, Copy)]
pub struct Span {
    pub first: u16,
    pub count: u8,
}

#[derive(Clone, Copy)]
pub struct FieldUnit {
    pub region: u8,
    pub kind: RegionKind,
    pub len: u16,
    pub bit: u32,
    pub width: u8,
    pub lock: LockRule,
    pub update: UpdateRule,
}

impl FieldUnit {
    #[inline]
    pub fn new(
        region: u8,
        kind: RegionKind,
        len: u16,
        bit: u32,
        width: u8,
        lock: LockRule,
        update: UpdateRule,
    ) -> Result<FieldUnit, FieldFault> {
        if width < 1 || width > 64 {
            return Err(FieldFault::BadWidth);
        }
        if u64::from(bit) + u64::from(width) > 8 * u64::from(len) {
            return Err(FieldFault::OutsideRegion);
        }
        Ok(FieldUnit { region, kind, len, bit, width, lock, update })
    }

    #[inline]
    pub fn bytes_of(&self) -> Span {
        let first = self.bit / 8;
        let last = (self.bit + u32::from(self.width) - 1) / 8;
        Span { first: first as u16, count: (last - first + 1) as u8 }
    }

    #[inline]
    pub fn partial(&self, k: u8) -> bool {
        let start = 8 * (self.bit / 8 + u32::from(k));
        start < self.bit || self.bit + u32::from(self.width) < start + 8
    }

    // The first and the last bit in byte k, and how many bits stand in the bytes before.
    #[inline]
    fn place(&self, k: u8) -> (u32, u32, u32) {
        let start = 8 * (self.bit / 8 + u32::from(k));
        let end = self.bit + u32::from(self.width);
        (self.bit.saturating_sub(start), (end - start).min(8), start.saturating_sub(self.bit))
    }

    #[inline]
    pub fn get_bits(&self, k: u8, byte: u8, so_far: u64) -> u64 {
        let (low, high, before) = self.place(k);
        let piece = (u64::from(byte) >> low) & ((1 << (high - low)) - 1);
        (piece << before) | (so_far & ((1 << before) - 1))
    }

    #[inline]
    pub fn put_bits(&self, k: u8, old: u8, value: u64) -> u8 {
        let (low, high, before) = self.place(k);
        let mask = ((1u16 << high) - (1u16 << low)) as u8;
        let rest = match self.update {
            UpdateRule::Preserve => old,
            UpdateRule::WriteAsOnes => 0xFF,
            UpdateRule::WriteAsZeros => 0,
        };
        (rest & !mask) | ((((value >> before) as u8) << low) & mask)
    }
}
