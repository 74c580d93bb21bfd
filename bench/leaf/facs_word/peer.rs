//! The calls of `facs_word` in plain Rust.
pub enum FacsFault {
    Short,
    BadSignature,
    BadLength,
}

pub struct Facs {
    bytes: [u8; 64],
}

#[inline]
pub fn acquire_of(word: u32) -> u32 {
    2 | ((word & 2) >> 1)
}

#[inline]
pub fn release_of(word: u32) -> u32 {
    word & !3
}

#[inline]
pub fn owned(word: u32) -> bool {
    word & 2 != 0
}

#[inline]
pub fn pending(word: u32) -> bool {
    word & 1 != 0
}

impl Facs {
    #[inline]
    pub fn fresh() -> Facs {
        let mut bytes = [0; 64];
        bytes[..4].copy_from_slice(b"FACS");
        bytes[4] = 64;
        Facs { bytes }
    }

    #[inline]
    pub fn read(bytes: &[u8]) -> Result<Facs, FacsFault> {
        let Some(front) = bytes.first_chunk::<64>() else {
            return Err(FacsFault::Short);
        };
        if !front.starts_with(b"FACS") {
            return Err(FacsFault::BadSignature);
        }
        if u32::from_le_bytes([front[4], front[5], front[6], front[7]]) < 64 {
            return Err(FacsFault::BadLength);
        }
        Ok(Facs { bytes: *front })
    }

    #[inline]
    pub fn write(&self) -> [u8; 64] {
        self.bytes
    }

    #[inline]
    pub fn lock(&self) -> u32 {
        u32::from_le_bytes([self.bytes[16], self.bytes[17], self.bytes[18], self.bytes[19]])
    }
}
