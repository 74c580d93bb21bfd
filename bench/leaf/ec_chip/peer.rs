//! The calls of `ec_chip` in plain Rust.
use std::collections::VecDeque;

#[derive(Clone, Copy, PartialEq)]
pub enum Port {
    Sc,
    Data,
}

#[derive(Clone, Copy, PartialEq)]
pub enum Effect {
    Taken,
    Out(u8),
    Put,
    Calm,
}

#[derive(Clone, Copy, PartialEq)]
pub enum CtlOutcome {
    Stepped(Effect),
    Idle,
}

#[derive(Clone, Copy, PartialEq)]
enum Half {
    None,
    Read,
    Write,
    WriteTo(u8),
}

pub struct EcChip {
    cells: Vec<u8>,
    codes: VecDeque<u8>,
    room: usize,
    half: Half,
    input: Option<u8>,
    output: Option<u8>,
    command: bool,
    burst: bool,
}

impl EcChip {
    pub fn new(cells: Vec<u8>, room: usize) -> EcChip {
        EcChip {
            cells,
            codes: VecDeque::with_capacity(room),
            room,
            half: Half::None,
            input: None,
            output: None,
            command: false,
            burst: false,
        }
    }

    #[inline]
    pub fn can_write(&self, port: Port, byte: u8) -> bool {
        self.input.is_none()
            && match self.half {
                Half::None => port == Port::Sc && (0x80..=0x84).contains(&byte),
                _ => port == Port::Data,
            }
    }

    #[inline]
    pub fn host_write(&mut self, port: Port, byte: u8) {
        self.input = Some(byte);
        self.command = port == Port::Sc;
    }

    #[inline]
    pub fn can_read(&self) -> bool {
        self.output.is_some()
    }

    #[inline]
    pub fn host_read(&mut self) -> u8 {
        self.output.take().unwrap_or(0)
    }

    #[inline]
    pub fn is_full(&self) -> bool {
        self.codes.len() == self.room
    }

    #[inline]
    pub fn is_quiet(&self) -> bool {
        self.input.is_none() && self.output.is_none() && self.half == Half::None
    }

    #[inline]
    pub fn push(&mut self, code: u8) {
        self.codes.push_back(code);
    }

    #[inline]
    pub fn cell(&self, address: u8) -> u8 {
        self.cells[usize::from(address)]
    }

    #[inline]
    pub fn output(&self) -> u8 {
        self.output.unwrap_or(0)
    }

    #[inline]
    pub fn awaits_step(&self) -> bool {
        self.input.is_some()
    }

    #[inline]
    pub fn controller_step(&mut self) -> CtlOutcome {
        let Some(byte) = self.input.take() else {
            return CtlOutcome::Idle;
        };
        let (half, effect) = match (self.half, byte) {
            (Half::None, 0x80) => (Half::Read, Effect::Taken),
            (Half::None, 0x81) => (Half::Write, Effect::Taken),
            (Half::None, 0x82) => (Half::None, Effect::Out(0x90)),
            (Half::None, 0x83) => (Half::None, Effect::Taken),
            (Half::None, _) => (Half::None, Effect::Out(self.codes.pop_front().unwrap_or(0))),
            (Half::Read, address) => (Half::None, Effect::Out(self.cells[usize::from(address)])),
            (Half::Write, address) => (Half::WriteTo(address), Effect::Taken),
            (Half::WriteTo(address), value) => {
                self.cells[usize::from(address)] = value;
                (Half::None, Effect::Put)
            }
        };
        if self.half == Half::None && byte == 0x82 {
            self.burst = true;
        }
        if self.half == Half::None && byte == 0x83 {
            self.burst = false;
        }
        self.half = half;
        if let Effect::Out(byte) = effect {
            self.output = Some(byte);
        }
        CtlOutcome::Stepped(effect)
    }
}
