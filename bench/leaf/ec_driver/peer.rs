//! The calls of `ec_driver` in plain Rust, over the chip of that name.
include!("../ec_chip/peer.rs");

#[derive(Clone, Copy)]
pub enum Request {
    Rd(u8),
    Wr(u8, u8),
}

pub struct Transaction {
    request: Request,
    made: u8,
    got: u8,
}

pub mod laws {
    pub fn law_stands() {}
}

impl Transaction {
    #[inline]
    pub fn new(request: Request) -> Transaction {
        Transaction { request, made: 0, got: 0 }
    }

    #[inline]
    pub fn advance(&mut self, chip: &mut EcChip) -> bool {
        if chip.awaits_step() {
            return false;
        }
        let next = match (self.request, self.made) {
            (Request::Rd(_), 0) => Some((Port::Sc, 0x80)),
            (Request::Rd(address), 1) => Some((Port::Data, address)),
            (Request::Wr(..), 0) => Some((Port::Sc, 0x81)),
            (Request::Wr(address, _), 1) => Some((Port::Data, address)),
            (Request::Wr(_, value), 2) => Some((Port::Data, value)),
            _ => None,
        };
        match next {
            Some((port, byte)) => chip.host_write(port, byte),
            None if chip.can_read() => self.got = chip.host_read(),
            None => return false,
        }
        self.made += 1;
        true
    }

    #[inline]
    pub fn finished(&self, chip: &EcChip) -> Option<Option<u8>> {
        match self.request {
            Request::Rd(_) if self.made == 3 => Some(Some(self.got)),
            Request::Wr(..) if self.made == 3 && !chip.awaits_step() => Some(None),
            _ => None,
        }
    }
}
