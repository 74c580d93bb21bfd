//! A controller whose cells count up, with room for four codes.
use ec_chip::EcChip;
pub use std::alloc::Global;

pub fn chip(alloc: Global) -> Option<EcChip> {
    let mut cells = vec![in alloc; 0u8; 256].ok()?;
    for (address, cell) in cells.iter_mut().enumerate() {
        *cell = (address % 256) as u8;
    }
    EcChip::new(alloc, cells, 4).ok()
}
