//! A controller whose cells count up, with room for four codes.
use ec_chip::EcChip;

#[derive(Clone, Copy)]
pub struct Global;

pub fn chip(_: Global) -> Option<EcChip> {
    Some(EcChip::new((0..=255).collect(), 4))
}
