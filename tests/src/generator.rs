//! Kits made from a seed, the same ones every time: some that know the protocol and get far, some damaged, some at the edges.

pub mod damaged;
pub mod edge;
mod maker;
pub mod protocol;

use crate::kit;
use crate::random::Random;

/// The kit of this number under this seed.
pub fn kit_bytes(seed: u64, number: u64) -> Vec<u8> {
    let mut random = Random::new(seed.wrapping_mul(0x1_0000_0001).wrapping_add(number));
    match random.below(100) {
        0..=71 => kit::bytes(&protocol::kit(&mut random)),
        72..=97 => damaged::bytes(&mut random),
        _ => edge::bytes(&mut random),
    }
}

/// The kits that every run tries, whatever its seed: every cut, every misspelling and every number at the edge of its range, in a kit
/// that has each kind of event, and the largest kits.
pub fn fixed() -> Vec<Vec<u8>> {
    let mut all = damaged::every();
    all.extend(edge::every());
    all
}
