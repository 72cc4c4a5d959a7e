//! Random inputs of a step.

use crate::rng::Rng;
use model::Site;

/// Inputs that all have a detector or button: none, all, few, many.
pub fn known_inputs(rng: &mut Rng, site: &Site) -> u64 {
    let known = site.known_inputs();
    match rng.below(6) {
        0 => 0,
        1 => known,
        2 => known & rng.draw(),
        3 => known & rng.draw() & rng.draw(),
        4 => known & rng.draw() & rng.draw() & rng.draw() & rng.draw(),
        _ => known & (1 << rng.below(64)),
    }
}

/// Inputs with at least one bit that has neither detector nor button.
pub fn unknown_inputs(rng: &mut Rng, site: &Site) -> u64 {
    let unknown = !site.known_inputs();
    let bits: Vec<u32> = (0..64).filter(|bit| unknown >> bit & 1 != 0).collect();
    let edges = [bits[0], bits[bits.len() - 1], rng.pick(&bits)];
    known_inputs(rng, site) | 1 << rng.pick(&edges)
}

/// Any 64 bits.
pub fn any_inputs(rng: &mut Rng, site: &Site) -> u64 {
    match rng.below(4) {
        0 => rng.draw(),
        1 => unknown_inputs(rng, site),
        _ => known_inputs(rng, site),
    }
}
