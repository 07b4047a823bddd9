//! What stands in the words of records: any word, timeouts and layers' numbers, with those at the limits more often.
//!
//! Assumes nothing.

use crate::random::Random;

/// Any word.
pub fn word(random: &mut Random) -> u16 {
    random.below(65_536) as u16
}

pub fn timeout(random: &mut Random) -> u16 {
    match random.below(3) {
        0 => random.pick(&[200, 255, 256, 65_534, 65_535]),
        1 => word(random),
        _ => random.among(0, 3) as u16,
    }
}

/// A layer's number, in range or not.
pub fn layer(random: &mut Random, layers: usize) -> u16 {
    match random.below(8) {
        0 => layers as u16,
        1 => random.pick(&[8, 9, 255, 256, 32_768, 65_534, 65_535]),
        2 => word(random),
        _ => random.below(layers) as u16,
    }
}
