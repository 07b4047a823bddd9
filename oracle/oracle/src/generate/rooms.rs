//! Lengths of buffers: enough for what is to go into them, just so or with more, and not enough.
//!
//! Assumes: a script names lengths of up to 65,535 bytes, and what goes into a buffer has some bytes.

use crate::random::Random;

/// A buffer's length that is mostly enough for so many bytes.
pub fn any_room(random: &mut Random, length: usize) -> usize {
    match random.once_in(6) {
        true => short(random, length),
        false => enough(random, length),
    }
}

/// A buffer's length that is enough for so many bytes: just so, one more, as many as there are, or any.
pub fn enough(random: &mut Random, length: usize) -> usize {
    match random.below(6) {
        0..=2 => length,
        3 => length + 1,
        4 => 65_535,
        _ => random.among(length, 65_535),
    }
}

/// A buffer's length that is not enough for so many bytes, of which there are some: one less, none, or any.
pub fn short(random: &mut Random, length: usize) -> usize {
    match random.below(4) {
        0 | 1 => length - 1,
        2 => 0,
        _ => random.below(length),
    }
}
