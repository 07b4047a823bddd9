//! Pictures of a matrix: any, and one that differs from another.
//!
//! Assumes: a picture that is to be changed has a switch.

use crate::random::Random;

/// A picture with one key changed, or some, or many, or all.
pub fn changed(random: &mut Random, picture: &[u8]) -> Vec<u8> {
    let mut other = picture.to_vec();
    let mut flip = |at: usize| other[at] = 1 - other[at];
    match random.below(8) {
        0 => flip(0),
        1 => flip(picture.len() - 1),
        2..=4 => flip(random.below(picture.len())),
        5 => (0..picture.len()).for_each(flip),
        6 => (0..picture.len()).for_each(|at| {
            if random.once_in(2) {
                flip(at);
            }
        }),
        _ => (0..3).for_each(|_| flip(random.below(picture.len()))),
    }
    other
}

/// Any picture, more often one without keys down.
pub fn any(random: &mut Random, switches: usize) -> Vec<u8> {
    let down = random.pick(&[0, 0, 1, 4]);
    (0..switches)
        .map(|_| u8::from(random.below(4) < down))
        .collect()
}
