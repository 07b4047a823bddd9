//! Damage to an image as a whole: faults 1 to 3 of document 01, bytes changed, cut off or put behind, and
//! images out of nothing.
//!
//! Assumes: a fault is what is aimed at, not what must come out; what came out is counted by who asked.

use super::damage::{damage, damage_twice_in_one};
use super::draft::*;
use super::fields::word;
use super::grow::{accepted, Reach};
use crate::paper::image::Z;
use crate::random::Random;

/// An image with faults of these numbers, 1 to 9; a number given twice makes two such faults.
pub fn refused(random: &mut Random, reach: Reach, numbers: &[u8]) -> Vec<u8> {
    let mut draft = accepted(random, reach);
    for number in (4..=9).rev() {
        for _ in numbers.iter().filter(|&&wanted| wanted == number) {
            damage(&mut draft, random, number);
        }
    }
    let mut bytes = match numbers.contains(&2) {
        true => with_bad_header(draft, random),
        false => draft.bytes(),
    };
    if numbers.contains(&3) {
        change_length(&mut bytes, random);
    }
    if numbers.contains(&1) {
        bytes = short(random, bytes);
    }
    bytes
}

/// An image with two faults in one of its records.
pub fn refused_twice_in_one(random: &mut Random, reach: Reach) -> Vec<u8> {
    let mut draft = accepted(random, reach);
    damage_twice_in_one(&mut draft, random);
    draft.bytes()
}

/// The first bytes of an image or of Z, or any bytes, too few for a header.
fn short(random: &mut Random, mut bytes: Vec<u8>) -> Vec<u8> {
    match random.below(3) {
        0 => bytes = Z.to_vec(),
        1 => bytes = any_bytes(random, 15),
        _ => (),
    }
    bytes.truncate(random.below(16));
    bytes
}

fn any_bytes(random: &mut Random, count: usize) -> Vec<u8> {
    (0..count).map(|_| random.below(256) as u8).collect()
}

fn with_bad_header(mut draft: Draft, random: &mut Random) -> Vec<u8> {
    match random.below(10) {
        0 => {
            leave_limits(&mut draft, random);
            draft.bytes()
        }
        1 => with_wrapped_header(&draft, random),
        2 => {
            // both offsets agree with each other, and not with the counts
            let mut bytes = draft.bytes();
            let by = random.pick(&[1, 2, 8, 65_534, 65_535]);
            change(&mut bytes, 6, |word| word.wrapping_add(by));
            change(&mut bytes, 7, |word| word.wrapping_add(by));
            bytes
        }
        _ => with_bad_word(draft.bytes(), random),
    }
}

/// Changes a word of an image, counted from the first of the header.
fn change(bytes: &mut [u8], at: usize, to: impl FnOnce(u16) -> u16) {
    let old = u16::from_le_bytes([bytes[2 * at], bytes[2 * at + 1]]);
    bytes[2 * at..2 * at + 2].copy_from_slice(&to(old).to_le_bytes());
}

/// One header word by 1 more or less, 0, just past its limit, far past it, or any.
fn with_bad_word(mut bytes: Vec<u8>, random: &mut Random) -> Vec<u8> {
    let at = random.below(8);
    let past = [2, 9, 9, 17, 257, 1_025, 2_066, 4_114][at];
    let any = word(random);
    let way = random.below(8);
    change(&mut bytes, at, |old| match way {
        0 => old.wrapping_add(1),
        1 => old.wrapping_sub(1),
        2 => 0,
        3 => past,
        4 => old | 256,
        5 => old | 32_768,
        6 => 65_535,
        _ => any,
    });
    bytes
}

/// Makes one count 0 or one past its limit, with offsets and length that agree with it.
pub fn leave_limits(draft: &mut Draft, random: &mut Random) {
    match random.below(9) {
        0 => draft.layers = 0,
        1 => draft.rows = 0,
        2 => draft.columns = 0,
        3 => draft.layers = MOST_LAYERS + 1,
        4 => draft.rows = MOST_ROWS + 1,
        5 => draft.columns = MOST_COLUMNS + 1,
        6 => draft.records.clear(),
        7 => draft.records.resize(MOST_RECORDS + 1, NOOP),
        _ => draft.list.resize(MOST_ENTRIES + 1, 0),
    }
    let cells = draft.layers * draft.rows * draft.columns;
    draft.cells.resize(cells, 0);
}

/// A count so far past its limit that the offsets and the length agree with it in 16 bits.
fn with_wrapped_header(draft: &Draft, random: &mut Random) -> Vec<u8> {
    let mut bytes = draft.bytes();
    let counts = [draft.layers, draft.rows, draft.columns];
    match random.below(5) {
        3 => change(&mut bytes, 4, |records| records.wrapping_add(8_192)),
        4 => change(&mut bytes, 5, |entries| entries.wrapping_add(32_768)),
        at => {
            // as many more as make the cells 32,768, or a multiple, more
            let others: usize = counts.iter().product::<usize>() / counts[at];
            let more = 32_768 >> others.trailing_zeros();
            change(&mut bytes, 1 + at, |count| count.wrapping_add(more as u16));
        }
    }
    bytes
}

/// Makes an image too short or too long, by its bytes or by its count of entries.
fn change_length(bytes: &mut Vec<u8>, random: &mut Random) {
    let length = bytes.len();
    match random.below(8) {
        0 => bytes.truncate(length - 1),
        1 => bytes.truncate(length - 2),
        2 => bytes.truncate(random.among(16, length - 1)),
        3 => put_behind(bytes, random, 1),
        4 => put_behind(bytes, random, 2),
        5 => {
            let by = random.among(1, 40);
            put_behind(bytes, random, by);
        }
        6 => change(bytes, 5, |entries| entries.wrapping_add(1)),
        _ => change(bytes, 5, |entries| entries.checked_sub(1).unwrap_or(1)),
    }
}

/// Puts bytes behind an image, such as flash has: zeros, ones, or any.
pub fn put_behind(bytes: &mut Vec<u8>, random: &mut Random, count: usize) {
    let more = match random.below(3) {
        0 => vec![0; count],
        1 => vec![0xFF; count],
        _ => any_bytes(random, count),
    };
    bytes.extend(more);
}

/// An accepted image with a byte, or a bit, or some bytes changed.
pub fn changed(random: &mut Random, reach: Reach) -> Vec<u8> {
    let mut bytes = accepted(random, reach).bytes();
    let times = match random.below(4) {
        0 => random.among(2, 4),
        _ => 1,
    };
    for _ in 0..times {
        let at = random.below(bytes.len());
        bytes[at] = match random.below(3) {
            0 => bytes[at] ^ (1 << random.below(8)),
            1 => bytes[at].wrapping_add(1),
            _ => random.below(256) as u8,
        };
    }
    bytes
}

/// The first bytes of an accepted image, or one with bytes behind it, or with another behind it.
pub fn cut_or_continued(random: &mut Random, reach: Reach) -> Vec<u8> {
    let mut bytes = accepted(random, reach).bytes();
    match random.below(3) {
        0 => bytes.truncate(random.below(bytes.len())),
        1 => {
            let by = random.among(1, 200);
            put_behind(&mut bytes, random, by);
        }
        _ => bytes.extend(accepted(random, Reach::Small).bytes()),
    }
    bytes
}

/// Bytes out of nothing: any, or behind a legal header any, or behind it low words, of which some make
/// records.
pub fn wild(random: &mut Random) -> Vec<u8> {
    if random.once_in(3) {
        let count = random.below(200);
        return any_bytes(random, count);
    }
    let mut bytes = accepted(random, Reach::Small).bytes();
    let low = random.once_in(2);
    for at in 8..bytes.len() / 2 {
        let any = match low {
            true => random.below(8) as u16,
            false => word(random),
        };
        change(&mut bytes, at, |_| any);
    }
    bytes
}
