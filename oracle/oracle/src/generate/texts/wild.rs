//! Texts that are not made line by line: accepted ones with bytes changed, and texts out of nothing.
//!
//! Assumes nothing: what comes out is counted by who asked for it.

use super::misfits::odd_byte;
use super::sheet::{plain_line, Sheet};
use crate::generate::fields::word;
use crate::generate::grow::{accepted, Reach};
use crate::random::Random;

/// A text of an accepted table with a byte, or some, changed, added or taken away.
pub fn changed(random: &mut Random, reach: Reach) -> Vec<u8> {
    let draft = accepted(random, reach);
    let mut text = Sheet::of(&draft, random, reach).bytes();
    let times = match random.below(4) {
        0 => random.among(2, 4),
        _ => 1,
    };
    for _ in 0..times {
        let at = random.place(0, text.len());
        let byte = byte(random);
        match random.below(3) {
            0 => text[at] = byte,
            1 => text.insert(at, byte),
            _ => drop(text.remove(at)),
        }
    }
    text
}

/// A byte that texts have, mostly.
fn byte(random: &mut Random) -> u8 {
    match random.below(6) {
        0 => b' ',
        1 => b'\n',
        2 => odd_byte(random),
        _ => random.among(b'0'.into(), b'9'.into()) as u8,
    }
}

/// A text out of nothing: no byte, newlines or spaces alone, bytes that texts have, any bytes, lines of any numbers, an
/// image as it is.
pub fn wild(random: &mut Random) -> Vec<u8> {
    let count = random.below(60);
    match random.below(8) {
        0 => Vec::new(),
        1 => vec![b'\n'; random.among(1, 12)],
        2 => vec![b' '; random.among(1, 12)],
        3 => (0..count).map(|_| byte(random)).collect(),
        4 => (0..count).map(|_| random.below(256) as u8).collect(),
        5 => accepted(random, Reach::Small).bytes(),
        _ => lines_of_any_numbers(random),
    }
}

/// Counts that ask for few lines, and lines with any numbers in them, as many as are asked for or not.
fn lines_of_any_numbers(random: &mut Random) -> Vec<u8> {
    let counts: [usize; 5] = std::array::from_fn(|_| random.among(0, 3));
    let [layers, rows, columns, records, entries] = counts;
    let mut sizes = vec![columns; layers * rows];
    sizes.extend(vec![4; records]);
    sizes.extend(vec![1; entries]);
    if random.once_in(4) {
        random.shuffle(&mut sizes);
    }
    let mut lines = vec![plain_line(&counts.map(|count| count as u16))];
    for size in sizes {
        let low = random.once_in(2);
        let numbers: Vec<u16> = (0..size)
            .map(|_| match low {
                true => random.among(0, 3) as u16,
                false => word(random),
            })
            .collect();
        lines.push(plain_line(&numbers));
    }
    let tail = Vec::new();
    Sheet { lines, tail }.bytes()
}
