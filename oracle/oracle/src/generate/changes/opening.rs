//! What every comparison of tables opens with: one-cell tables that differ by the least there is, Z and what is one
//! byte away from it, the largest tables, the longest lines, and lines that cannot be read.
//!
//! Assumes nothing.

use super::{line, Changes};
use crate::generate::draft::*;
use crate::generate::grow::{accepted, Reach};
use crate::generate::page::miswritten;
use crate::paper::image::Z;
use crate::words::{to_hex, LONGEST};

/// How many lines with an odd byte come up, besides those below.
const UNREADABLE: usize = 200;

/// A buffer for Z, which has two cells.
const OF_Z: usize = 6;

/// Lines that miss the form by little.
const MISWRITTEN: [&str; 24] = [
    "compare",
    "compare ",
    "compare -",
    "compare - ",
    "compare - -",
    "compare - - ",
    "compare - - 0 ",
    " compare - - 0",
    "compare  - - 0",
    "compare -  - 0",
    "compare - -  0",
    "compare - - - 0",
    "compare - - 0 0",
    "compare - - -",
    "compare -- - 0",
    "compare - - 65536",
    "compare - - 000000",
    "compare - - +0",
    "compare 010 0100 6",
    "compare 0100 010 6",
    "compare 0A00 0100 6",
    "compare 0100 0A00 6",
    "Compare - - 0",
    "cells - - 0",
];

/// Records of which the last is the one cell's, and their list.
type Single = (&'static [[u16; 4]], &'static [u16]);

const KEY: [u16; 4] = [2, 4, 0, 0];
const OTHER: [u16; 4] = [2, 5, 0, 0];

/// Actions that are near each other, and the same ones laid out in two ways.
const SINGLES: [Single; 34] = [
    (&[NOOP], &[]),
    (&[[1, 0, 0, 0]], &[]),
    (&[[2, 0, 0, 0]], &[]),
    (&[KEY], &[]),
    (&[OTHER, KEY], &[9, 65_535]),
    (&[[3, 0, 0, 0]], &[4, 5]),
    (&[[3, 2, 0, 0]], &[4, 5]),
    (&[[4, 0, 0, 0]], &[4, 5]),
    (&[[4, 1, 0, 0]], &[4, 5]),
    (&[[3, 0, 1, 0]], &[4, 5]),
    (&[[3, 1, 1, 0]], &[4, 5]),
    (&[[3, 0, 2, 0]], &[4, 5]),
    (&[[3, 1, 2, 0]], &[5, 4, 5]),
    (&[[3, 0, 2, 0]], &[5, 4]),
    (&[[3, 0, 3, 0]], &[4, 4, 5]),
    (&[[3, 0, 3, 0]], &[4, 5, 5]),
    (&[KEY, [4, 0, 1, 0]], &[0]),
    (&[OTHER, KEY, [4, 0, 1, 0]], &[1]),
    (&[KEY, [4, 0, 1, 0], [4, 1, 1, 0]], &[0, 1]),
    (&[KEY, OTHER, [4, 0, 2, 0]], &[0, 1]),
    (&[OTHER, KEY, [4, 1, 2, 0]], &[0, 1, 0]),
    (&[KEY, OTHER, [4, 0, 2, 0]], &[1, 0]),
    (&[KEY, OTHER, [4, 0, 1, 0], [4, 1, 2, 0]], &[1, 0, 2]),
    (&[[5, 0, 0, 0]], &[]),
    (&[[6, 0, 0, 0]], &[]),
    (&[[5, 9, 0, 0]], &[]),
    (&[[5, 10, 0, 0]], &[]),
    (&[[5, 265, 0, 0]], &[]),
    (&[[6, 9, 0, 0]], &[]),
    (&[KEY, OTHER, [7, 200, 0, 1]], &[]),
    (&[OTHER, KEY, [7, 200, 1, 0]], &[]),
    (&[KEY, OTHER, [7, 200, 1, 0]], &[]),
    (&[KEY, OTHER, [7, 201, 0, 1]], &[]),
    (&[KEY, OTHER, [7, 456, 0, 1]], &[]),
];

/// Writes all of it.
pub fn write(changes: &mut Changes) {
    write_short(changes);
    write_singles(changes);
    write_near_z(changes);
    write_largest(changes);
    write_longest(changes);
    write_unreadable(changes);
    // the last line of the script, which has no newline
    changes.compare(&Z, &Z, OF_Z);
}

/// Z with itself, with its beginnings, and between calls over it, which are not to notice.
pub fn write_short(changes: &mut Changes) {
    let image = format!("image {}", to_hex(&Z));
    for text in [&image[..], "p 0 0", "t"] {
        changes.other(text);
    }
    for room in [OF_Z, OF_Z - 1, 0, OF_Z + 1, 65_535] {
        changes.compare(&Z, &Z, room);
    }
    changes.other("t");
    for part in [&Z[..0], &Z[..15], &Z[..51]] {
        changes.compare(&Z, part, OF_Z);
        changes.compare(part, &Z, 0);
        changes.compare(part, part, OF_Z);
    }
    let code = with(30, 5);
    changes.compare(&Z, &code, OF_Z);
    changes.other("t");
    changes.compare(&code, &Z, OF_Z - 1);
    changes.other("t");
}

/// Z with one byte changed.
fn with(at: usize, byte: u8) -> Vec<u8> {
    let mut image = Z.to_vec();
    image[at] = byte;
    image
}

fn single((records, list): Single) -> Vec<u8> {
    let mut draft = Draft::new(1, 1, 1);
    for record in records {
        draft.cells[0] = draft.push(*record, None);
    }
    draft.list = list.to_vec();
    draft.bytes()
}

/// Every two of the one-cell tables.
fn write_singles(changes: &mut Changes) {
    let images = SINGLES.map(single);
    for one in &images {
        for other in &images {
            changes.compare(one, other, 3);
        }
    }
}

/// Z with each of its bytes by one more and by one less, both ways.
fn write_near_z(changes: &mut Changes) {
    for (at, old) in Z.into_iter().enumerate() {
        for byte in [old.wrapping_add(1), old.wrapping_sub(1)] {
            changes.compare(&Z, &with(at, byte), OF_Z);
            changes.compare(&with(at, byte), &Z, OF_Z);
        }
    }
}

/// As many cells, records and entries as there can be, in chains of weight 64 that stand on different codes.
fn largest() -> Draft {
    let mut draft = Draft::new(MOST_LAYERS, MOST_ROWS, MOST_COLUMNS);
    for at in 0..MOST_RECORDS as u16 {
        let record = match at % 64 {
            0 => [2, 4 + at / 64, 0, 0],
            _ => [4, at, 1, 0],
        };
        draft.push(record, None);
    }
    draft.list = (0..MOST_ENTRIES as u16)
        .map(|at| at.saturating_sub(1))
        .collect();
    draft.cells.fill(63);
    draft
}

/// The largest tables: the same, the same by other records, with one cell changed, and with all of them.
fn write_largest(changes: &mut Changes) {
    let one = largest();
    let mut others = [one.clone(), one.clone(), one.clone(), one.clone()];
    // another chain on the same code
    others[1].records[64] = others[1].records[0];
    others[1].cells.fill(127);
    *others[2].cells.last_mut().expect("a cell") = 127;
    others[3].cells.fill(255);
    let most = 3 * one.cells.len();
    for other in others.map(|draft| draft.bytes()) {
        changes.compare(&one.bytes(), &other, most);
        changes.compare(&other, &one.bytes(), most - 1);
    }
}

/// The longest lines that can be read, and longer ones. No table is so long, so they are refused.
fn write_longest(changes: &mut Changes) {
    let most = (LONGEST - "compare   06".len()) / 2;
    let mut image = Z.to_vec();
    image.resize(most - Z.len(), 0);
    let (long, z) = (to_hex(&image), to_hex(&Z));
    for room in ["06", "006"] {
        changes.other(format!("compare {long} {z} {room}"));
        changes.other(format!("compare {z} {long} {room}"));
    }
}

fn write_unreadable(changes: &mut Changes) {
    for text in MISWRITTEN {
        changes.other(text);
    }
    for _ in 0..UNREADABLE {
        let draft = accepted(&mut changes.random, Reach::Small);
        let line = line(&draft.bytes(), &Z, 3 * draft.cells.len());
        let line = miswritten(&mut changes.random, line);
        changes.other(line);
    }
}

#[cfg(test)]
mod tests {
    use super::*;
    use crate::generate::changes::trees::Table;
    use crate::generate::page::assert_unreadable;
    use crate::paper::changes::differing;
    use crate::paper::image::check;

    #[test]
    fn miswritten_lines_cannot_be_read() {
        assert_unreadable(&MISWRITTEN);
    }

    #[test]
    fn singles_are_accepted_and_each_has_few_that_are_the_same() {
        let images = SINGLES.map(single);
        assert!(images.iter().all(|image| check(image).is_ok()));
        let same = images.iter().map(|one| {
            let same = |other: &&Vec<u8>| differing(one, other, 3) == Ok(vec![]);
            images.iter().filter(same).count()
        });
        let twice = same.filter(|&count| count == 2).count();
        // a pair each: KeyCode 4, both empty kinds, a list of codes, actions alone and two, a HoldTap
        assert_eq!(twice, 2 * 7);
    }

    #[test]
    fn the_largest_is_accepted() {
        let draft = largest();
        assert!(check(&draft.bytes()).is_ok());
        assert_eq!(Table::of(&draft).cells[0].weight(), HEAVIEST);
    }
}
