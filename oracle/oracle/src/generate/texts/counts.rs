//! Counts that are at fault: tables whose counts break their rules, with all the lines that these ask for, and texts
//! whose counts ask for other lines than they have.
//!
//! Assumes: as many lines as 65,535 records or entries take no script's line holds, so counts as large stand only
//! where they ask for nothing or where lines are missing.

use super::sheet::{numbers, plain_line, Sheet};
use crate::generate::draft::{Draft, NOOP};
use crate::generate::fields::word;
use crate::generate::grow::{accepted, Reach};
use crate::generate::spoil::leave_limits;
use crate::random::Random;

/// A table with one or more counts that break their rule; its parts are as many as they say.
pub fn illegal(random: &mut Random, reach: Reach) -> Draft {
    let mut draft = accepted(random, reach);
    match random.below(8) {
        0 => no_rows(&mut draft, random),
        1 => empty_rows(&mut draft, random, reach),
        2 => leave_far(&mut draft, random, reach),
        3 => {
            leave_limits(&mut draft, random);
            leave_limits(&mut draft, random);
        }
        _ => leave_limits(&mut draft, random),
    }
    draft
}

/// No layers or no rows, and with them any number of the others.
fn no_rows(draft: &mut Draft, random: &mut Random) {
    let mut any = || match random.below(3) {
        0 => 65_535,
        1 => word(random).into(),
        _ => random.among(0, 16),
    };
    let (other, columns) = (any(), any());
    let (layers, rows) = match random.once_in(2) {
        true => (0, other),
        false => (other, 0),
    };
    (draft.layers, draft.rows, draft.columns) = (layers, rows, columns);
    draft.cells.clear();
}

/// No columns: each row is an empty line.
fn empty_rows(draft: &mut Draft, random: &mut Random, reach: Reach) {
    let (layers, rows) = match random.below(20) {
        0 if reach == Reach::Any => (256, random.among(1, 30)),
        1..=9 => (random.among(1, 20), random.among(1, 20)),
        _ => (draft.layers, draft.rows),
    };
    (draft.layers, draft.rows, draft.columns) = (layers, rows, 0);
    draft.cells.clear();
}

/// One count far past its limit.
fn leave_far(draft: &mut Draft, random: &mut Random, reach: Reach) {
    let most = match reach {
        Reach::Small => 300,
        Reach::Any => 3_000,
    };
    let far = random.among(30, most);
    match random.below(5) {
        0 => (draft.layers, draft.rows, draft.columns) = (far, 1, 1),
        1 => (draft.layers, draft.rows, draft.columns) = (1, far, 1),
        2 => (draft.layers, draft.rows, draft.columns) = (1, 1, far),
        3 => draft.records.resize(257 + far / 4, NOOP),
        _ => draft.list.resize(1_024 + far, 0),
    }
    let cells = draft.layers * draft.rows * draft.columns;
    draft.cells.resize(cells, 0);
}

/// A text whose counts ask for other lines than it has. With some of them that is no fault by chance.
pub fn asking(random: &mut Random, reach: Reach) -> Sheet {
    let draft = accepted(random, reach);
    let mut sheet = Sheet::of(&draft, random, reach);
    let mut counts = numbers(&draft).swap_remove(0);
    match random.below(8) {
        0 => counts.fill(65_535),
        1 => counts = (0..5).map(|_| word(random)).collect(),
        2 => return rows_past_all_numbers(random, sheet),
        3 => counts.swap(random.below(5), random.below(5)),
        _ => {
            let at = random.below(5);
            counts[at] = other_count(random, counts[at]);
        }
    }
    sheet.lines[0] = plain_line(&counts);
    if random.once_in(4) {
        sheet.lines.truncate(random.among(1, sheet.lines.len()));
    }
    sheet
}

fn other_count(random: &mut Random, old: u16) -> u16 {
    match random.below(8) {
        0 => 0,
        1 | 2 => old.saturating_add(1),
        3 => old.saturating_sub(1),
        // the same if it is cut to a byte
        4 => old.saturating_add(256),
        5 => 65_535,
        6 => old.saturating_mul(2),
        _ => word(random),
    }
}

/// So many empty rows that their number, or that of all lines, is 0 or little if it is cut to 16 or 32 bits; some of
/// them are there, and behind them perhaps a table's lines.
fn rows_past_all_numbers(random: &mut Random, mut sheet: Sheet) -> Sheet {
    let (layers, rows) = random.pick(&[
        (65_535, 65_535),
        (256, 256),
        (32_768, 2),
        (2, 32_769),
        (65_535, 2),
    ]);
    let [columns, records, entries] = match random.below(3) {
        0 => [65_535; 3],
        1 => [0, 65_535, 65_535],
        _ => [0, random.among(0, 3) as u16, random.among(0, 3) as u16],
    };
    let first = plain_line(&[layers, rows, columns, records, entries]);
    let empty = random.pick(&[0, 1, 2, 16]);
    let behind = match random.once_in(2) {
        true => sheet.lines.split_off(1),
        false => Vec::new(),
    };
    sheet.lines = [vec![first], vec![vec![]; empty], behind].concat();
    sheet
}

#[cfg(test)]
mod tests {
    use super::super::sheet::MOST_BYTES;
    use super::*;
    use crate::paper::image::Refusal;
    use crate::paper::text::write;
    use std::collections::BTreeSet;

    #[test]
    fn illegal_counts_are_the_headers() {
        let mut random = Random::new(1);
        for _ in 0..4_000 {
            let draft = illegal(&mut random, Reach::Any);
            let sheet = Sheet::of(&draft, &mut random, Reach::Any);
            let (text, room) = (sheet.bytes(), random.below(65_536));
            assert_eq!(write(&text, room), Err(Refusal::whole(2)));
            assert!(text.len() <= MOST_BYTES + 8_000);
        }
    }

    #[test]
    fn other_lines_are_mostly_missed() {
        let mut random = Random::new(2);
        let mut places = BTreeSet::new();
        let mut refused = 0;
        for _ in 0..4_000 {
            let sheet = asking(&mut random, Reach::Any);
            if let Err(refusal) = write(&sheet.bytes(), 65_535) {
                refused += usize::from(refusal.number == 15);
                places.insert(refusal.place);
            }
        }
        assert!(refused > 3_200 && places.len() > 30, "{refused} {places:?}");
    }
}
