//! Tables that traces are run over: small ones in which layers, hold-taps and lists of codes are as frequent
//! as they can be, and any that are accepted, with timeouts that traces live to see.
//!
//! Assumes: nothing but that they are accepted, which a test asks the check.

use super::super::codes::legal;
use super::super::draft::{Draft, NOOP};
use super::super::grow::{accepted, Reach};
use crate::paper::layout::{HOLD_TAP, TRANS};
use crate::random::Random;

/// An accepted table; a large one now and then.
pub fn table(random: &mut Random) -> Vec<u8> {
    let draft = match random.below(100) {
        0 => quickened(random, Reach::Any),
        1..=29 => quickened(random, Reach::Small),
        _ => lively(random),
    };
    draft.bytes()
}

fn timeout(random: &mut Random) -> u16 {
    random.pick(&[0, 0, 1, 1, 2, 2, 3, 3, 3, 4, 5, 8, 20, 200, 65_535])
}

/// Any table, most of its hold-taps with short timeouts.
fn quickened(random: &mut Random, reach: Reach) -> Draft {
    let mut draft = accepted(random, reach);
    for record in &mut draft.records {
        if record[0] == HOLD_TAP && !random.once_in(5) {
            record[1] = timeout(random);
        }
    }
    draft
}

/// A table whose hold-taps have timeouts of these.
pub fn timed(random: &mut Random, timeouts: &[u16]) -> Draft {
    let mut draft = match random.once_in(20) {
        true => accepted(random, Reach::Small),
        false => lively(random),
    };
    for record in &mut draft.records {
        if record[0] == HOLD_TAP {
            record[1] = random.pick(timeouts);
        }
    }
    draft
}

/// A table that has much of everything.
pub fn lively(random: &mut Random) -> Draft {
    let layers = random.pick(&[1, 2, 2, 2, 3, 3, 4, 8]);
    let mut draft = Draft::new(layers, random.among(1, 3), random.among(1, 5));
    draft.push_plain(NOOP);
    draft.push_plain([TRANS, 0, 0, 0]);
    for _ in 0..random.among(2, 4) {
        draft.push_plain([2, legal(random).into(), 0, 0]);
    }
    let mut held: Vec<u16> = (0..random.among(1, 3))
        .map(|_| layer(random, layers))
        .collect();
    if random.once_in(6) {
        // a sum that is a layer's number in 16 bits
        held.extend([65_535, random.among(1, layers) as u16]);
    }
    for number in held {
        draft.push_plain([5, number, 0, 0]);
    }
    for _ in 0..random.among(0, layers.min(3)) {
        draft.push_plain([6, layer(random, layers), 0, 0]);
    }
    for _ in 0..random.among(0, 2) {
        let count = random.pick(&[0, 1, 2, 3, 8, 20, 50]);
        draft.push_codes(random, count);
    }
    for _ in 0..random.among(0, 2) {
        actions(&mut draft, random, false);
    }
    for _ in 0..random.among(1, 4) {
        hold_tap(&mut draft, random);
    }
    for _ in 0..random.among(0, 2) {
        actions(&mut draft, random, true);
    }
    fill_cells(&mut draft, random);
    draft
}

/// A layer's number, mostly of the table's.
fn layer(random: &mut Random, layers: usize) -> u16 {
    match random.below(10) {
        0 => layers as u16,
        1 => random.pick(&[65_535, 65_534, 256, 8]),
        _ => random.below(layers) as u16,
    }
}

fn closed(draft: &Draft, random: &mut Random, most: usize) -> u16 {
    let fitting = draft.nameable(draft.records.len(), false, most);
    random.pick(&fitting)
}

/// Adds a MultipleActions, the last of them a hold-tap or such a list if so wanted.
fn actions(draft: &mut Draft, random: &mut Random, open: bool) {
    let mut named: Vec<u16> = (0..random.among(0, 3))
        .map(|_| closed(draft, random, 12))
        .collect();
    if open {
        let last = draft.nameable(draft.records.len(), true, 25);
        named.extend((!last.is_empty()).then(|| random.pick(&last)));
    }
    draft.push_actions(random, &named);
}

fn hold_tap(draft: &mut Draft, random: &mut Random) {
    let (hold, tap) = (closed(draft, random, 51), closed(draft, random, 12));
    let (hold, tap) = match random.once_in(2) {
        true => (hold, tap),
        false => (tap, hold),
    };
    let timeout = timeout(random);
    draft.push_hold_tap(timeout, hold, tap);
}

/// Cells of any records, the last ones more often; on the higher layers many Trans.
fn fill_cells(draft: &mut Draft, random: &mut Random) {
    let records = draft.records.len();
    let on_first = draft.rows * draft.columns;
    for at in 0..draft.cells.len() {
        draft.cells[at] = match random.below(10) {
            0..=3 if at >= on_first => TRANS,
            0 => TRANS,
            1..=4 => random.among(records / 2, records - 1) as u16,
            _ => random.below(records) as u16,
        };
    }
}

#[cfg(test)]
mod tests {
    use super::*;
    use crate::paper::image::check;

    #[test]
    fn tables_are_accepted() {
        let mut random = Random::new(3);
        for _ in 0..20_000 {
            let image = lively(&mut random).bytes();
            assert!(check(&image).is_ok() && image.len() < 2_000, "{image:?}");
            let image = table(&mut random);
            assert!(check(&image).is_ok(), "{image:?}");
        }
    }
}
