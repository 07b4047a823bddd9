//! Tables that fill the 64 states: keys of one state, lists of codes and of actions, and hold-taps that have such lists
//! both ways.
//!
//! Assumes: nothing but that they are accepted, which a test asks the check.

use super::super::codes::legal;
use super::super::draft::{Draft, HEAVIEST, NOOP};
use crate::paper::layout::TRANS;
use crate::random::Random;

const ROWS: usize = 2;
const COLUMNS: usize = 9;

/// How many states a list is to have: few, so that one is dropped in part, or enough to fill a layout.
const LENGTHS: [usize; 16] = [0, 1, 1, 2, 2, 2, 3, 3, 3, 4, 5, 8, 13, 21, 40, 61];

/// The most states of a record, and of a hold or tap whose other one is a record of weight 1.
const MOST: usize = HEAVIEST - 1;
const MOST_DECIDED: usize = HEAVIEST - 3;

/// How much heavier a closed record is than its states are many, at the most.
const AROUND: usize = 3;

/// The timeouts are short, since every way to a decision is to come soon; a few are long.
const TIMEOUTS: [u16; 12] = [0, 0, 1, 1, 2, 2, 3, 3, 4, 6, 300, 65_535];

/// An accepted table; one in ten has lists as long as there are.
pub fn table(random: &mut Random) -> Vec<u8> {
    match random.once_in(10) {
        true => heaviest(random),
        false => mixed(random),
    }
    .bytes()
}

/// A table under way: its draft, and the records that its keys are to have.
struct Sheet<'a> {
    random: &'a mut Random,
    draft: Draft,
    keys: Vec<u16>,
    /// The records of one state: key codes and layers.
    singles: Vec<u16>,
}

/// How many states a list is to have, up to these.
fn length(random: &mut Random, most: usize) -> usize {
    let fitting: Vec<usize> = LENGTHS.into_iter().filter(|&n| n <= most).collect();
    random.pick(&fitting)
}

/// Lists of all lengths, one of them long, and hold-taps.
fn mixed(random: &mut Random) -> Draft {
    let mut sheet = Sheet::new(random);
    let states = sheet.random.among(30, MOST);
    let long = sheet.codes(states);
    sheet.keys.push(long);
    for _ in 0..5 {
        let states = length(sheet.random, HEAVIEST - AROUND);
        let list = sheet.closed(states);
        sheet.keys.push(list);
    }
    for _ in 0..5 {
        let most = HEAVIEST - 1 - 2 * AROUND;
        let hold = length(sheet.random, most);
        let tap = length(sheet.random, most - hold);
        let hold_tap = sheet.hold_tap(hold, tap);
        sheet.keys.push(hold_tap);
    }
    for _ in 0..2 {
        let list = sheet.open();
        sheet.keys.push(list);
    }
    sheet.close()
}

/// The longest lists: of codes, of actions, and as hold or tap of a hold-tap.
fn heaviest(random: &mut Random) -> Draft {
    let mut sheet = Sheet::new(random);
    let lists = [
        sheet.codes(MOST),
        sheet.actions(MOST),
        sheet.codes(MOST_DECIDED),
        sheet.actions(MOST_DECIDED),
    ];
    let [_, _, codes, actions] = lists;
    let hold_taps = [(codes, 0), (actions, 0), (0, codes)].map(|(hold, tap)| {
        let timeout = sheet.random.pick(&TIMEOUTS);
        sheet.draft.push_hold_tap(timeout, hold, tap)
    });
    let states = sheet.random.among(20, 50);
    let half = sheet.codes(states);
    sheet.keys.extend(lists);
    sheet.keys.push(half);
    sheet.keys.extend(hold_taps);
    for _ in 0..3 {
        let states = sheet.random.among(1, 4);
        let record = sheet.hold_tap(states, 2);
        sheet.keys.push(record);
    }
    sheet.close()
}

impl<'a> Sheet<'a> {
    fn new(random: &'a mut Random) -> Self {
        let layers = random.pick(&[1, 1, 1, 2, 3]);
        let mut draft = Draft::new(layers, ROWS, COLUMNS);
        let default = random.below(layers) as u16;
        for record in [NOOP, [TRANS, 0, 0, 0], [6, default, 0, 0]] {
            draft.push_plain(record);
        }
        let mut singles: Vec<u16> = (0..2)
            .map(|_| draft.push_plain([2, legal(random).into(), 0, 0]))
            .collect();
        for _ in 0..2 {
            let number = layer(random, layers);
            singles.push(draft.push_plain([5, number, 0, 0]));
        }
        Sheet {
            random,
            draft,
            keys: singles.clone(),
            singles,
        }
    }

    /// A MultipleKeyCodes of so many codes.
    fn codes(&mut self, states: usize) -> u16 {
        self.draft.push_codes(self.random, states)
    }

    /// A MultipleActions of so many records of one state.
    fn actions(&mut self, states: usize) -> u16 {
        let named: Vec<u16> = (0..states)
            .map(|_| self.random.pick(&self.singles))
            .collect();
        self.draft.push_actions(self.random, &named)
    }

    /// A record of so many states that waits for nothing.
    fn closed(&mut self, states: usize) -> u16 {
        if !self.draft.has_room() {
            return self.random.pick(&self.singles);
        }
        match self.random.below(5) {
            0 if states == 1 => self.random.pick(&self.singles),
            0 | 1 => self.codes(states),
            2 => self.actions(states),
            _ => self.nested(states),
        }
    }

    /// A MultipleActions of a list and of records of one state, before it and behind it.
    fn nested(&mut self, states: usize) -> u16 {
        let inner = self.random.among(0, states);
        let list = match self.random.once_in(3) {
            true => self.actions(inner),
            false => self.codes(inner),
        };
        let mut named: Vec<u16> = (inner..states)
            .map(|_| self.random.pick(&self.singles))
            .collect();
        let place = self.random.among(0, named.len());
        named.insert(place, list);
        if self.random.once_in(4) {
            // one of the first records, which have no state
            named.push(self.random.below(3) as u16);
        }
        self.draft.push_actions(self.random, &named)
    }

    fn hold_tap(&mut self, hold: usize, tap: usize) -> u16 {
        let (hold, tap) = match self.random.once_in(2) {
            true => (hold, tap),
            false => (tap, hold),
        };
        let (hold, tap) = (self.closed(hold), self.closed(tap));
        let timeout = self.random.pick(&TIMEOUTS);
        self.draft.push_hold_tap(timeout, hold, tap)
    }

    /// A MultipleActions of some states and of a hold-tap.
    fn open(&mut self) -> u16 {
        let [states, hold, tap] = [4, 6, 6].map(|most| self.random.among(1, most));
        let list = self.closed(states);
        let hold_tap = self.hold_tap(hold, tap);
        self.draft.push_actions(self.random, &[list, hold_tap])
    }

    /// The table whose first layer has the keys, and any of them at the places left over; the higher layers have the
    /// same, or let it through.
    fn close(self) -> Draft {
        let (random, mut draft) = (self.random, self.draft);
        let on_first = draft.rows * draft.columns;
        let mut first = self.keys;
        while first.len() < on_first {
            let at = random.below(first.len());
            first.push(first[at]);
        }
        random.shuffle(&mut first);
        for at in 0..draft.cells.len() {
            draft.cells[at] = match at >= on_first && random.once_in(2) {
                true => TRANS,
                false => first[at % on_first],
            };
        }
        draft
    }
}

/// A layer's number: mostly 0, so that keys stay what they are however many such layers are held.
fn layer(random: &mut Random, layers: usize) -> u16 {
    match random.below(12) {
        0 => 65_535,
        1 | 2 => random.below(layers) as u16,
        _ => 0,
    }
}

#[cfg(test)]
mod tests {
    use super::*;
    use crate::paper::image::check;

    #[test]
    fn tables_are_accepted() {
        let mut random = Random::new(4);
        for _ in 0..20_000 {
            let image = table(&mut random);
            assert!(check(&image).is_ok() && image.len() < 3_000, "{image:?}");
        }
    }
}
