//! The causes of State for a layout, each a way to make a legal one illegal and nothing else wrong.
//!
//! Assumes: the layout was legal over the table, or was spoiled here before.

use super::super::codes;
use super::legal;
use crate::paper::image::Parts;
use crate::paper::layout::{Queued, State, Waiting, HOLD_TAP, MOST_QUEUED, MOST_STATES};
use crate::paper::state::Held;
use crate::random::Random;

#[derive(Clone, Copy, Debug, PartialEq)]
pub enum Cause {
    ManyStates,
    ManyQueued,
    Code,
    Default,
    Age,
    /// Waiting on a record of another kind.
    OtherKind,
    /// Waiting on a record that the table has not.
    NoRecord,
    Left,
    UnusedState,
    UnusedEvent,
}

pub const CAUSES: [Cause; 10] = [
    Cause::ManyStates,
    Cause::ManyQueued,
    Cause::Code,
    Cause::Default,
    Cause::Age,
    Cause::OtherKind,
    Cause::NoRecord,
    Cause::Left,
    Cause::UnusedState,
    Cause::UnusedEvent,
];

pub fn spoil(held: &mut Held, random: &mut Random, table: &Parts, cause: Cause) {
    match cause {
        Cause::ManyStates => held.state_count = random.pick(&[65, 66, 128, 256, 320, 65_535]),
        Cause::ManyQueued => held.queue_count = random.pick(&[17, 18, 32, 256, 272, 65_535]),
        Cause::Code => code(held, random),
        Cause::Default => {
            let layers = table.layers() as u16;
            held.default = random.pick(&[layers, layers + 1, layers + 256, 65_535]);
        }
        Cause::Age => age(held, random, table),
        Cause::OtherKind | Cause::NoRecord | Cause::Left => {
            let at = legal::coord(random, table);
            let (left, record) = wrong_wait(random, table, cause);
            held.waiting = Some(Waiting { at, left, record });
        }
        Cause::UnusedState => unused_state(held, random, table),
        Cause::UnusedEvent => unused_event(held, random, table),
    }
}

/// The used places, of which there are at least so many afterwards.
fn used(count: &mut u16, least: u16, places: usize) -> usize {
    *count = (*count).max(least);
    usize::from(*count).min(places)
}

fn code(held: &mut Held, random: &mut Random) {
    let used = used(&mut held.state_count, 1, MOST_STATES);
    let place = random.place(0, used);
    held.states[place] = State::Key {
        code: codes::illegal(random),
        at: (random.below(3) as u8, random.below(3) as u8),
    };
}

/// Makes an event older than the one in front of it, mostly by one tick.
fn age(held: &mut Held, random: &mut Random, table: &Parts) {
    let used = used(&mut held.queue_count, 2, MOST_QUEUED);
    let place = random.place(1, used);
    let front = &mut held.queue[place - 1];
    front.age = front.age.min(65_534);
    let age = match random.below(3) {
        0 => 65_535,
        _ => front.age + 1,
    };
    let event = legal::event(random, table);
    held.queue[place] = Queued { event, age };
}

/// The ticks left and the record of what may not wait.
fn wrong_wait(random: &mut Random, table: &Parts, cause: Cause) -> (u16, u16) {
    let records = table.records.len() as u16;
    let no_record = random.pick(&[records, records + 1, records + 256, 65_535]);
    match cause {
        Cause::OtherKind => {
            // record 0 names no other, so there is one
            let others: Vec<u16> = (0..records)
                .filter(|&record| table.records[usize::from(record)][0] != HOLD_TAP)
                .collect();
            let record = random.pick(&others);
            let word = table.records[usize::from(record)][1];
            (random.pick(&[0, 1, word]), record)
        }
        Cause::Left => match legal::hold_tap(random, table) {
            Some((record, timeout)) if timeout < 65_535 => {
                let over = random.pick(&[timeout + 1, timeout + 1, 65_535]);
                (over, record)
            }
            _ => (0, no_record),
        },
        _ => (random.pick(&[0, 1, 65_535]), no_record),
    }
}

fn unused_state(held: &mut Held, random: &mut Random, table: &Parts) {
    held.state_count = held.state_count.min(63);
    let place = random.place(held.state_count.into(), MOST_STATES);
    let at = (0, 0);
    held.states[place] = match random.below(6) {
        0 => State::Layer { number: 0, at },
        1 => State::Layer { number: 1, at },
        2 => State::Key { code: 4, at },
        3 => State::Key {
            code: 0,
            at: random.pick(&[(0, 1), (1, 0), (255, 255)]),
        },
        4 => State::Key { code: 0xA5, at },
        _ => State::Key {
            code: codes::legal(random).max(1),
            at: legal::coord(random, table),
        },
    };
}

fn unused_event(held: &mut Held, random: &mut Random, table: &Parts) {
    use crate::paper::layout::Event::{Press, Release};
    held.queue_count = held.queue_count.min(15);
    let place = random.place(held.queue_count.into(), MOST_QUEUED);
    let (event, age) = match random.below(5) {
        0 => (Press((0, 0)), 0),
        1 => (Release((0, 0)), random.pick(&[1, 256, 65_535])),
        2 => (Release((0, 1)), 0),
        3 => (Release((1, 0)), 0),
        _ => (Press(legal::coord(random, table)), 3),
    };
    held.queue[place] = Queued { event, age };
}

#[cfg(test)]
mod tests {
    use super::*;
    use crate::generate::layout::tables::lively;
    use crate::paper::image::check;

    #[test]
    fn each_cause_makes_an_illegal_state() {
        let mut random = Random::new(2);
        for _ in 0..500 {
            let table = check(&lively(&mut random).bytes()).expect("an accepted table");
            for cause in CAUSES {
                let mut held = legal::layout(&mut random, &table);
                assert!(held.layout(&table).is_some(), "{held:?}");
                spoil(&mut held, &mut random, &table, cause);
                assert!(held.layout(&table).is_none(), "{cause:?}: {held:?}");
            }
        }
    }
}
