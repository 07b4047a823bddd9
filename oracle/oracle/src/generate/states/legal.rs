//! Layouts that are legal over a table, also such as no calls lead to: full, with ages and numbers at their
//! limits, with releases of the waiting key queued already.
//!
//! Assumes: the table was accepted.

use super::super::codes;
use crate::paper::image::Parts;
use crate::paper::layout::{
    Coord, Event, Layout, Queued, State, Waiting, HOLD_TAP, MOST_QUEUED, MOST_STATES,
};
use crate::paper::state::Held;
use crate::random::Random;

pub fn layout(random: &mut Random, table: &Parts) -> Held {
    let mut layout = Layout {
        default: random.below(table.layers()) as u16,
        ..Layout::default()
    };
    let count = count(random, MOST_STATES);
    layout.states = (0..count).map(|_| state(random, table)).collect();
    let mut ages = ages(random);
    ages.sort_by(|one, other| other.cmp(one));
    let queued = |age: u16| Queued {
        event: event(random, table),
        age,
    };
    layout.queue = ages.into_iter().map(queued).collect();
    if random.once_in(2) {
        layout.waiting = waiting(random, table, &layout);
    }
    Held::of(&layout)
}

/// A wait that ends in some ticks, and behind it a hold-tap's press and release whose ages stop meanwhile, so
/// that they seem closer together than they were. Nothing if no cell of the table is a hold-tap.
pub fn about_to_stop(random: &mut Random, table: &Parts) -> Option<Held> {
    let kind = |cell: &u16| table.records[usize::from(*cell)][0];
    let cells = (0..table.cells.len()).filter(|&at| kind(&table.cells[at]) == HOLD_TAP);
    let cells: Vec<usize> = cells.collect();
    if cells.is_empty() {
        return None;
    }
    let cell = random.pick(&cells);
    let (layer, key) = (
        cell / (table.rows * table.columns),
        cell % (table.rows * table.columns),
    );
    let at = ((key / table.columns) as u8, (key % table.columns) as u8);
    let mut ages = [(); 2].map(|_| random.among(65_526, 65_535) as u16);
    ages.sort();
    let (record, timeout) = hold_tap(random, table)?;
    let queued = [(Event::Press(at), ages[1]), (Event::Release(at), ages[0])];
    let layout = Layout {
        default: layer as u16,
        waiting: Some(Waiting {
            at: coord(random, table),
            left: timeout.min(random.among(1, 8) as u16),
            record,
        }),
        queue: queued.map(|(event, age)| Queued { event, age }).into(),
        ..Layout::default()
    };
    Some(Held::of(&layout))
}

/// A count of places: few, or all or nearly all.
fn count(random: &mut Random, places: usize) -> usize {
    match random.below(12) {
        0 => places,
        1 => places - 1,
        2 => random.among(0, places),
        _ => random.among(0, 3),
    }
}

fn ages(random: &mut Random) -> Vec<u16> {
    let count = count(random, MOST_QUEUED);
    let way = random.below(4);
    let mut age = || match way {
        0 => random.among(65_530, 65_535) as u16,
        1 => random.below(65_536) as u16,
        _ => random.among(0, 6) as u16,
    };
    (0..count).map(|_| age()).collect()
}

/// A key of the table, now and then coordinates that are none.
pub fn coord(random: &mut Random, table: &Parts) -> Coord {
    match random.below(12) {
        0 => (random.below(256) as u8, random.below(256) as u8),
        _ => (
            random.below(table.rows) as u8,
            random.below(table.columns) as u8,
        ),
    }
}

pub fn state(random: &mut Random, table: &Parts) -> State {
    let at = coord(random, table);
    match random.below(4) {
        0 => State::Layer {
            number: layer(random, table),
            at,
        },
        _ => State::Key {
            code: codes::legal(random),
            at,
        },
    }
}

fn layer(random: &mut Random, table: &Parts) -> u16 {
    match random.below(8) {
        0 => random.pick(&[65_535, 65_534, 32_768, 256]),
        1 => table.layers() as u16,
        _ => random.below(table.layers()) as u16,
    }
}

pub fn event(random: &mut Random, table: &Parts) -> Event {
    let at = coord(random, table);
    match random.once_in(2) {
        true => Event::Press(at),
        false => Event::Release(at),
    }
}

/// A hold-tap of the table that waits, if it has one; its key's release may be queued.
fn waiting(random: &mut Random, table: &Parts, layout: &Layout) -> Option<Waiting> {
    let (record, timeout) = hold_tap(random, table)?;
    let releases = layout.queue.iter().filter_map(|queued| match queued.event {
        Event::Release(at) => Some(at),
        Event::Press(_) => None,
    });
    let releases: Vec<Coord> = releases.collect();
    let at = match releases.is_empty() || random.once_in(2) {
        true => coord(random, table),
        false => random.pick(&releases),
    };
    let left = match random.below(4) {
        0 => 0,
        1 => timeout.min(1),
        2 => random.among(0, timeout.into()) as u16,
        _ => timeout,
    };
    Some(Waiting { at, left, record })
}

/// A hold-tap of the table and its timeout.
pub fn hold_tap(random: &mut Random, table: &Parts) -> Option<(u16, u16)> {
    let kinds = table.records.iter().zip(0..);
    let found: Vec<(u16, u16)> = kinds
        .filter(|(record, _)| record[0] == HOLD_TAP)
        .map(|(record, number)| (number, record[1]))
        .collect();
    (!found.is_empty()).then(|| random.pick(&found))
}
