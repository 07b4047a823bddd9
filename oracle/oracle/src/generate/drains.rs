//! Cases for drains: an accepted table and calls on a fresh layout over it. The tables are small and full of
//! hold-taps, with few and mostly short timeouts; the calls fill the queue and run it over.
//!
//! Assumes: nothing of what the calls lead to; `drains.rs` judges it.

use super::layout::{bench, tables};
use crate::paper::calls::Call;
use crate::paper::image::{check, Parts};
use crate::paper::layout::{Coord, Event, HOLD_TAP};
use crate::random::Random;
use crate::words::to_hex;
use std::collections::BTreeSet;

/// The timeouts of a table: one of these lists. With 0 and 1 alone a wait that has begun at a tick is as long as
/// the table allows.
const TIMEOUTS: [&[u16]; 9] = [
    &[0],
    &[1],
    &[0, 1],
    &[1, 2],
    &[2, 3],
    &[0, 1, 2, 3],
    &[3, 5, 8, 20],
    &[1, 2, 50],
    &[0, 20, 120, 300],
];

/// The timeouts of a few tables: their waits take 65,535 ticks.
const SLOW: &[u16] = &[0, 3, 65_535];
const ONE_SLOW_IN: usize = 4_000;

#[derive(Debug)]
pub struct Case {
    pub image: Vec<u8>,
    pub calls: Vec<Call>,
}

impl Case {
    pub fn random(random: &mut Random) -> Self {
        let times = match random.once_in(ONE_SLOW_IN) {
            true => SLOW,
            false => random.pick(&TIMEOUTS),
        };
        let image = tables::timed(random, times).bytes();
        let table = check(&image).expect("tables that are made are accepted");
        let calls = Hand::new(random, &table).calls();
        Case { image, calls }
    }

    /// The case of document 01 that reaches the bound: seventeen presses of a hold-tap of timeout 1.
    pub fn of_the_paper() -> Self {
        Case {
            image: bench::z_with_timeout(1).to_vec(),
            calls: vec![Call::Event(Event::Press((0, 0))); 17],
        }
    }

    /// The events in order of arrival.
    pub fn arrived(&self) -> Vec<Event> {
        let event = |call: &Call| match *call {
            Call::Event(event) => Some(event),
            _ => None,
        };
        self.calls.iter().filter_map(event).collect()
    }

    /// As a script, without the ticks that drain.
    pub fn lines(&self) -> Vec<String> {
        let image = format!("image {}", to_hex(&self.image));
        let calls = self.calls.iter().map(Call::to_string);
        [image].into_iter().chain(calls).collect()
    }
}

/// What is done to a keyboard.
struct Hand<'a> {
    random: &'a mut Random,
    rows: usize,
    columns: usize,
    /// The keys that are hold-taps on the first layer.
    hold_taps: Vec<Coord>,
    down: BTreeSet<Coord>,
    calls: Vec<Call>,
}

impl<'a> Hand<'a> {
    fn new(random: &'a mut Random, table: &Parts) -> Self {
        let columns = table.columns;
        let keys = 0..table.rows * columns;
        let is_hold_tap = |key: &usize| {
            let record = usize::from(table.cells[*key]);
            table.records[record][0] == HOLD_TAP
        };
        let at = |key: usize| ((key / columns) as u8, (key % columns) as u8);
        Hand {
            random,
            rows: table.rows,
            columns,
            hold_taps: keys.filter(is_hold_tap).map(at).collect(),
            down: BTreeSet::new(),
            calls: Vec::new(),
        }
    }

    fn calls(mut self) -> Vec<Call> {
        for _ in 0..self.random.among(1, 3) {
            match self.random.below(10) {
                0..=2 => self.mixed(),
                3..=5 => self.burst(),
                6 | 7 => self.presses_in_a_row(),
                8 => self.behind_a_wait(),
                _ => self.ticks(20),
            }
        }
        if self.random.below(5) < 2 {
            self.release_all();
        }
        self.calls
    }

    fn press(&mut self, at: Coord) {
        self.down.insert(at);
        self.calls.push(Call::Event(Event::Press(at)));
    }

    fn release(&mut self, at: Coord) {
        self.down.remove(&at);
        self.calls.push(Call::Event(Event::Release(at)));
    }

    fn ticks(&mut self, most: usize) {
        let count = self.random.among(0, most);
        self.calls.extend((0..count).map(|_| Call::Tick));
    }

    /// A key; now and then coordinates that are none.
    fn some_key(&mut self) -> Coord {
        let random = &mut self.random;
        if random.once_in(30) {
            return (random.below(256) as u8, random.below(256) as u8);
        }
        (
            random.below(self.rows) as u8,
            random.below(self.columns) as u8,
        )
    }

    fn hold_tap(&mut self) -> Coord {
        match self.hold_taps.is_empty() {
            true => self.some_key(),
            false => self.random.pick(&self.hold_taps),
        }
    }

    fn press_or_release(&mut self) {
        let down: Vec<Coord> = self.down.iter().copied().collect();
        let at = match down.is_empty() || self.random.once_in(10) {
            true => self.some_key(),
            false => self.random.pick(&down),
        };
        match self.random.below(7) {
            0..=3 => {
                let at = self.some_key();
                self.press(at);
            }
            _ => self.release(at),
        }
    }

    /// Events with ticks between them.
    fn mixed(&mut self) {
        let most = self.random.among(1, 4);
        for _ in 0..self.random.among(1, 15) {
            self.press_or_release();
            self.ticks(most);
        }
    }

    /// More events than the queue has places, with hardly a tick between them.
    fn burst(&mut self) {
        for _ in 0..self.random.among(10, 40) {
            self.press_or_release();
            if self.random.once_in(20) {
                self.calls.push(Call::Tick);
            }
        }
    }

    /// Presses of one hold-tap, or of some, as many as the queue holds or more.
    fn presses_in_a_row(&mut self) {
        let one = self.hold_tap();
        let some = self.random.once_in(3);
        for _ in 0..self.random.among(15, 20) {
            let at = if some { self.hold_tap() } else { one };
            self.press(at);
        }
    }

    /// Presses of hold-taps behind one that waits.
    fn behind_a_wait(&mut self) {
        let at = self.hold_tap();
        self.press(at);
        self.calls.push(Call::Tick);
        for _ in 0..self.random.among(0, 17) {
            let at = self.hold_tap();
            self.press(at);
        }
    }

    fn release_all(&mut self) {
        let mut down: Vec<Coord> = self.down.iter().copied().collect();
        self.random.shuffle(&mut down);
        let most = self.random.pick(&[0, 0, 3]);
        for at in down {
            self.release(at);
            self.ticks(most);
        }
    }
}
