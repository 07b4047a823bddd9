//! The pen's part for scripts over the layout: their lines, and the layout on which each call is made beside them.
//!
//! Assumes: as the pen.

use super::super::pen::{self, Beside};
use super::counts::{Counts, Situation};
use crate::paper::calls::{Call, Given};
use crate::paper::image::Parts;
use crate::paper::layout::{Coord, Event, Mark, Queued, State, Waiting, MOST_STATES};
use crate::words::to_hex;
use std::collections::BTreeSet;

/// The fewest ticks that count as a long wait: a timeout of 65,535, less one of delay.
const LONG: usize = 65_534;

/// What calls are given, and the keys.
#[derive(Default)]
pub struct OfLayout {
    given: Given,
    /// The keys that are down on the matrix.
    pub down: BTreeSet<Coord>,
    /// How many ticks the hold-tap that waits has waited.
    waited: usize,
}

impl Beside for OfLayout {
    type Counts = Counts;

    /// Lines are short and answers are kept whole, so a script ends by its lines too.
    const LINES_A_SCRIPT: usize = 400_000;
}

pub type Pen = pen::Pen<OfLayout>;

impl Pen {
    pub fn image(&mut self, bytes: &[u8]) {
        self.write(&format!("image {}", to_hex(bytes)));
        self.counts.images += 1;
        self.beside.given.bring(bytes);
        self.beside.down.clear();
    }

    /// The table, if the image is accepted.
    pub fn table(&self) -> Option<&Parts> {
        self.beside.given.image.as_ref().ok()
    }

    pub fn waiting(&self) -> Option<Waiting> {
        self.beside.given.layout().waiting
    }

    /// The default layer, the number of states and the number of queued events.
    pub fn sizes(&self) -> (u16, usize, usize) {
        let layout = self.beside.given.layout();
        (layout.default, layout.states.len(), layout.queue.len())
    }

    /// How many states a key has.
    pub fn states_at(&self, at: Coord) -> usize {
        let states = self.beside.given.layout().states.iter();
        states.filter(|state| state.at() == at).count()
    }

    pub fn press(&mut self, at: Coord) -> u8 {
        if !self.beside.down.insert(at) {
            self.counts.add(Situation::PressedTwice);
        }
        self.call(Call::Event(Event::Press(at)))
    }

    pub fn release(&mut self, at: Coord) -> u8 {
        if !self.beside.down.remove(&at) {
            self.counts.add(Situation::ReleasedUp);
        }
        self.call(Call::Event(Event::Release(at)))
    }

    pub fn tick(&mut self) -> u8 {
        if self.waiting().is_some() {
            self.beside.waited += 1;
        }
        self.call(Call::Tick)
    }

    pub fn ticks(&mut self, count: usize) {
        for _ in 0..count {
            self.tick();
        }
    }

    pub fn keycodes(&mut self) -> u8 {
        self.call(Call::Keycodes)
    }

    /// 0, or the refusal's number.
    fn call(&mut self, call: Call) -> u8 {
        self.write(&call.to_string());
        let before = self.beside.given.state_count();
        match self.beside.given.call(call) {
            Ok(marks) => {
                self.counts.add_call(&marks);
                self.count_drops(call, before, &marks);
                self.watch_waits(&marks);
                0
            }
            Err(refusal) => {
                self.counts.refused.add(refusal.number);
                refusal.number
            }
        }
    }

    /// Counts what a call dropped that has found so many states.
    fn count_drops(&mut self, call: Call, before: usize, marks: &[Mark]) {
        let given = &self.beside.given;
        if let Ok(table) = &given.image {
            let held = (before, given.layout().states.len());
            self.counts.dropped.add_call(table, call, held, marks);
        }
    }

    fn watch_waits(&mut self, marks: &[Mark]) {
        for mark in marks {
            match mark {
                Mark::Begun { .. } => self.beside.waited = 0,
                Mark::Decided { .. } if self.beside.waited >= LONG => {
                    self.counts.add(Situation::LongWait);
                    self.beside.waited = 0;
                }
                _ => (),
            }
        }
    }

    pub fn room(&mut self, length: usize) {
        self.write(&format!("room {length}"));
        self.beside.given.room = length;
    }

    /// As much room as there is at first.
    pub fn full_room(&mut self) {
        self.room(MOST_STATES);
    }

    pub fn set_default(&mut self, layer: u16) {
        self.write(&format!("default {layer}"));
        self.beside.given.set(|held| held.default = layer);
    }

    pub fn set_counts(&mut self, states: u16, queued: u16) {
        self.write(&format!("counts {states} {queued}"));
        self.beside
            .given
            .set(|held| (held.state_count, held.queue_count) = (states, queued));
    }

    pub fn set_state(&mut self, place: usize, state: State) {
        let (words, (i, j)) = match state {
            State::Key { code, at } => (format!("key {code}"), at),
            State::Layer { number, at } => (format!("layer {number}"), at),
        };
        self.write(&format!("state {place} {words} {i} {j}"));
        self.beside.given.set(|held| held.states[place] = state);
    }

    pub fn set_queued(&mut self, place: usize, queued: Queued) {
        let (way, (i, j)) = match queued.event {
            Event::Press(at) => ("p", at),
            Event::Release(at) => ("r", at),
        };
        self.write(&format!("queue {place} {way} {i} {j} {}", queued.age));
        self.beside.given.set(|held| held.queue[place] = queued);
    }

    pub fn set_waiting(&mut self, waiting: Option<Waiting>) {
        match waiting {
            Some(Waiting { at, left, record }) => {
                self.write(&format!("wait {} {} {left} {record}", at.0, at.1));
            }
            None => self.write("idle"),
        }
        self.beside.given.set(|held| held.waiting = waiting);
    }
}
