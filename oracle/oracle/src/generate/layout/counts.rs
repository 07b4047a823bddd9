//! What happened in traces: the situations that they are to come to, each by its name and how often.
//!
//! Assumes: the marks of the paper's steps tell what happened.

use super::super::tally::{Tally, OF_IMAGES};
use super::dropped::Dropped;
use crate::paper::layout::{By, Found, Mark};
use crate::paper::{ROOM, STATE};
use std::fmt;

#[derive(Clone, Copy, PartialEq)]
pub enum Situation {
    Acted,
    PushedOut,
    Dropped,
    NoLayer,
    ThroughHeld,
    ThroughDefault,
    Outside,
    TapByQueue,
    HoldByQueue,
    ByRelease,
    ByTime,
    BySeventeenth,
    TwoDecisions,
    LongWait,
    Stopped,
    PressedTwice,
    ReleasedUp,
}

/// The situations in their order, and how the closing line names them.
const NAMES: [(Situation, &str); 17] = [
    (Situation::Acted, "events acted on"),
    (Situation::PushedOut, "pushed out of a full queue"),
    (Situation::Dropped, "65th states"),
    (Situation::NoLayer, "layer sums past the table"),
    (Situation::ThroughHeld, "Trans under held layers"),
    (Situation::ThroughDefault, "Trans to another default layer"),
    (Situation::Outside, "presses outside the table"),
    (Situation::TapByQueue, "tap by a queued release"),
    (Situation::HoldByQueue, "hold by a queued release"),
    (Situation::ByRelease, "tap by a release"),
    (Situation::ByTime, "hold by time"),
    (Situation::BySeventeenth, "hold by a 17th event"),
    (Situation::TwoDecisions, "calls with two decisions"),
    (Situation::LongWait, "waits of 65,534 ticks or more"),
    (Situation::Stopped, "ages stopped at 65,535"),
    (Situation::PressedTwice, "pressed twice"),
    (Situation::ReleasedUp, "released unpressed"),
];

/// The timeouts that are counted by themselves.
const TIMEOUTS: [u16; 5] = [0, 1, 2, 3, 65_535];

pub struct Counts {
    pub images: usize,
    /// Calls that were not refused.
    pub calls: usize,
    pub refused: Tally,
    pub dropped: Dropped,
    times: [usize; NAMES.len()],
    /// Hold-taps begun, by timeout; the last are those of other timeouts.
    begun: [usize; TIMEOUTS.len() + 1],
}

impl Default for Counts {
    fn default() -> Self {
        Counts {
            images: 0,
            calls: 0,
            refused: Tally::of_numbers(OF_IMAGES.chain([ROOM, STATE])),
            dropped: Dropped::default(),
            times: [0; NAMES.len()],
            begun: [0; TIMEOUTS.len() + 1],
        }
    }
}

impl Counts {
    pub fn add(&mut self, situation: Situation) {
        self.times[situation as usize] += 1;
    }

    /// Counts what happened in a call that was not refused.
    pub fn add_call(&mut self, marks: &[Mark]) {
        self.calls += 1;
        let mut decisions = 0;
        for mark in marks {
            match *mark {
                Mark::Acted(_) => self.add(Situation::Acted),
                Mark::PushedOut => self.add(Situation::PushedOut),
                Mark::Dropped(_) => self.add(Situation::Dropped),
                Mark::Ran(_) => (),
                Mark::Stopped => self.add(Situation::Stopped),
                Mark::Pressed(found) => self.add_found(found),
                Mark::Begun { timeout, .. } => {
                    let place = TIMEOUTS.iter().position(|&counted| counted == timeout);
                    self.begun[place.unwrap_or(TIMEOUTS.len())] += 1;
                }
                Mark::Decided { tap, by, .. } => {
                    decisions += 1;
                    self.add(match (by, tap) {
                        (By::Queue, true) => Situation::TapByQueue,
                        (By::Queue, false) => Situation::HoldByQueue,
                        (By::Release, _) => Situation::ByRelease,
                        (By::Time, _) => Situation::ByTime,
                        (By::Seventeenth, _) => Situation::BySeventeenth,
                    });
                }
            }
        }
        if decisions == 2 {
            self.add(Situation::TwoDecisions);
        }
    }

    fn add_found(&mut self, found: Found) {
        match found {
            Found::Cell => (),
            Found::Outside => self.add(Situation::Outside),
            Found::NoLayer => self.add(Situation::NoLayer),
            Found::Through { held, default } => {
                if held {
                    self.add(Situation::ThroughHeld);
                }
                if default != 0 {
                    self.add(Situation::ThroughDefault);
                }
            }
        }
    }

    /// The situations and timeouts that came up less often than so many times, but the long waits.
    #[cfg(test)]
    pub fn rarer_than(&self, times: usize) -> Vec<String> {
        let long = [Situation::LongWait, Situation::Stopped];
        let named = NAMES.iter().filter(|(situation, _)| {
            self.times[*situation as usize] < times && !long.contains(situation)
        });
        let mut rare: Vec<String> = named.map(|(_, name)| name.to_string()).collect();
        if self.begun.iter().any(|&begun| begun < times) {
            rare.push(format!("begun {:?}", self.begun));
        }
        rare
    }

    #[cfg(test)]
    pub fn of(&self, situation: Situation) -> usize {
        self.times[situation as usize]
    }
}

impl fmt::Display for Counts {
    fn fmt(&self, f: &mut fmt::Formatter) -> fmt::Result {
        for (situation, name) in NAMES {
            write!(f, "{name}: {}, ", self.times[situation as usize])?;
        }
        write!(f, "hold-taps begun with timeout ")?;
        for (timeout, begun) in TIMEOUTS.iter().zip(self.begun) {
            write!(f, "{timeout}: {begun}, ")?;
        }
        write!(
            f,
            "others: {}; {}",
            self.begun[TIMEOUTS.len()],
            self.refused
        )
    }
}

#[cfg(test)]
mod tests {
    use super::*;

    #[test]
    fn names_stand_in_the_order_of_the_situations() {
        for (place, (situation, _)) in NAMES.iter().enumerate() {
            assert_eq!(*situation as usize, place);
        }
    }
}
