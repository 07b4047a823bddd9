//! The pen's part for scripts over the debouncer: their lines, and the debouncer that takes each step beside them.
//!
//! Assumes: as the pen.

use super::super::pen::{self, Beside};
use super::super::tally::Tally;
use crate::paper::debounce::{Debouncer, BOUNCE, EVENT, PLACES, SCAN};
use crate::paper::{ROOM, STATE};
use crate::words::to_digits;
use std::collections::BTreeSet;

/// The event buffer's length at first.
pub const FULL_SPACE: usize = EVENT * PLACES;

/// What happened so far.
pub struct Counts {
    /// Scans taken, with events or without, of debouncers that were made, and of those that were set.
    pub scans: usize,
    pub set_scans: usize,
    pub changed: usize,
    pub events: usize,
    pub refused: Tally,
    pub set_legal: usize,
    pub set_illegal: usize,
    /// Calls on debouncers that were set, refused ones too.
    pub set_calls: usize,
    /// The shapes of made debouncers that took a scan.
    pub shapes: BTreeSet<(u16, u16)>,
    pub unreadable: usize,
}

impl Default for Counts {
    fn default() -> Self {
        Counts {
            scans: 0,
            set_scans: 0,
            changed: 0,
            events: 0,
            refused: Tally::of_numbers([SCAN, BOUNCE, ROOM, STATE]),
            set_legal: 0,
            set_illegal: 0,
            set_calls: 0,
            shapes: BTreeSet::new(),
            unreadable: 0,
        }
    }
}

/// The debouncer as it stands, whether it was set, and the length of the event buffer.
pub struct OfDebouncer {
    pub debouncer: Debouncer,
    set: bool,
    space: usize,
}

impl Default for OfDebouncer {
    fn default() -> Self {
        OfDebouncer {
            debouncer: Debouncer::default(),
            set: false,
            space: FULL_SPACE,
        }
    }
}

impl Beside for OfDebouncer {
    type Counts = Counts;
}

pub type Pen = pen::Pen<OfDebouncer>;

impl Pen {
    pub fn unreadable(&mut self, line: &str) {
        self.counts.unreadable += 1;
        self.write(line);
    }

    pub fn make(&mut self, shape: (u16, u16), nb_bounce: u16, start: &[u8]) {
        let (rows, columns) = shape;
        let digits = to_digits(start);
        self.write(&format!("debounce {rows} {columns} {nb_bounce} {digits}"));
        let made = Debouncer::make(rows, columns, nb_bounce, start);
        if let Err(number) = made {
            self.counts.refused.add(number);
        }
        (self.beside.debouncer, self.beside.set) = (made.unwrap_or_default(), false);
    }

    /// Sets the debouncer; pictures are written as short as they can be, or whole.
    pub fn set(&mut self, debouncer: Debouncer, whole: bool) {
        let [accepted, candidate] = [&debouncer.accepted, &debouncer.candidate].map(|picture| {
            let last = picture.iter().rposition(|&place| place != 0);
            let length = if whole {
                PLACES
            } else {
                last.map_or(0, |at| at + 1)
            };
            to_digits(&picture[..length])
        });
        let Debouncer {
            rows,
            columns,
            nb_bounce,
            since,
            ..
        } = debouncer;
        self.write(&format!(
            "debouncer {rows} {columns} {nb_bounce} {since} {accepted} {candidate}"
        ));
        match debouncer.is_legal() {
            true => self.counts.set_legal += 1,
            false => self.counts.set_illegal += 1,
        }
        (self.beside.debouncer, self.beside.set) = (debouncer, true);
    }

    pub fn scan(&mut self, picture: &[u8]) {
        self.write(&format!("scan {}", to_digits(picture)));
        let answer = self.beside.debouncer.events(picture, self.beside.space);
        let events = answer.map(|events| events.len() / EVENT);
        self.counts.events += events.unwrap_or(0);
        self.count(events.map(|events| events > 0), true);
    }

    pub fn update(&mut self, picture: &[u8]) {
        self.write(&format!("update {}", to_digits(picture)));
        let answer = self.beside.debouncer.update(picture);
        self.count(answer, true);
    }

    pub fn picture(&mut self) {
        self.write("picture");
        let answer = self.beside.debouncer.picture().map(|_| false);
        self.count(answer, false);
    }

    pub fn space(&mut self, length: usize) {
        self.write(&format!("space {length}"));
        self.beside.space = length;
    }

    /// Counts a call, that took a scan if it was not refused, by whether the picture changed.
    fn count(&mut self, answer: Result<bool, u8>, scan: bool) {
        let counts = &mut self.counts;
        counts.set_calls += usize::from(self.beside.set);
        match answer {
            Err(number) => counts.refused.add(number),
            Ok(_) if !scan => (),
            Ok(changed) => {
                counts.changed += usize::from(changed);
                match self.beside.set {
                    true => counts.set_scans += 1,
                    false => {
                        counts.scans += 1;
                        counts
                            .shapes
                            .insert((self.beside.debouncer.rows, self.beside.debouncer.columns));
                    }
                }
            }
        }
    }
}
