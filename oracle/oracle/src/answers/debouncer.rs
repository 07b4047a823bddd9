//! The lines over keyberon's debouncer: `debounce`, `debouncer`, `scan`, `update`, `picture`, `space`.
//!
//! Assumes: what the Rust does not check, sizes, `nb_bounce`, pictures and room, is the paper's to refuse. A
//! debouncer that `debounce` made is the Rust's and the paper's, side by side; one that `debouncer` set is the
//! paper's alone, since the Rust's fields are private.

use super::both::agreed;
use super::Adapter;
use crate::guard::Guarded;
use crate::paper::debounce::{laid, Debouncer as Paper, EVENT, PLACES};
use crate::words;
use keyberon::debounce::Debouncer;
use keyberon::layout::Event;

/// The debouncer in use and the length of the event buffer.
pub struct Bounces {
    paper: Paper,
    rust: Option<Guarded<Box<dyn Engine>>>,
    space: usize,
}

impl Default for Bounces {
    /// Before the first `debounce` what a refused making gives.
    fn default() -> Self {
        let paper = Paper::default();
        Bounces {
            rust: Some(fresh_engine(&paper)),
            paper,
            space: EVENT * PLACES,
        }
    }
}

impl Adapter for Bounces {
    fn answer(&mut self, command: &[u8], rest: &[&[u8]]) -> Option<String> {
        match (command, rest) {
            (b"debounce", [rows, columns, bounces, picture]) => {
                let numbers = [rows, columns, bounces].map(|word| words::number(word));
                let [rows, columns, bounces] = numbers;
                let start = words::picture(picture)?;
                let number = self.make(Paper::make(rows?, columns?, bounces?, &start));
                Some(format!("made {number}"))
            }
            (b"debouncer", [numbers @ .., accepted, candidate]) => {
                self.paper = set(numbers, [accepted, candidate])?;
                self.rust = None;
                Some(words::line(command, rest))
            }
            (b"scan", [picture]) => Some(self.scan(&words::picture(picture)?)),
            (b"update", [picture]) => Some(self.update(&words::picture(picture)?)),
            (b"picture", []) => Some(self.picture()),
            (b"space", [length]) => {
                self.space = words::number(length)?.into();
                Some(words::line(command, rest))
            }
            _ => None,
        }
    }
}

impl Bounces {
    /// Takes over a making; 0 or the refusal's number.
    fn make(&mut self, made: Result<Paper, u8>) -> u8 {
        let number = made.as_ref().err().copied().unwrap_or(0);
        self.paper = made.unwrap_or_default();
        self.rust = Some(fresh_engine(&self.paper));
        number
    }

    fn scan(&mut self, picture: &[u8]) -> String {
        let events = |events: &[u8]| format!("events {}", words::to_hex(events));
        match self.paper.events(picture, self.space) {
            Ok(found) => self.beside(events(&found), |rust| events(&rust.events(picture))),
            Err(number) => refused(number),
        }
    }

    fn update(&mut self, picture: &[u8]) -> String {
        let changed = |changed: bool| format!("changed {}", u8::from(changed));
        match self.paper.update(picture) {
            Ok(found) => self.beside(changed(found), |rust| changed(rust.update(picture))),
            Err(number) => refused(number),
        }
    }

    fn picture(&mut self) -> String {
        let picture = |places: &[u8]| format!("picture {}", words::to_digits(places));
        match self.paper.picture() {
            Ok(found) => {
                let found = picture(found);
                self.beside(found, |rust| picture(&rust.picture()))
            }
            Err(number) => refused(number),
        }
    }

    /// The paper's answer, held to the Rust's where the Rust has this debouncer too.
    fn beside(&mut self, paper: String, rust: impl FnOnce(&mut dyn Engine) -> String) -> String {
        match &mut self.rust {
            Some(engine) => agreed(engine.answer(|engine| rust(engine.as_mut())), paper),
            None => paper,
        }
    }
}

fn refused(number: u8) -> String {
    format!("refused {number}")
}

/// A debouncer as it stands, from its four numbers and two pictures of at most all places.
fn set(numbers: &[&[u8]], pictures: [&[u8]; 2]) -> Option<Paper> {
    let numbers: Option<Vec<u16>> = numbers.iter().map(|word| words::number(word)).collect();
    let [rows, columns, nb_bounce, since] = numbers?.try_into().ok()?;
    let [accepted, candidate] = pictures.map(|word| laid(&words::picture(word)?));
    Some(Paper {
        rows,
        columns,
        nb_bounce,
        since,
        accepted: accepted?,
        candidate: candidate?,
    })
}

/// A debouncer of one size.
trait Engine {
    /// The events of a scan, three bytes each.
    fn events(&mut self, picture: &[u8]) -> Vec<u8>;
    fn update(&mut self, picture: &[u8]) -> bool;
    /// The accepted picture in all its places, the unused ones 0.
    fn picture(&self) -> Vec<u8>;
}

impl<const R: usize, const C: usize> Engine for Debouncer<[[bool; C]; R]> {
    fn events(&mut self, picture: &[u8]) -> Vec<u8> {
        let events = Debouncer::events(self, grid(picture));
        events.flat_map(event_bytes).collect()
    }

    fn update(&mut self, picture: &[u8]) -> bool {
        Debouncer::update(self, grid(picture))
    }

    fn picture(&self) -> Vec<u8> {
        let mut places: Vec<u8> = self.get().iter().flatten().copied().map(u8::from).collect();
        places.resize(PLACES, 0);
        places
    }
}

fn event_bytes(event: Event) -> [u8; EVENT] {
    let (i, j) = event.coord();
    [u8::from(matches!(event, Event::Press(..))), i, j]
}

/// A picture of R times C switches, row by row.
fn grid<const R: usize, const C: usize>(picture: &[u8]) -> [[bool; C]; R] {
    std::array::from_fn(|i| std::array::from_fn(|j| picture[i * C + j] == 1))
}

/// The Rust's debouncer beside a fresh one of the paper's.
fn fresh_engine(paper: &Paper) -> Guarded<Box<dyn Engine>> {
    let sizes = (paper.rows, paper.columns);
    let engine = engine(sizes, paper.nb_bounce, &paper.accepted);
    Guarded::new(engine.expect("what was made has legal sizes"))
}

/// The debouncer of a legal size, or nothing: the Rust takes pictures as arrays of arrays, so there is a type
/// for each size. `new` takes the accepted picture and the candidate, equal at the start.
fn engine((rows, columns): (u16, u16), bounces: u16, picture: &[u8]) -> Option<Box<dyn Engine>> {
    fn make<const R: usize, const C: usize>(bounces: u16, picture: &[u8]) -> Box<dyn Engine> {
        let picture = grid::<R, C>(picture);
        Box::new(Debouncer::new(picture, picture, bounces))
    }
    macro_rules! columns {
        ($row:literal: $($column:literal)*) => {
            match columns {
                $($column => Some(make::<$row, $column>(bounces, picture)),)*
                _ => None,
            }
        };
    }
    macro_rules! rows {
        ($($row:literal)*) => {
            match rows {
                $($row => columns!($row: 1 2 3 4 5 6 7 8 9 10 11 12 13 14 15 16),)*
                _ => None,
            }
        };
    }
    rows!(1 2 3 4 5 6 7 8)
}

#[cfg(test)]
mod tests {
    use super::super::answers;
    use super::*;

    #[test]
    fn the_change_comes_at_scan_nb_bounce_plus_1() {
        let mut bounces = Bounces::default();
        assert_eq!(answers(&mut bounces, &["scan 1"]), ["events 010000"]);
        let got = answers(&mut bounces, &["debounce 1 2 2 00", "scan 01", "scan 01"]);
        assert_eq!(got, ["made 0", "events -", "events -"]);
        let got = answers(&mut bounces, &["scan 01", "scan 01"]);
        assert_eq!(got, ["events 010001", "events -"]);
        let got = answers(&mut bounces, &["update 11", "update 11", "update 11"]);
        assert_eq!(got, ["changed 0", "changed 0", "changed 1"]);
        let picture = format!("picture 11{}", "0".repeat(126));
        assert_eq!(answers(&mut bounces, &["picture"]), [picture]);
    }

    #[test]
    fn refusals_come_in_order() {
        let mut bounces = Bounces::default();
        let makings = [
            "debounce 2 2 65535 -",
            "debounce 9 1 0 -",
            "debounce 1 0 0 -",
            "debounce 2 2 65534 0120",
        ];
        let got = answers(&mut bounces, &makings);
        assert_eq!(got, ["made 11", "made 11", "made 11", "made 10"]);
        let got = answers(&mut bounces, &["scan 00", "scan 2", "update -"]);
        assert_eq!(got, ["refused 10"; 3]);
        let got = answers(&mut bounces, &["space 2", "scan 1", "scan 11"]);
        assert_eq!(got, ["space 2", "refused 12", "refused 10"]);
        let got = answers(&mut bounces, &["update 1", "space 3", "scan 0"]);
        assert_eq!(got, ["changed 1", "space 3", "events 000000"]);
    }

    #[test]
    fn a_debouncer_is_set_as_it_stands() {
        let mut bounces = Bounces::default();
        let got = answers(&mut bounces, &["debouncer 1 2 3 3 - 01", "scan 01"]);
        assert_eq!(got, ["debouncer 1 2 3 3 - 01", "events 010001"]);
        let illegal = "debouncer 1 2 3 4 - 01";
        let got = answers(&mut bounces, &[illegal, "scan 2", "update 01", "picture"]);
        assert_eq!(got[1..], ["refused 13"; 3]);
        // a refused making gives a legal one
        let got = answers(&mut bounces, &["debounce 0 0 0 -", "scan 1"]);
        assert_eq!(got, ["made 11", "events 010000"]);
    }

    #[test]
    fn a_debouncer_has_four_numbers_and_two_pictures_that_fit() {
        let full = "0".repeat(128);
        let longest = format!("debouncer 8 16 65535 65535 {full} {full}");
        let too_long = format!("debouncer 8 16 0 0 {full}0 -");
        let mut bounces = Bounces::default();
        let got = answers(&mut bounces, &[&longest, &too_long, "picture"]);
        assert_eq!(got, [&longest, "?", "refused 13"]);
        for line in [
            "debouncer 1 1 0 - -",
            "debouncer 1 1 0 0 0 - -",
            "space",
            "picture 0",
        ] {
            assert_eq!(answers(&mut bounces, &[line]), ["?"], "{line}");
        }
    }

    #[test]
    fn a_difference_between_rust_and_paper_is_shown() {
        let mut bounces = Bounces::default();
        bounces.paper.nb_bounce = 1;
        let got = answers(&mut bounces, &["scan 1"]);
        assert_eq!(got, ["! rust: events 010000; paper: events -"]);
    }

    #[test]
    fn every_size_gives_events_row_by_row() {
        for (rows, columns) in (1..=8).flat_map(|r| (1..=16).map(move |c| (r, c))) {
            let switches = rows * columns;
            let make = format!("debounce {rows} {columns} 0 {}", "1".repeat(switches));
            let scan = format!("scan {}", "0".repeat(switches));
            let wanted: Vec<u8> = (0..switches)
                .flat_map(|at| [0, (at / columns) as u8, (at % columns) as u8])
                .collect();
            let events = format!("events {}", words::to_hex(&wanted));
            let got = answers(&mut Bounces::default(), &[&make, &scan]);
            assert_eq!(got, ["made 0", &events]);
        }
    }
}
