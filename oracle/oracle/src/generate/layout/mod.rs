//! Scripts over the layout: the bench cases, lines that cannot be read, traces over accepted tables, and waits
//! as long as they can be.
//!
//! Assumes: the longest waits take some 65,000 ticks each, so they are in comparisons of some size only.

pub mod bench;
mod counts;
pub mod dropped;
mod moves;
pub mod pen;
pub mod tables;

use super::draft::Draft;
use super::grow::Reach;
use super::kind::Kind;
use super::spoil;
use crate::paper::image::Z;
use crate::script::Script;
use pen::Pen;
use std::collections::VecDeque;

pub use moves::trace;

/// From this many calls on the longest waits are part of a comparison.
const ENOUGH_FOR_LONG_WAITS: usize = 100_000;
const LONG_WAITS: usize = 3;

/// Lines that miss the form by little. An image that cannot be read to its end leaves the one that stands.
pub const MISWRITTEN: [&str; 37] = [
    "image",
    "image 000",
    "image 0000000000000000zz",
    "p",
    "p 0",
    "p 0 0 0",
    "p 0  0",
    "p 256 0",
    "p 0 256",
    "p 0000 0",
    "p -1 0",
    "P 0 0",
    "r 0",
    "r 0 x",
    "t ",
    "t 1",
    "tt",
    "k 0",
    "room",
    "room 65536",
    "room 64 64",
    "default",
    "default 65536",
    "counts 1",
    "counts 1 65536",
    "state 64 key 4 0 0",
    "state 0 key 256 0 0",
    "state 0 layer 65536 0 0",
    "state 0 key 4 0",
    "state 0 code 4 0 0",
    "queue 16 p 0 0 0",
    "queue 0 t 0 0 0",
    "queue 0 p 0 0 65536",
    "wait 0 0 0",
    "wait 0 0 65536 0",
    "idle 0",
    "wait - - - -",
];

/// A script of a comparison.
enum Part {
    Opening,
    LongWaits,
    Random,
}

pub struct Traces {
    pen: Pen,
    /// What is still to be run.
    parts: VecDeque<Part>,
    wanted: usize,
    opening: usize,
}

impl Traces {
    pub fn new(n: usize, seed: u64) -> Self {
        let mut parts = VecDeque::from([Part::Opening]);
        if n >= ENOUGH_FOR_LONG_WAITS {
            parts.push_back(Part::LongWaits);
        }
        parts.push_back(Part::Random);
        Traces {
            pen: Pen::new(seed),
            parts,
            wanted: n,
            opening: 0,
        }
    }

    /// A script of traces, as long as a script is to be or until all are done; nothing if they are.
    fn random(&mut self) -> Option<Script> {
        while self.pen.counts.calls < self.wanted && !self.pen.is_full() {
            run(&mut self.pen, 200);
        }
        self.pen.script().if_any()
    }
}

impl Kind for Traces {
    fn next(&mut self) -> Option<Script> {
        match self.parts.pop_front()? {
            Part::Opening => {
                let script = opening(&mut self.pen);
                self.opening = script.lines.len();
                Some(script)
            }
            Part::LongWaits => {
                let before = self.pen.counts.calls;
                (0..LONG_WAITS).for_each(|_| long_wait(&mut self.pen));
                // these come on top
                self.wanted += self.pen.counts.calls - before;
                Some(self.pen.script())
            }
            Part::Random => {
                let script = self.random()?;
                self.parts.push_back(Part::Random);
                Some(script)
            }
        }
    }

    fn summary(&self, differences: usize) -> String {
        let counts = &self.pen.counts;
        format!(
            "{} calls over {} images, {differences} differences ({counts}), and {} lines that open, of which \
             {} cannot be read",
            counts.calls,
            counts.images,
            self.opening,
            MISWRITTEN.len(),
        )
    }
}

/// Short traces over small tables.
pub fn sample(count: usize, seed: u64) -> Script {
    let mut pen = Pen::new(seed);
    while pen.lines() < count {
        let image = tables::lively(&mut pen.random).bytes();
        pen.image(&image);
        trace(&mut pen, 40);
    }
    pen.sample(count)
}

/// A trace over a table; now and then some calls over an image that is refused.
fn run(pen: &mut Pen, calls: usize) {
    if pen.random.once_in(5) {
        let number = (pen.counts.images % 9 + 1) as u8;
        let image = spoil::refused(&mut pen.random, Reach::Small, &[number]);
        pen.image(&image);
        pen.tick();
        pen.press((0, 0));
        pen.keycodes();
    }
    let image = tables::table(&mut pen.random);
    pen.image(&image);
    let calls = pen.random.among(calls / 4, calls * 2);
    trace(pen, calls);
}

/// Hold-taps of the longest timeout and of a short one, and a plain key.
fn slow_table(short: usize) -> Vec<u8> {
    let mut draft = Draft::new(1, 1, 4);
    let keys = [4, 5, 6].map(|code| draft.push_plain([2, code, 0, 0]));
    let [hold, tap, plain] = keys;
    let slow = draft.push_hold_tap(65_535, hold, tap);
    let quick = draft.push_hold_tap(short as u16, hold, tap);
    draft.cells = vec![slow, slow, quick, plain];
    draft.bytes()
}

/// A wait of the longest timeout. Behind it presses of another slow key, each of which takes two ticks more than
/// its age can tell, and a quick one's press and release: they are further apart than its timeout, and seem to be
/// within it when the press's age has stopped.
fn long_wait(pen: &mut Pen) {
    let short = pen.random.among(0, 5);
    pen.image(&slow_table(short));
    pen.press((0, 0));
    pen.tick();
    let stalls = pen.random.among(1, 4);
    for _ in 0..stalls {
        pen.press((0, 1));
    }
    pen.press((0, 2));
    let more = pen.random.among(1, 2 * stalls);
    pen.ticks(short + more);
    pen.release((0, 2));
    for _ in 0..pen.random.among(0, 6) {
        let at = (0, pen.random.among(2, 3) as u8);
        match pen.random.once_in(2) {
            true => pen.press(at),
            false => pen.release(at),
        };
        let ticks = pen.random.below(3);
        pen.ticks(ticks);
    }
    pen.ticks(65_540);
    let more = pen.random.among(20, 60);
    trace(pen, more);
}

/// The bench cases, and lines that cannot be read between ones that can; the last line is not closed.
fn opening(pen: &mut Pen) -> Script {
    for bench::Case(lines) in bench::cases() {
        lines.iter().for_each(|(line, _)| pen.write(line));
    }
    pen.image(&Z);
    for text in MISWRITTEN {
        for line in [text, "p 0 1", "t", "r 0 1", "t"] {
            pen.write(line);
        }
    }
    // a room outlasts an image
    pen.write("room 63");
    pen.image(&Z);
    for line in ["k", "p 0 0", "room 64", "k"] {
        pen.write(line);
    }
    let mut script = pen.script();
    script.closed = false;
    script
}

#[cfg(test)]
mod tests {
    use super::counts::Situation;
    use super::*;
    use crate::answers::both::MARK;
    use crate::answers::replay::answers;
    use crate::generate::kind::{all, starting};

    const CALLS: usize = 60_000;

    #[test]
    fn every_situation_occurs() {
        let mut traces = Traces::new(CALLS, 1);
        all(&mut traces);
        let counts = &traces.pen.counts;
        assert!(counts.calls >= CALLS);
        let rare = counts.rarer_than(CALLS / 2_000);
        assert!(rare.is_empty(), "{rare:?}: {}", traces.summary(0));
        for number in 1..=9 {
            assert!(counts.refused.of(number) > 0, "{number}");
        }
        assert!(counts.refused.of(crate::paper::ROOM) > CALLS / 1_000);
    }

    #[test]
    fn rust_and_paper_agree_and_the_counts_are_true() {
        let mut traces = Traces::new(CALLS, 2);
        let scripts = all(&mut traces);
        let opening = answers(&scripts[0]);
        assert_eq!(starting(&opening, MARK), 0);
        assert_eq!(starting(&opening, "?"), MISWRITTEN.len());
        let others: Vec<String> = scripts[1..].iter().flat_map(answers).collect();
        let counts = &traces.pen.counts;
        assert_eq!(starting(&others, MARK), 0);
        assert_eq!(starting(&others, "codes "), counts.calls);
        let acted = |answer: &&String| answer.contains("| acted p") || answer.contains("| acted r");
        let acted = others.iter().filter(acted).count();
        assert_eq!(acted, counts.of(Situation::Acted));
        let twice = others.iter().filter(|answer| answer.contains(", "));
        assert_eq!(twice.count(), counts.of(Situation::TwoDecisions));
    }

    #[test]
    fn long_waits_are_waited() {
        let mut pen = Pen::new(1);
        (0..LONG_WAITS).for_each(|_| long_wait(&mut pen));
        assert!(pen.counts.of(Situation::LongWait) >= LONG_WAITS);
        assert!(pen.counts.of(Situation::Stopped) > 0);
        let script = pen.script();
        let marked = |answer: &String| answer.starts_with(MARK);
        assert!(!answers(&script).iter().any(marked));
    }

    #[test]
    fn a_sample_has_short_lines() {
        let script = sample(500, 1);
        assert_eq!(script.lines.len(), 500);
        assert!(script.lines.iter().all(|line| line.len() < 4_000));
    }
}
