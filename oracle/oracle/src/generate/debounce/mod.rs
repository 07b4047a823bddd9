//! Scripts over the debouncer: runs of scans on all 128 shapes, refused calls between them, and debouncers
//! that are set as they stand, legal or not.
//!
//! Assumes: `nb_bounce` 65,534 is reached by two long runs alone, which are in comparisons of some size only.

mod made_up;
mod pen;
mod pictures;
mod refusals;
mod steps;

use super::kind::Kind;
use crate::random::Random;
use crate::script::Script;
use crate::words::LONGEST;
use pen::Pen;
use std::collections::VecDeque;

/// From this many scans on the long runs are part of a comparison.
const ENOUGH_FOR_LONG_RUNS: usize = 100_000;

/// Of this many scans there is at least one call on a debouncer that was set.
const SET_SHARE: usize = 8;

/// Lines that miss the form by little.
const MISWRITTEN: [&str; 26] = [
    "scan",
    "scan ",
    "scan  1",
    "scan 1 0",
    "scan 1a",
    "scan --",
    "scan -1",
    "update",
    "update 1 ",
    "update 1x",
    "picture 1",
    "picture ",
    "Picture",
    "space",
    "space 65536",
    "space 000384",
    "space -1",
    "space 1 1",
    "debounce 1 1 0",
    "debounce 1 1 0 0 0",
    "debounce 65536 1 0 0",
    "debounce 1 1 -1 0",
    "debouncer 1 1 0 0 0",
    "debouncer 1 1 0 0 0 0 0",
    "debouncer 1 1 0 65536 0 0",
    "debouncer 1 1 0 0 0 0b",
];

/// The bench cases of document 01, what refusals leave as it was, and a space that outlasts a making.
const BENCH: [&str; 20] = [
    "scan 1",
    "picture",
    "debounce 1 2 2 00",
    "scan 01",
    "scan 01",
    "scan 01",
    "scan 01",
    "debounce 1 1 0 0",
    "scan 1",
    "scan 2",
    "update -",
    "update 0",
    "debounce 9 1 0 0",
    "scan 1",
    "space 2",
    "debounce 1 1 0 0",
    "scan 1",
    "update 1",
    "space 3",
    "scan 0",
];

/// A script of a comparison.
enum Part {
    Opening,
    /// A run that reaches `nb_bounce` 65,534, on this shape.
    Long((u16, u16)),
    Random,
}

pub struct Scans {
    pen: Pen,
    /// What is still to be run.
    parts: VecDeque<Part>,
    wanted: usize,
    runs: usize,
    opening: usize,
}

impl Scans {
    pub fn new(n: usize, seed: u64) -> Self {
        let mut parts = VecDeque::from([Part::Opening]);
        if n >= ENOUGH_FOR_LONG_RUNS {
            parts.extend([Part::Long((1, 1)), Part::Long((8, 16))]);
        }
        parts.push_back(Part::Random);
        Scans {
            pen: Pen::new(seed),
            parts,
            wanted: n,
            runs: 0,
            opening: 0,
        }
    }

    /// A script of runs, as long as a script is to be or until all are done; nothing if they are.
    fn random(&mut self) -> Option<Script> {
        while self.pen.counts.scans < self.wanted && !self.pen.is_full() {
            run(&mut self.pen, self.runs, 40);
            self.runs += 1;
        }
        self.pen.script().if_any()
    }
}

impl Kind for Scans {
    fn next(&mut self) -> Option<Script> {
        match self.parts.pop_front()? {
            Part::Opening => {
                let script = opening(&mut self.pen);
                self.opening = script.lines.len();
                Some(script)
            }
            Part::Long(shape) => {
                let before = self.pen.counts.scans;
                let script = long_run(&mut self.pen, shape);
                // these come on top
                self.wanted += self.pen.counts.scans - before;
                Some(script)
            }
            Part::Random => {
                let script = self.random()?;
                self.parts.push_back(Part::Random);
                Some(script)
            }
        }
    }

    fn summary(&self, differences: usize) -> String {
        let counts = &self.pen.counts;
        format!(
            "{} scans on {} shapes, {differences} differences ({} changed the picture, {} events; {}), \
             {} legal and {} illegal states set with {} calls and {} scans on them, and {} lines that \
             open, of which {} cannot be read",
            counts.scans,
            counts.shapes.len(),
            counts.changed,
            counts.events,
            counts.refused,
            counts.set_legal,
            counts.set_illegal,
            counts.set_calls,
            counts.set_scans,
            self.opening,
            counts.unreadable,
        )
    }
}

/// Runs of few scans each, on small shapes mostly.
pub fn sample(count: usize, seed: u64) -> Script {
    let mut pen = Pen::new(seed);
    let mut runs = 0;
    while pen.lines() < count {
        // 7 and the number of shapes have no common divisor, so a short sample goes to and fro among them
        run(&mut pen, 7 * runs, 6);
        runs += 1;
    }
    pen.sample(count)
}

/// The shape of a run: of two runs one goes through all shapes in turn, the other is on a small one.
fn shape(random: &mut Random, run: usize) -> (u16, u16) {
    if run % 2 == 0 {
        return (random.among(1, 3) as u16, random.among(1, 4) as u16);
    }
    let at = (run / 2 % 128) as u16;
    (at / 16 + 1, at % 16 + 1)
}

fn nb_bounce(random: &mut Random) -> u16 {
    random.pick(&[0, 0, 0, 1, 1, 2, 2, 3, 3, 5, 5, 20, 65_534])
}

/// A debouncer with some scans, and the calls on set ones that are owed by then.
fn run(pen: &mut Pen, at: usize, scans: usize) {
    let shape = shape(&mut pen.random, at);
    if pen.random.once_in(4) {
        refusals::making(pen, shape);
    }
    let nb_bounce = nb_bounce(&mut pen.random);
    let start = pictures::any(&mut pen.random, usize::from(shape.0 * shape.1));
    pen.make(shape, nb_bounce, &start);
    let scans = pen.random.among(scans / 2, scans + scans / 2);
    steps::run(pen, scans);
    while pen.counts.set_calls * SET_SHARE < pen.counts.scans {
        made_up::run(pen, shape);
    }
}

/// Scans up to the last one that does not count, one that returns, and then as many as it takes.
fn long_run(pen: &mut Pen, shape: (u16, u16)) -> Script {
    let up = vec![0; usize::from(shape.0 * shape.1)];
    let mut down = up.clone();
    down[up.len() - 1] = 1;
    pen.make(shape, 65_534, &up);
    if shape == (1, 1) {
        (0..65_534).for_each(|_| pen.scan(&down));
        pen.picture();
        pen.scan(&up);
    }
    (0..65_534).for_each(|_| pen.scan(&down));
    pen.picture();
    pen.scan(&down);
    pen.picture();
    pen.script()
}

/// The bench cases, lines that cannot be read between ones that can, and the longest ones; the last line is
/// not closed.
fn opening(pen: &mut Pen) -> Script {
    for text in BENCH {
        pen.write(text);
    }
    for text in MISWRITTEN {
        pen.unreadable(text);
        pen.write("scan 1");
        pen.write("scan 0");
    }
    let full = "1".repeat(128);
    pen.write(&format!("debouncer 8 16 5 5 {full} {full}"));
    pen.unreadable(&format!("debouncer 8 16 5 5 {full}0 {full}"));
    pen.unreadable(&format!("debouncer 8 16 5 5 {full} {full}1"));
    pen.write("picture");
    pen.write(&format!("scan {}", "0".repeat(LONGEST - "scan ".len())));
    pen.unreadable(&format!("scan {}", "0".repeat(LONGEST - "scan ".len() + 1)));
    pen.write("picture");
    let mut script = pen.script();
    script.closed = false;
    script
}

#[cfg(test)]
mod tests {
    use super::*;
    use crate::answers::both::MARK;
    use crate::answers::replay::answers;
    use crate::generate::kind::{all, starting};
    use crate::paper::debounce::{BOUNCE, SCAN};
    use crate::paper::{ROOM, STATE};

    const SCANS: usize = 60_000;

    #[test]
    fn all_shapes_and_refusals_occur() {
        let mut scans = Scans::new(SCANS, 1);
        all(&mut scans);
        let counts = &scans.pen.counts;
        assert!(counts.scans >= SCANS && counts.shapes.len() == 128);
        assert!(counts.changed > SCANS / 20 && counts.events > SCANS / 10);
        for number in [SCAN, BOUNCE, ROOM, STATE] {
            let often = counts.refused.of(number);
            assert!(often > SCANS / 500, "{number}: {often}");
        }
        assert!(counts.set_calls > SCANS / 10);
        assert!(counts.set_legal > SCANS / 200 && counts.set_illegal > SCANS / 100);
    }

    #[test]
    fn rust_and_paper_agree_and_the_counts_are_true() {
        let mut scans = Scans::new(SCANS, 2);
        let scripts = all(&mut scans);
        let counts = &scans.pen.counts;
        let opening = answers(&scripts[0]);
        assert_eq!(starting(&opening, MARK), 0);
        assert_eq!(starting(&opening, "?"), counts.unreadable);
        let others: Vec<String> = scripts[1..].iter().flat_map(answers).collect();
        assert_eq!(starting(&others, MARK), 0);
        for number in [SCAN, BOUNCE, ROOM, STATE] {
            let calls = starting(&others, &format!("refused {number}"));
            let makings = starting(&others, &format!("made {number}"));
            assert_eq!(calls + makings, counts.refused.of(number), "{number}");
        }
        let scanned = starting(&others, "events") + starting(&others, "changed");
        assert_eq!(scanned, counts.scans + counts.set_scans);
    }

    #[test]
    fn long_runs_change_at_their_last_scan() {
        let mut pen = Pen::new(1);
        let script = long_run(&mut pen, (1, 1));
        let answers = answers(&script);
        let changes = (0..answers.len()).filter(|&at| answers[at] == "events 010000");
        assert_eq!(changes.collect::<Vec<_>>(), [answers.len() - 2]);
        assert_eq!(pen.counts.scans, 2 * 65_534 + 2);
    }

    #[test]
    fn a_sample_has_some_of_everything() {
        let script = sample(600, 1);
        assert_eq!(script.lines.len(), 600);
        let text = String::from_utf8(script.bytes()).expect("plain text");
        for command in [
            "debounce",
            "debouncer",
            "scan",
            "update",
            "picture",
            "space",
        ] {
            let lines = text
                .lines()
                .filter(|line| line.split(' ').next() == Some(command));
            assert!(lines.count() > 3, "{command}");
        }
    }
}
