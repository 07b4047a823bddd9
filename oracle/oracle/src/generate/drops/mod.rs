//! Scripts over layouts whose 64 states fill up: cases with their answers, and traces over tables of long and short
//! lists. What a call drops is counted by what it came through, and so is what just had a place.
//!
//! Assumes: the paper's steps are those of both sides, as the pen does.

mod cases;
mod moves;
mod tables;

use super::kind::Kind;
use super::layout::bench::Case;
use super::layout::pen::Pen;
use crate::paper::ROOM;
use crate::script::Script;

/// How many calls a table gets, about.
const CALLS_A_TABLE: usize = 200;

pub struct Drops {
    pen: Pen,
    wanted: usize,
    /// The lines that open, when they are written.
    opening: Option<usize>,
}

impl Drops {
    pub fn new(n: usize, seed: u64) -> Self {
        Drops {
            pen: Pen::new(seed),
            wanted: n,
            opening: None,
        }
    }
}

impl Kind for Drops {
    fn next(&mut self) -> Option<Script> {
        if self.opening.is_none() {
            open(&mut self.pen);
            self.opening = Some(self.pen.lines());
            return Some(self.pen.script());
        }
        while self.pen.counts.calls < self.wanted && !self.pen.is_full() {
            run(&mut self.pen, CALLS_A_TABLE);
        }
        self.pen.script().if_any()
    }

    fn summary(&self, differences: usize) -> String {
        let counts = &self.pen.counts;
        format!(
            "{} calls over {} images, {differences} differences ({}; refused {ROOM}: {}), and {} lines that open",
            counts.calls,
            counts.images,
            counts.dropped,
            counts.refused.of(ROOM),
            self.opening.unwrap_or(0),
        )
    }
}

/// The cases, then short traces.
pub fn sample(count: usize, seed: u64) -> Script {
    let mut pen = Pen::new(seed);
    open(&mut pen);
    while pen.lines() < count {
        run(&mut pen, CALLS_A_TABLE / 4);
    }
    pen.sample(count)
}

fn open(pen: &mut Pen) {
    for Case(lines) in cases::cases() {
        lines.iter().for_each(|(line, _)| pen.write(line));
    }
}

/// A trace over a table of its own.
fn run(pen: &mut Pen, calls: usize) {
    let image = tables::table(&mut pen.random);
    pen.image(&image);
    let calls = pen.random.among(calls / 2, calls * 3 / 2);
    moves::trace(pen, calls);
}

#[cfg(test)]
mod tests {
    use super::*;
    use crate::answers::both::MARK;
    use crate::answers::replay::answers;
    use crate::generate::kind::{all, starting};

    const CALLS: usize = 60_000;

    /// The largest counts that a table can give: a record of weight 64 adds 63 states at the most, and before it an
    /// event may decide a hold of weight 62, since the hold-tap itself and its tap weigh 2.
    const MOST_IN_TICK: usize = 63;
    const MOST_IN_EVENT: usize = 61 + 63;

    #[test]
    fn every_case_occurs() {
        let mut drops = Drops::new(CALLS, 1);
        all(&mut drops);
        let counts = &drops.pen.counts;
        assert!(counts.calls >= CALLS && counts.images > CALLS / 400);
        assert!(counts.dropped.calls > CALLS / 10, "{}", drops.summary(0));
        let rare = counts.dropped.rarer_than(CALLS / 1_000);
        assert!(rare.is_empty(), "{rare:?}: {}", drops.summary(0));
        assert_eq!(counts.dropped.most_in_tick, MOST_IN_TICK);
        assert_eq!(counts.dropped.most_in_event, MOST_IN_EVENT);
        assert!(counts.refused.of(ROOM) > CALLS / 1_000);
    }

    /// The count at the end of an answer; nothing if the call was refused.
    fn count(answer: &str) -> Option<usize> {
        let (_, count) = answer.rsplit_once(" | dropped ")?;
        Some(count.parse().expect("a count"))
    }

    #[test]
    fn rust_and_paper_agree_and_the_counts_are_true() {
        let mut drops = Drops::new(CALLS, 2);
        let scripts = all(&mut drops);
        let (mut calls, mut largest) = (0, [0, 0]);
        for script in &scripts[1..] {
            let answers = answers(script);
            assert_eq!(starting(&answers, MARK) + starting(&answers, "?"), 0);
            for (line, answer) in script.lines.iter().zip(&answers) {
                let dropped = count(answer).unwrap_or(0);
                calls += usize::from(dropped > 0);
                match line.as_slice() {
                    b"t" => largest[0] = dropped.max(largest[0]),
                    [b'p' | b'r', b' ', ..] => largest[1] = dropped.max(largest[1]),
                    _ => assert_eq!(dropped, 0),
                }
            }
        }
        let dropped = &drops.pen.counts.dropped;
        assert_eq!(calls, dropped.calls);
        assert_eq!(largest, [dropped.most_in_tick, dropped.most_in_event]);
    }

    #[test]
    fn a_sample_has_cases_and_traces() {
        let script = sample(300, 1);
        assert_eq!(script.lines.len(), 300);
        assert!(script.lines.iter().all(|line| line.len() < 6_000));
        let answers = answers(&script);
        let dropped = answers.iter().filter(|answer| count(answer) > Some(0));
        assert!(dropped.count() > 30);
    }
}
