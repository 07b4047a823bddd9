//! Scripts of `compare` lines: pairs of tables with the same trees under other record numbers, with one change deep in
//! a tree, of unequal sizes, refused, and short of room; and over tables of the same trees the same calls.
//!
//! Assumes: what a pair is answered is the paper's to say, for the closing line as for the answers. Where a line
//! compares two tables, the next brings the first, calls follow, and then the second and the same calls, the
//! comparison holds the answers to the calls together (`compare/promise.rs`).

mod cases;
mod counts;
mod deep;
mod lay;
mod nudge;
mod opening;
#[cfg(test)]
mod situations;
mod sizes;
mod trees;

use super::grow::Reach;
use super::kind::Kind;
use super::layout::pen::Pen;
use super::layout::trace;
use super::page::Page;
use crate::paper::changes::differing;
use crate::random::Random;
use crate::script::Script;
use crate::words::to_hex;
use cases::{pair, Sort, SHARES};
use counts::Counts;

/// How many pairs a script has at the most: a difference in an early one is told soon.
const PAIRS_A_SCRIPT: usize = 3_000;

/// The fewest and the most calls over a table, about: each pair has them twice.
const CALLS: (usize, usize) = (6, 24);

/// The most calls over a table in scripts that are kept.
const CALLS_KEPT: usize = 10;

pub struct Changes {
    random: Random,
    /// Makes the calls that are to come over both tables of a pair.
    pen: Pen,
    /// How many random pairs are still to be run.
    left: usize,
    /// Whether the fixed pairs and the unreadable lines are still to be run.
    opening: bool,
    reach: Reach,
    page: Page,
    counts: Counts,
}

impl Changes {
    pub fn new(n: usize, seed: u64) -> Self {
        Changes {
            random: Random::new(seed),
            pen: Pen::new(!seed),
            left: n,
            opening: true,
            reach: Reach::Any,
            page: Page::default(),
            counts: Counts::default(),
        }
    }

    /// The line of a pair that opens, which is counted.
    fn compare(&mut self, one: &[u8], other: &[u8], room: usize) {
        self.counts.opening += 1;
        self.counts.answers.add(&differing(one, other, room));
        self.page.write(line(one, other, room));
    }

    /// A line that is not counted as a pair.
    fn other(&mut self, line: impl Into<Vec<u8>>) {
        self.counts.others += 1;
        self.page.write(line);
    }

    /// A random pair.
    fn case(&mut self) {
        let sort = self.random.by_share(&SHARES);
        let made = self.counts.pairs();
        let pair = pair(&mut self.random, self.reach, sort, made);
        let [one, other] = &pair.images;
        let answer = differing(one, other, pair.room);
        self.page.write(line(one, other, pair.room));
        self.counts.add(sort, &answer);
        if let Some(foretold) = pair.foretold {
            self.counts.foretold += usize::from(answer == Ok(foretold));
        }
        if sort == Sort::Traced {
            self.trace(&pair.images);
        }
    }

    /// The same calls over both images of a pair. None of them is refused.
    fn trace(&mut self, images: &[Vec<u8>; 2]) {
        self.pen.image(&images[0]);
        let calls = self.pen.random.among(CALLS.0, CALLS.1);
        trace(&mut self.pen, calls);
        let is_call = |line: &Vec<u8>| matches!(line[..], [b'p' | b'r', b' ', ..] | [b't' | b'k']);
        let mut calls = self.pen.script().lines;
        calls.retain(is_call);
        if self.reach == Reach::Small {
            calls.truncate(CALLS_KEPT);
        }
        for image in images {
            self.page.write(format!("image {}", to_hex(image)));
            calls.iter().for_each(|call| self.page.write(&call[..]));
        }
        self.counts.calls += calls.len();
    }
}

impl Kind for Changes {
    fn next(&mut self) -> Option<Script> {
        if std::mem::take(&mut self.opening) {
            opening::write(self);
            return Some(Script {
                closed: false,
                ..self.page.script()
            });
        }
        for _ in 0..PAIRS_A_SCRIPT {
            if self.left > 0 && !self.page.is_full() {
                self.case();
                self.left -= 1;
            }
        }
        self.page.script().if_any()
    }

    fn summary(&self, differences: usize) -> String {
        self.counts.summary(differences)
    }

    fn equal_calls(&self) -> usize {
        self.counts.of(Sort::Traced)
    }
}

/// Short pairs that a comparison opens with, then random ones, small ones only.
pub fn sample(count: usize, seed: u64) -> Script {
    let mut changes = Changes::new(0, seed);
    changes.reach = Reach::Small;
    opening::write_short(&mut changes);
    while changes.page.lines() < count {
        changes.case();
    }
    let mut script = changes.page.script();
    script.lines.truncate(count);
    script
}

fn line(one: &[u8], other: &[u8], room: usize) -> Vec<u8> {
    format!("compare {} {} {room}", to_hex(one), to_hex(other)).into_bytes()
}

#[cfg(test)]
mod tests {
    use super::*;
    use crate::answers::both::MARK;
    use crate::answers::replay::answers;
    use crate::generate::kind::{all, starting};
    use crate::generate::tally::OF_IMAGES;
    use crate::paper::changes::SHAPE;
    use crate::paper::ROOM;
    use crate::words::LONGEST;

    const PAIRS: usize = 20_000;

    #[test]
    fn pairs_are_answered_as_they_were_made_for() {
        let mut changes = Changes::new(PAIRS, 1);
        all(&mut changes);
        let counts = &changes.counts;
        assert_eq!(counts.pairs(), PAIRS);
        let mut same = 0;
        for sort in [Sort::Renumbered, Sort::Nudged, Sort::Traced] {
            assert_eq!(counts.answers_of(sort).none, counts.of(sort), "{sort:?}");
            same += counts.of(sort);
        }
        let changed = counts.answers_of(Sort::Changed);
        assert_eq!(changed.one + changed.several, counts.of(Sort::Changed));
        let unrelated = counts.of(Sort::Unrelated);
        let lists = same + counts.of(Sort::Changed) + unrelated;
        assert_eq!(counts.foretold, lists);
        // a fifth of all each, and a tenth with calls
        assert!(same > PAIRS / 5 && counts.of(Sort::Changed) > PAIRS / 5);
        assert!(counts.of(Sort::Traced) > PAIRS / 10);
        assert!(changed.one > PAIRS / 20 && changed.several > PAIRS / 20);
        let unequal = counts.answers_of(Sort::Unequal);
        assert_eq!(unequal.refused.of(SHAPE), counts.of(Sort::Unequal));
        let short = counts.answers_of(Sort::Short);
        assert_eq!(short.refused.of(ROOM), counts.of(Sort::Short));
        assert!(counts.answers_of(Sort::Unrelated).several > PAIRS / 40);
        for number in OF_IMAGES {
            let often = counts.answers.refused.of(number);
            assert!(often > PAIRS / 200, "{number}: {often}");
        }
    }

    #[test]
    fn lines_can_be_read_but_those_that_cannot() {
        let mut changes = Changes::new(3_000, 2);
        let scripts = all(&mut changes);
        let opening = answers(&scripts[0]);
        let unreadable = starting(&opening, "?");
        assert!(unreadable > 200 && unreadable < changes.counts.others);
        for script in &scripts[1..] {
            let answers = answers(script);
            assert_eq!(starting(&answers, "?") + starting(&answers, MARK), 0);
        }
        let long = |length: usize| {
            let lines = scripts[0].lines.iter();
            lines.filter(|line| line.len() == length).count()
        };
        assert_eq!([LONGEST, LONGEST + 1].map(long), [2, 2]);
    }

    #[test]
    fn calls_over_tables_that_are_the_same_are_answered_the_same() {
        let mut changes = Changes::new(PAIRS / 4, 3);
        let mut pairs = 0;
        while let Some(script) = changes.next() {
            let answers = answers(&script);
            for at in 0..script.lines.len() {
                if !script.lines[at].starts_with(b"compare") || answers[at] != "cells -" {
                    continue;
                }
                let called = |answer: &&String| answer.starts_with("codes");
                let calls = answers.iter().skip(at + 2).take_while(called).count();
                if answers.get(at + 1).is_some_and(|text| text == "accepted") {
                    let again = at + 2 + calls;
                    assert_eq!(answers[at + 1..again], answers[again..again + calls + 1]);
                    pairs += 1;
                }
            }
        }
        assert_eq!(pairs, changes.equal_calls());
        assert!(pairs > PAIRS / 40 && changes.counts.calls > 8 * pairs);
    }

    #[test]
    fn a_sample_has_no_long_lines() {
        let script = sample(300, 1);
        assert_eq!(script.lines.len(), 300);
        assert!(script.lines.iter().all(|line| line.len() < 8_000));
        let answers = answers(&script);
        assert!(starting(&answers, "cells -") > 20 && starting(&answers, "cells 0") > 20);
        assert!(starting(&answers, "refused") > 20 && starting(&answers, "codes") > 50);
        assert_eq!(sample(20, 1).lines.len(), 20);
    }
}
