//! What pairs were made for and what they were answered, for the closing line.
//!
//! Assumes: pairs of the sorts that are to be answered with a list have accepted images of equal sizes and room; tests
//! hold the generator to that.

use super::cases::{Sort, SHARES};
use crate::generate::tally::{Tally, OF_IMAGES};
use crate::paper::changes::SHAPE;
use crate::paper::image::Refusal;
use crate::paper::ROOM;

/// The answers to lines that compare.
pub struct Answers {
    /// No cell listed.
    pub none: usize,
    pub one: usize,
    pub several: usize,
    pub refused: Tally,
}

impl Default for Answers {
    fn default() -> Self {
        Answers {
            none: 0,
            one: 0,
            several: 0,
            refused: Tally::of_numbers(OF_IMAGES.chain([ROOM, SHAPE])),
        }
    }
}

impl Answers {
    pub fn add(&mut self, answer: &Result<Vec<u8>, Refusal>) {
        match answer.as_ref().map(Vec::len) {
            Ok(0) => self.none += 1,
            Ok(3) => self.one += 1,
            Ok(_) => self.several += 1,
            Err(refusal) => self.refused.add(refusal.number),
        }
    }

    fn all(&self) -> String {
        format!(
            "no cell {}, one {}, several {}, {}",
            self.none, self.one, self.several, self.refused
        )
    }
}

#[derive(Default)]
pub struct Counts {
    /// By sort, in the order of the shares.
    made: [Answers; SHARES.len()],
    /// All of them, with those that open.
    pub answers: Answers,
    pub opening: usize,
    /// Lists that are as the generator's own trees tell.
    pub foretold: usize,
    /// Calls over the first table of a pair; the second has as many.
    pub calls: usize,
    pub others: usize,
}

impl Counts {
    pub fn add(&mut self, sort: Sort, answer: &Result<Vec<u8>, Refusal>) {
        self.made[place(sort)].add(answer);
        self.answers.add(answer);
    }

    pub fn answers_of(&self, sort: Sort) -> &Answers {
        &self.made[place(sort)]
    }

    /// How many random pairs of a sort were made.
    pub fn of(&self, sort: Sort) -> usize {
        let answers = self.answers_of(sort);
        let refused = OF_IMAGES.chain([ROOM, SHAPE]);
        let refused: usize = refused.map(|number| answers.refused.of(number)).sum();
        answers.none + answers.one + answers.several + refused
    }

    /// How many random pairs were made.
    pub fn pairs(&self) -> usize {
        SHARES.iter().map(|(sort, _)| self.of(*sort)).sum()
    }

    pub fn summary(&self, differences: usize) -> String {
        let same = [Sort::Renumbered, Sort::Nudged, Sort::Traced];
        let count = |of: &dyn Fn(Sort) -> usize| same.map(of).iter().sum::<usize>();
        let changed = self.answers_of(Sort::Changed);
        format!(
            "{} pairs, {differences} differences (the same trees {}, of which {} gave no cell; one change {}, of \
             which {} gave one cell and {} several; unrelated {}; unequal sizes {}; refused {}; short of room {}; \
             any {}; answers: {}; as the generator's trees foretold: {} lists), {} calls over both of {} pairs, and \
             {} further lines, most of them unreadable",
            self.pairs() + self.opening,
            count(&|sort| self.of(sort)),
            count(&|sort| self.answers_of(sort).none),
            self.of(Sort::Changed),
            changed.one,
            changed.several,
            self.of(Sort::Unrelated),
            self.of(Sort::Unequal),
            self.of(Sort::Refused),
            self.of(Sort::Short),
            self.of(Sort::Any),
            self.answers.all(),
            self.foretold,
            self.calls,
            self.of(Sort::Traced),
            self.others,
        )
    }
}

/// Where a sort stands in the order of the shares.
fn place(sort: Sort) -> usize {
    let place = SHARES.iter().position(|(named, _)| *named == sort);
    place.expect("every sort has a share")
}
