//! Scripts of `areas` lines: each pairing of an operator's and a built-in area that is accepted, refused with
//! each number, or empty; as long as their images, longer, or shorter.
//!
//! Assumes: what an area is refused for is the paper's to say, for the closing line as for the answers.

use super::grow::{accepted, Reach};
use super::kind::Kind;
use super::page::fill;
use super::spoil;
use super::tally::{Tally, OF_IMAGES};
use crate::paper::areas::{in_use, InUse};
use crate::random::Random;
use crate::script::Script;
use crate::words::to_hex;

/// A pair is worth some images: this part of a comparison's size are run.
const SHARE: usize = 5;

/// What an area is aimed at.
#[derive(Clone, Copy, Debug, PartialEq)]
enum Sort {
    Accepted,
    Refused(u8),
    Empty,
}

/// Lines that miss the form by little.
const MISWRITTEN: [&str; 12] = [
    "areas",
    "areas ",
    "areas -",
    "areas - ",
    "areas - - -",
    "areas  - -",
    "areas -  -",
    "areas 0100 010",
    "areas 010 0100",
    "areas 0100 0G00",
    "areas 01-",
    "area - -",
];

pub struct Pairs {
    random: Random,
    /// How many pairs are to be run, and how many were made.
    wanted: usize,
    made: usize,
    /// Whether the unreadable lines are still to be run.
    opening: bool,
    operator: usize,
    built_in: usize,
    refused: Tally,
}

impl Pairs {
    pub fn new(n: usize, seed: u64) -> Self {
        Pairs {
            random: Random::new(seed),
            wanted: n / SHARE,
            made: 0,
            opening: true,
            operator: 0,
            built_in: 0,
            refused: Tally::of_images(),
        }
    }

    /// The line of the next pair, which is counted.
    fn line(&mut self) -> Vec<u8> {
        let pair = pair(&mut self.random, self.made, Reach::Any);
        self.made += 1;
        match in_use(&pair[0], &pair[1]) {
            Ok(InUse::Operator(_)) => self.operator += 1,
            Ok(InUse::BuiltIn(_)) => self.built_in += 1,
            Err(refusal) => self.refused.add(refusal.number),
        }
        line(&pair)
    }
}

impl Kind for Pairs {
    fn next(&mut self) -> Option<Script> {
        if std::mem::take(&mut self.opening) {
            let lines = MISWRITTEN.map(|text| text.as_bytes().to_vec());
            return Some(Script::new(lines.into()));
        }
        let mut left = self.wanted - self.made;
        fill(&mut left, || self.line())
    }

    fn summary(&self, differences: usize) -> String {
        format!(
            "{} pairs of areas, {differences} differences (operator {}, built-in {}; {}), and {} lines that \
             cannot be read",
            self.made,
            self.operator,
            self.built_in,
            self.refused,
            MISWRITTEN.len()
        )
    }
}

/// Pairs of each sort, small ones only.
pub fn sample(count: usize, seed: u64) -> Script {
    let mut random = Random::new(seed);
    // 7 and the number of pairings have no common divisor, so a short sample has some of everything too
    let lines = (0..count).map(|at| line(&pair(&mut random, 7 * at, Reach::Small)));
    Script::new(lines.collect())
}

fn line([operator, built_in]: &[Vec<u8>; 2]) -> Vec<u8> {
    format!("areas {} {}", to_hex(operator), to_hex(built_in)).into_bytes()
}

fn sorts() -> Vec<Sort> {
    let refused = OF_IMAGES.map(Sort::Refused);
    [Sort::Accepted, Sort::Empty]
        .into_iter()
        .chain(refused)
        .collect()
}

/// The operator's and the built-in area. All pairings of sorts are gone through in turn.
fn pair(random: &mut Random, at: usize, reach: Reach) -> [Vec<u8>; 2] {
    let sorts = sorts();
    let operator = area(random, sorts[at % sorts.len()], reach);
    let built_in = area(random, sorts[at / sorts.len() % sorts.len()], reach);
    [operator, built_in]
}

fn area(random: &mut Random, sort: Sort, reach: Reach) -> Vec<u8> {
    match sort {
        Sort::Empty => Vec::new(),
        Sort::Accepted => in_flash(accepted(random, reach).bytes(), random),
        // what is put behind would mend these
        Sort::Refused(1) => spoil::refused(random, reach, &[1]),
        Sort::Refused(3) => cut(accepted(random, reach).bytes(), random),
        Sort::Refused(number) => {
            let second = random.among(4, 9) as u8;
            let numbers = match random.once_in(8) {
                true => vec![number, second],
                false => vec![number],
            };
            in_flash(spoil::refused(random, reach, &numbers), random)
        }
    }
}

/// An image in an area of its length, or of some more.
fn in_flash(mut image: Vec<u8>, random: &mut Random) -> Vec<u8> {
    let more = match random.below(4) {
        0 => 0,
        1 => 1,
        2 => 2,
        _ => random.among(1, 200),
    };
    spoil::put_behind(&mut image, random, more);
    image
}

/// An area that ends before its image does, mostly just before.
fn cut(mut image: Vec<u8>, random: &mut Random) -> Vec<u8> {
    let length = image.len();
    image.truncate(match random.below(4) {
        0 | 1 => length - 1,
        2 => length - 2,
        _ => random.among(16, length - 1),
    });
    image
}

#[cfg(test)]
mod tests {
    use super::*;
    use crate::generate::kind::all;
    use crate::paper::areas::stretch;
    use crate::words::LONGEST;
    use std::collections::BTreeSet;

    /// What an area is in truth.
    fn truth(area: &[u8]) -> u8 {
        stretch(area).map_or_else(|refusal| refusal.number, |_| 0)
    }

    #[test]
    fn all_pairings_occur() {
        let mut random = Random::new(1);
        let mut found = BTreeSet::new();
        let (mut longer, mut equal) = (0, 0);
        for at in 0..20 * 121 {
            let [operator, built_in] = pair(&mut random, at, Reach::Any);
            let empty = (operator.is_empty(), built_in.is_empty());
            found.insert((truth(&operator), truth(&built_in), empty));
            if let Ok(length) = stretch(&operator) {
                longer += usize::from(operator.len() > length);
                equal += usize::from(operator.len() == length);
            }
        }
        for operator in 0..10 {
            for built_in in 0..10 {
                let pairing = (operator, built_in, (false, false));
                assert!(found.contains(&pairing), "{pairing:?}");
            }
            assert!(found.contains(&(operator, 1, (false, true))), "{operator}");
            assert!(found.contains(&(1, operator, (true, false))), "{operator}");
        }
        assert!(found.contains(&(1, 1, (true, true))));
        assert!(longer > 100 && equal > 40);
    }

    #[test]
    fn answers_of_each_sort_occur() {
        let mut pairs = Pairs::new(50_000, 3);
        let scripts = all(&mut pairs);
        assert_eq!(pairs.made, 10_000);
        assert!(pairs.operator > 800 && pairs.built_in > 800);
        for number in OF_IMAGES {
            assert!(pairs.refused.of(number) > 500, "{number}");
        }
        let lines: Vec<&Vec<u8>> = scripts.iter().flat_map(|script| &script.lines).collect();
        assert_eq!(lines.len(), 10_000 + MISWRITTEN.len());
        assert!(lines.iter().all(|line| line.len() <= LONGEST));
    }

    #[test]
    fn a_sample_has_some_of_everything() {
        let script = sample(121, 1);
        let mut starts = BTreeSet::new();
        for line in &script.lines {
            let words = crate::words::split(line).expect("a line of words");
            let areas = [words[1], words[2]].map(|word| crate::words::hex(word).expect("hex"));
            starts.insert(areas.map(|area| truth(&area)));
        }
        assert!(starts.len() > 60);
    }
}
