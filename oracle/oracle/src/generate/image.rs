//! Scripts of `image` lines: accepted images, images with each fault, with two faults, changed, cut and made
//! of nothing; image Z and all its beginnings; and lines that cannot be read.
//!
//! Assumes: what an image is refused for is the paper's to say, for the closing line as for the answers.

use super::grow::{accepted, Reach};
use super::kind::Kind;
use super::page::fill;
use super::spoil;
use super::tally::Tally;
use crate::paper::image::{check, Z};
use crate::random::Random;
use crate::script::Script;
use crate::words::{to_hex, LONGEST};

/// A sort of image.
#[derive(Clone, Copy)]
enum Sort {
    Accepted,
    /// Aimed at this refusal.
    Refused(u8),
    /// Aimed at any two refusals.
    Pair,
    /// Aimed at two refusals in one record.
    TwiceInOne,
    Changed,
    CutOrContinued,
    Wild,
}

/// How many of a thousand images are of each sort. Each refusal has more than the 20 that it is to have at
/// least; what other sorts are refused for comes on top.
const SHARES: [(Sort, usize); 15] = [
    (Sort::Accepted, 300),
    (Sort::Refused(1), 40),
    (Sort::Refused(2), 60),
    (Sort::Refused(3), 50),
    (Sort::Refused(4), 50),
    (Sort::Refused(5), 60),
    (Sort::Refused(6), 55),
    (Sort::Refused(7), 60),
    (Sort::Refused(8), 60),
    (Sort::Refused(9), 60),
    (Sort::Pair, 100),
    (Sort::TwiceInOne, 30),
    (Sort::Changed, 40),
    (Sort::CutOrContinued, 15),
    (Sort::Wild, 20),
];

/// Lines that miss the form by little.
const MISWRITTEN: [&str; 14] = [
    "image",
    "image ",
    " image 0100",
    "image  0100",
    "image 0100 ",
    "image 0100 0100",
    "image - -",
    "image 010",
    "image 01000",
    "image 010G",
    "image 010A",
    "image --",
    "images 0100",
    "Image 0100",
];

pub struct Images {
    random: Random,
    /// How many random images are still to be run.
    left: usize,
    /// Whether Z and the unreadable lines are still to be run.
    opening: bool,
    images: usize,
    accepted: usize,
    refused: Tally,
    others: usize,
}

impl Images {
    pub fn new(n: usize, seed: u64) -> Self {
        Images {
            random: Random::new(seed),
            left: n,
            opening: true,
            images: 0,
            accepted: 0,
            refused: Tally::of_images(),
            others: 0,
        }
    }

    /// The line of an image, which is counted.
    fn line(&mut self, image: &[u8]) -> Vec<u8> {
        self.images += 1;
        match check(image) {
            Ok(_) => self.accepted += 1,
            Err(refusal) => self.refused.add(refusal.number),
        }
        line(image)
    }

    fn opening(&mut self) -> Script {
        let images: Vec<Vec<u8>> = beginnings_of_z().chain([longest_readable()]).collect();
        let mut lines: Vec<Vec<u8>> = images.iter().map(|image| self.line(image)).collect();
        let unreadable = unreadable_lines();
        self.others += unreadable.len();
        lines.extend(unreadable);
        lines.push(self.line(&Z));
        Script {
            lines,
            closed: false,
        }
    }
}

impl Kind for Images {
    fn next(&mut self) -> Option<Script> {
        if std::mem::take(&mut self.opening) {
            return Some(self.opening());
        }
        let mut left = self.left;
        let script = fill(&mut left, || {
            let image = random_image(&mut self.random, Reach::Any);
            self.line(&image)
        });
        self.left = left;
        script
    }

    fn summary(&self, differences: usize) -> String {
        format!(
            "{} images, {differences} differences (accepted {}; {}), and {} lines that cannot be read",
            self.images, self.accepted, self.refused, self.others
        )
    }
}

/// Z, its beginnings, and random images, small ones only.
pub fn sample(count: usize, seed: u64) -> Script {
    let mut random = Random::new(seed);
    let images = (0..count).map(|at| match at {
        0..=52 => Z[..Z.len() - at].to_vec(),
        _ => random_image(&mut random, Reach::Small),
    });
    Script::new(images.map(|image| line(&image)).collect())
}

fn line(image: &[u8]) -> Vec<u8> {
    format!("image {}", to_hex(image)).into_bytes()
}

fn beginnings_of_z() -> impl Iterator<Item = Vec<u8>> {
    (0..=Z.len()).map(|length| Z[..length].to_vec())
}

/// Z with as many zeros behind it as the longest line holds.
fn longest_readable() -> Vec<u8> {
    let mut image = Z.to_vec();
    image.resize((LONGEST - "image ".len()) / 2, 0);
    image
}

fn unreadable_lines() -> Vec<Vec<u8>> {
    let mut lines: Vec<Vec<u8>> = MISWRITTEN.map(|text| text.as_bytes().to_vec()).into();
    lines.push([line(&longest_readable()), b"00".to_vec()].concat());
    lines
}

/// An image of any sort.
pub fn random_image(random: &mut Random, reach: Reach) -> Vec<u8> {
    match random.by_share(&SHARES) {
        Sort::Accepted => accepted(random, reach).bytes(),
        Sort::Refused(number) => spoil::refused(random, reach, &[number]),
        Sort::Pair => {
            let numbers = pair(random);
            spoil::refused(random, reach, &numbers)
        }
        Sort::TwiceInOne => spoil::refused_twice_in_one(random, reach),
        Sort::Changed => spoil::changed(random, reach),
        Sort::CutOrContinued => spoil::cut_or_continued(random, reach),
        Sort::Wild => spoil::wild(random),
    }
}

/// Two refusals, mostly of cells and records, among which the order of places shows.
fn pair(random: &mut Random) -> [u8; 2] {
    let mut number = || match random.below(6) {
        0 => random.among(1, 3) as u8,
        _ => random.among(4, 9) as u8,
    };
    [number(), number()]
}

#[cfg(test)]
mod tests {
    use super::super::tally::OF_IMAGES;
    use super::*;
    use crate::generate::kind::all;

    const IMAGES: usize = 50_000;

    fn run(n: usize, seed: u64) -> (Images, Vec<Script>) {
        let mut images = Images::new(n, seed);
        let scripts = all(&mut images);
        (images, scripts)
    }

    #[test]
    fn each_refusal_is_hit_often_enough() {
        let (images, scripts) = run(IMAGES, 1);
        for number in OF_IMAGES {
            let often = images.refused.of(number);
            assert!(often > IMAGES / 50, "{number}: {often}");
        }
        assert!(images.accepted > IMAGES / 4);
        let lines: usize = scripts.iter().map(|script| script.lines.len()).sum();
        assert_eq!(lines, images.images + images.others);
        assert_eq!(images.images, IMAGES + 53 + 1 + 1);
    }

    #[test]
    fn aims_are_mostly_met() {
        let mut random = Random::new(4);
        for number in OF_IMAGES {
            let met = |_: &i32| {
                let image = spoil::refused(&mut random, Reach::Any, &[number]);
                check(&image).is_err_and(|refusal| refusal.number == number)
            };
            let often = (0..2_000).filter(met).count();
            assert!(often > 1_600, "{number}: {often}");
        }
    }

    #[test]
    fn lines_can_be_read_but_those_that_cannot() {
        let (_, scripts) = run(5_000, 2);
        let readable = |line: &Vec<u8>| {
            let words = crate::words::split(line)?;
            let [b"image", hex] = words[..] else {
                return None;
            };
            crate::words::hex(hex)
        };
        let unreadable = |script: &Script| {
            let lines = script.lines.iter();
            lines.filter(|line| readable(line).is_none()).count()
        };
        assert_eq!(unreadable(&scripts[0]), unreadable_lines().len());
        assert_eq!(scripts[1..].iter().map(unreadable).sum::<usize>(), 0);
        assert!(scripts[0].lines.iter().any(|line| line.len() == LONGEST));
    }

    #[test]
    fn a_sample_has_z_and_no_long_lines() {
        let script = sample(3_000, 1);
        assert_eq!(script.lines.len(), 3_000);
        assert_eq!(script.lines[0], line(&Z));
        assert!(script.lines.iter().all(|line| line.len() < 15_000));
        assert_eq!(sample(20, 1).lines.len(), 20);
    }
}
