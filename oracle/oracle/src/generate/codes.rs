//! Scripts of `codes` lines: all short lists, random legal ones, ones with illegal codes among them, and
//! lines that cannot be read.
//!
//! Assumes: lists of more than 64 codes are not of interest, a layout has no more states.

use super::kind::Kind;
use super::page::miswritten;
use crate::paper::report::is_legal;
use crate::random::Random;
use crate::script::Script;
use crate::words::{to_hex, LONGEST};
use std::collections::VecDeque;

const LINES_A_SCRIPT: usize = 100_000;
const LONGEST_LIST: usize = 64;
/// Lists of two, one and no codes over all bytes.
const SHORT_LISTS: usize = 65_536 + 256 + 1;
const UNREADABLE: usize = 500;

/// Lines that miss the form by little.
const MISWRITTEN: [&str; 27] = [
    "",
    " ",
    "codes",
    "codes ",
    " codes 04",
    "codes  04",
    "codes 04 ",
    "codes 04 05",
    "codes\t04",
    "codes 0",
    "codes 040",
    "codes 0A",
    "codes 0x04",
    "codes --",
    "codes -04",
    "codes 04-",
    "CODES 04",
    "code 04",
    "codess 04",
    "codes04",
    "codes 04\r",
    "\r",
    "-",
    "?",
    "codes \u{e9}",
    "codes 04\0",
    "\0",
];

/// A script of a comparison.
enum Part {
    Short,
    Legal(usize),
    Illegal(usize),
    Unreadable,
    Open,
}

pub struct Codes {
    random: Random,
    /// What is still to be run.
    parts: VecDeque<Part>,
    lists: usize,
    illegal: usize,
    others: usize,
}

impl Codes {
    pub fn new(n: usize, seed: u64) -> Self {
        let mut parts = VecDeque::from([Part::Short]);
        parts.extend(batches(n).map(Part::Legal));
        parts.extend(batches(n / 10).map(Part::Illegal));
        parts.extend([Part::Unreadable, Part::Open]);
        Codes {
            random: Random::new(seed),
            parts,
            lists: 0,
            illegal: 0,
            others: 0,
        }
    }

    /// A script of lists.
    fn listed(&mut self, lists: Vec<Vec<u8>>) -> Script {
        let legal = |list: &&Vec<u8>| list.iter().all(|&code| is_legal(code.into()));
        self.lists += lists.len();
        self.illegal += lists.len() - lists.iter().filter(legal).count();
        Script::new(lists.iter().map(|list| line(list)).collect())
    }

    fn random_lists(&mut self, count: usize, make: fn(&mut Random) -> Vec<u8>) -> Script {
        let lists = (0..count).map(|_| make(&mut self.random)).collect();
        self.listed(lists)
    }

    /// A script of other lines.
    fn others(&mut self, lines: Vec<Vec<u8>>, closed: bool) -> Script {
        self.others += lines.len();
        Script { lines, closed }
    }
}

impl Kind for Codes {
    fn next(&mut self) -> Option<Script> {
        Some(match self.parts.pop_front()? {
            Part::Short => self.listed((0..SHORT_LISTS).map(short_list).collect()),
            Part::Legal(count) => self.random_lists(count, legal_list),
            Part::Illegal(count) => self.random_lists(count, illegal_list),
            Part::Unreadable => {
                let lines = unreadable_lines(&mut self.random);
                self.others(lines, true)
            }
            Part::Open => self.others(vec![line(&[4, 5])], false),
        })
    }

    fn summary(&self, differences: usize) -> String {
        format!(
            "{} lists, {differences} differences (of them {} with illegal codes, judged by the paper's \
             rules), and {} further lines, most of them unreadable",
            self.lists, self.illegal, self.others
        )
    }
}

/// A number of lines in pieces that a script holds.
fn batches(lines: usize) -> impl Iterator<Item = usize> {
    let starts = (0..lines).step_by(LINES_A_SCRIPT);
    starts.map(move |start| LINES_A_SCRIPT.min(lines - start))
}

/// Some lines of everything but the longest ones.
pub fn sample(count: usize, seed: u64) -> Script {
    let mut random = Random::new(seed);
    let make = |_| match random.below(10) {
        0 => unreadable_line(&mut random),
        1 => line(&illegal_list(&mut random)),
        _ => line(&legal_list(&mut random)),
    };
    Script::new((0..count).map(make).collect())
}

fn line(list: &[u8]) -> Vec<u8> {
    format!("codes {}", to_hex(list)).into_bytes()
}

/// The lists of length 0, 1 and 2 in a row.
fn short_list(at: usize) -> Vec<u8> {
    match at {
        0 => vec![],
        1..=256 => vec![(at - 1) as u8],
        _ => ((at - 257) as u16).to_be_bytes().to_vec(),
    }
}

/// A list of legal codes. Most random lists overflow the report; what decides is how lists of about six
/// ordinary keys stand among modifiers, zeros and the three error codes, so those are the most frequent.
pub fn legal_list(random: &mut Random) -> Vec<u8> {
    let length = random.among(0, LONGEST_LIST);
    match random.below(12) {
        0..=5 => around_six(random),
        6 => around_six_with_errors(random),
        7 => repeat(length, || random.among(0, 3) as u8),
        8 => repeat(length, || modifier(random)),
        9 => vec![0; length],
        10 => {
            let few: Vec<u8> = repeat(random.among(1, 4), || legal(random));
            repeat(length, || random.pick(&few))
        }
        _ => repeat(length, || legal(random)),
    }
}

fn repeat(count: usize, mut code: impl FnMut() -> u8) -> Vec<u8> {
    (0..count).map(|_| code()).collect()
}

fn around_six(random: &mut Random) -> Vec<u8> {
    let mut list = repeat(random.among(4, 8), || ordinary(random));
    if random.once_in(4) {
        let again = random.pick(&list);
        list.push(again);
    }
    let between = random.among(0, 12);
    list.extend(repeat(between, || match random.below(3) {
        0 => 0,
        _ => modifier(random),
    }));
    random.shuffle(&mut list);
    list
}

fn around_six_with_errors(random: &mut Random) -> Vec<u8> {
    let mut list = around_six(random);
    for _ in 0..random.among(1, 3) {
        let place = random.among(0, list.len());
        list.insert(place, random.among(1, 3) as u8);
    }
    list
}

/// A list with at least one illegal code.
fn illegal_list(random: &mut Random) -> Vec<u8> {
    let mut list = legal_list(random);
    for _ in 0..random.among(1, 6) {
        if list.len() < LONGEST_LIST {
            let place = random.among(0, list.len());
            list.insert(place, illegal(random));
        } else {
            let place = random.below(list.len());
            list[place] = illegal(random);
        }
    }
    list
}

pub fn legal(random: &mut Random) -> u8 {
    match random.below(193) {
        code @ 0..=0xA4 => code as u8,
        over => (0xE0 + over - 0xA5) as u8,
    }
}

fn ordinary(random: &mut Random) -> u8 {
    match random.below(6) {
        0 => random.among(0xE8, 0xFB) as u8,
        1 => random.pick(&[4, 0xA4, 0xE8, 0xFB]),
        _ => random.among(4, 0xA4) as u8,
    }
}

fn modifier(random: &mut Random) -> u8 {
    random.among(0xE0, 0xE7) as u8
}

pub fn illegal(random: &mut Random) -> u8 {
    match random.below(4) {
        0 => random.among(0xFC, 0xFF) as u8,
        _ => random.among(0xA5, 0xDF) as u8,
    }
}

/// Lines that cannot be read with readable ones between them, and the longest that can.
fn unreadable_lines(random: &mut Random) -> Vec<Vec<u8>> {
    let mut lines: Vec<Vec<u8>> = Vec::new();
    for text in MISWRITTEN {
        lines.extend([text.as_bytes().to_vec(), line(&legal_list(random))]);
    }
    // the second of these is the longest that can be read: its hex has an even number of digits, and its
    // last one makes the only key
    for length in [LONGEST - 1, LONGEST, LONGEST + 1, LONGEST + 2, 100_000] {
        let mut long = b"codes ".to_vec();
        long.resize(length - 1, b'0');
        long.push(b'4');
        lines.extend([long, line(&legal_list(random))]);
    }
    let mixed = (0..UNREADABLE).map(|_| match random.below(3) {
        0 => line(&legal_list(random)),
        _ => unreadable_line(random),
    });
    lines.extend(mixed);
    lines
}

fn unreadable_line(random: &mut Random) -> Vec<u8> {
    let list = legal_list(random);
    miswritten(random, line(&list))
}

#[cfg(test)]
mod tests {
    use super::*;

    #[test]
    fn lists_are_what_they_are_called() {
        let mut random = Random::new(7);
        for _ in 0..10_000 {
            let list = legal_list(&mut random);
            assert!(list.iter().all(|&code| is_legal(code.into())) && list.len() <= LONGEST_LIST);
            let list = illegal_list(&mut random);
            assert!(!list.iter().all(|&code| is_legal(code.into())) && list.len() <= LONGEST_LIST);
        }
    }

    #[test]
    fn short_lists_are_all_there() {
        let lists: std::collections::BTreeSet<Vec<u8>> = (0..SHORT_LISTS).map(short_list).collect();
        assert_eq!(lists.len(), 65_793);
        assert!(lists.iter().all(|list| list.len() <= 2));
    }

    #[test]
    fn no_line_holds_a_newline() {
        let mut random = Random::new(3);
        let lines = unreadable_lines(&mut random);
        assert!(lines.iter().all(|line| !line.contains(&b'\n')));
        assert_eq!(lines.iter().filter(|line| line.len() == LONGEST).count(), 1);
    }
}
