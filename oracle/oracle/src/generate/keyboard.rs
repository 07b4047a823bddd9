//! Scripts of the keyboard's lines: reports that change and that do not, requests answered and refused, lights, and
//! the idle clock from every sort of record.
//!
//! Assumes: a keyboard is made once a script, so a script is long and starts from a fresh one.

use super::kind::Kind;
use crate::random::Random;
use crate::script::Script;
use crate::words::to_hex;

const LINES_A_SCRIPT: usize = 200_000;

pub struct Calls {
    random: Random,
    left: usize,
    calls: usize,
    clocks: usize,
}

impl Calls {
    pub fn new(n: usize, seed: u64) -> Self {
        Calls {
            random: Random::new(seed),
            left: n,
            calls: 0,
            clocks: 0,
        }
    }
}

impl Kind for Calls {
    fn next(&mut self) -> Option<Script> {
        let count = self.left.min(LINES_A_SCRIPT);
        if count == 0 {
            return None;
        }
        self.left -= count;
        self.calls += count;
        let mut lines = vec![b"descriptor".to_vec()];
        for _ in 0..count {
            let (line, clocks) = line(&mut self.random);
            self.clocks += clocks;
            lines.push(line.into_bytes());
        }
        Some(Script::new(lines))
    }

    fn summary(&self, differences: usize) -> String {
        format!(
            "{} keyboard calls, {differences} differences, and {} clock calls in them",
            self.calls, self.clocks
        )
    }
}

/// Some lines of everything.
pub fn sample(count: usize, seed: u64) -> Script {
    let mut random = Random::new(seed);
    let mut lines = vec![b"descriptor".to_vec()];
    lines.extend((0..count).map(|_| line(&mut random).0.into_bytes()));
    Script::new(lines)
}

/// A line, and how many clock calls it makes.
fn line(random: &mut Random) -> (String, usize) {
    match random.below(12) {
        0..=3 => (format!("report {}", to_hex(&report(random))), 0),
        4 => (format!("get {} {}", kind(random), id(random)), 0),
        5 | 6 => {
            let data = vec![random.below(256) as u8; random.pick(&[0, 1, 1, 1, 1, 1, 2, 8])];
            let line = format!("set {} {} {}", kind(random), id(random), to_hex(&data));
            (line, 0)
        }
        7 => (format!("rate {}", rate(random)), 0),
        8 => (format!("idling {} {}", rate(random), count(random)), 0),
        _ => {
            let calls = random.pick(&[0, 1, 1, 2, 3, 4, 5, 7, 8, 40, 1_019, 1_020, 1_021, 2_500]);
            (format!("clock {calls}"), calls)
        }
    }
}

/// Few reports, so that the same one often comes again.
fn report(random: &mut Random) -> [u8; 8] {
    let mut bytes = [0; 8];
    let place = random.below(8);
    bytes[place] = random.among(0, 2) as u8;
    if random.once_in(5) {
        bytes[random.below(8)] = random.below(256) as u8;
    }
    bytes
}

fn kind(random: &mut Random) -> usize {
    random.pick(&[0, 1, 1, 1, 2, 2, 2, 3, 4, 255])
}

fn id(random: &mut Random) -> usize {
    random.pick(&[0, 0, 0, 0, 1, 2, 255])
}

fn rate(random: &mut Random) -> usize {
    match random.below(3) {
        0 => random.pick(&[0, 1, 2, 125, 254, 255]),
        _ => random.below(256),
    }
}

/// Counts that a run reaches, and counts that none does.
fn count(random: &mut Random) -> usize {
    match random.below(3) {
        0 => random.pick(&[0, 1, 1_018, 1_019, 1_020, 1_021, 65_534, 65_535]),
        1 => random.below(1_021),
        _ => random.below(65_536),
    }
}
