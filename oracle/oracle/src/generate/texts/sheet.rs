//! A table's text while it is written: its lines apart from each other, and how their numbers are spelled.
//!
//! Assumes: a count fits its word. A text has at most 16,000 bytes before damage, so that a line of a script holds it
//! even with a line in it twice.

use crate::generate::draft::Draft;
use crate::generate::grow::Reach;
use crate::random::Random;

/// How many bytes a text has at the most, but for what damage adds.
pub const MOST_BYTES: usize = 16_000;

#[derive(Clone)]
pub struct Sheet {
    /// The lines that are closed, without their newlines.
    pub lines: Vec<Vec<u8>>,
    /// What stands behind the last newline.
    pub tail: Vec<u8>,
}

impl Sheet {
    /// Lines in their plain form: single spaces, no zeros in front.
    pub fn plain(numbers: &[Vec<u16>]) -> Self {
        Sheet {
            lines: numbers.iter().map(|line| plain_line(line)).collect(),
            tail: Vec::new(),
        }
    }

    /// The text of a draft, every other time with more spaces and zeros than it must have.
    pub fn of(draft: &Draft, random: &mut Random, reach: Reach) -> Self {
        let numbers = numbers(draft);
        match random.once_in(2) {
            true => Sheet::plain(&numbers),
            false => Sheet::loose(&numbers, random, reach),
        }
    }

    /// Lines with some longer gaps and some zeros in front.
    pub fn loose(numbers: &[Vec<u16>], random: &mut Random, reach: Reach) -> Self {
        let mut sheet = Sheet::plain(numbers);
        let most = match reach {
            Reach::Small => 200,
            Reach::Any => MOST_BYTES,
        };
        let mut hand = Hand {
            once_in: random.pick(&[1, 2, 5, 20]),
            spare: most.min(MOST_BYTES.saturating_sub(sheet.bytes().len())),
            random,
        };
        sheet.lines = numbers.iter().map(|line| hand.line(line)).collect();
        sheet
    }

    pub fn bytes(&self) -> Vec<u8> {
        let mut bytes = Vec::new();
        for line in &self.lines {
            bytes.extend(line);
            bytes.push(b'\n');
        }
        bytes.extend(&self.tail);
        bytes
    }
}

/// The numbers of a draft's text, line by line, with the counts that its parts have.
pub fn numbers(draft: &Draft) -> Vec<Vec<u16>> {
    let counts = [
        draft.layers,
        draft.rows,
        draft.columns,
        draft.records.len(),
        draft.list.len(),
    ];
    let mut lines = vec![counts.map(|count| count as u16).to_vec()];
    for row in 0..draft.layers * draft.rows {
        let first = row * draft.columns;
        lines.push(draft.cells[first..first + draft.columns].to_vec());
    }
    lines.extend(draft.records.iter().map(|record| record.to_vec()));
    lines.extend(draft.list.iter().map(|&entry| vec![entry]));
    lines
}

pub fn plain_line(numbers: &[u16]) -> Vec<u8> {
    let words: Vec<String> = numbers.iter().map(u16::to_string).collect();
    words.join(" ").into_bytes()
}

/// Writes numbers longer than they must be.
struct Hand<'a> {
    random: &'a mut Random,
    /// Of so many gaps and numbers one is longer.
    once_in: usize,
    /// How many bytes longer all of them may still be.
    spare: usize,
}

impl Hand<'_> {
    fn line(&mut self, numbers: &[u16]) -> Vec<u8> {
        let mut line = Vec::new();
        for (at, number) in numbers.iter().enumerate() {
            if at > 0 {
                line.resize(line.len() + 1 + self.more(), b' ');
            }
            line.resize(line.len() + self.more(), b'0');
            line.extend(number.to_string().bytes());
        }
        line
    }

    /// How many bytes longer than it must be a gap or a number is: mostly few, some more than any count would hold
    /// as digits.
    fn more(&mut self) -> usize {
        if !self.random.once_in(self.once_in) {
            return 0;
        }
        let wanted = match self.random.below(8_000) {
            0 => self.random.among(1_000, 12_000),
            1..=40 => self.random.among(60, 400),
            41..=500 => self.random.among(25, 60),
            501..=2_500 => self.random.among(2, 6),
            _ => 1,
        };
        let more = wanted.min(self.spare);
        self.spare -= more;
        more
    }
}

#[cfg(test)]
mod tests {
    use super::*;
    use crate::generate::grow::accepted;
    use crate::paper::text::{print, write};

    #[test]
    fn texts_of_tables_say_their_images() {
        let mut random = Random::new(1);
        let mut longest = 0;
        for _ in 0..3_000 {
            let draft = accepted(&mut random, Reach::Any);
            let image = draft.bytes();
            let plain = Sheet::plain(&numbers(&draft)).bytes();
            assert_eq!(print(&image, plain.len()), Ok(plain));
            let loose = Sheet::loose(&numbers(&draft), &mut random, Reach::Any).bytes();
            assert_eq!(write(&loose, image.len()), Ok(image));
            longest = longest.max(loose.len());
        }
        assert!((10_000..=MOST_BYTES).contains(&longest));
    }

    #[test]
    fn small_texts_are_small() {
        let mut random = Random::new(2);
        for _ in 0..3_000 {
            let draft = accepted(&mut random, Reach::Small);
            let plain = Sheet::plain(&numbers(&draft)).bytes();
            let loose = Sheet::of(&draft, &mut random, Reach::Small).bytes();
            assert!(loose.len() <= plain.len() + 200 && plain.len() < 4_000);
        }
    }
}
