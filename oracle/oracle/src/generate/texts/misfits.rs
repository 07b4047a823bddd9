//! Damage to the lines of a text: every way in which a line does not fit, is missing or is left over.
//!
//! Assumes: a fault is what is aimed at, not what must come out: a list entry that is parted in two leaves a line over,
//! and a row that is gone is missed only where the records begin. What came out is counted by who asked for it.

use super::sheet::Sheet;
use crate::random::Random;

/// How a line is damaged.
#[derive(Clone, Copy, Debug, PartialEq)]
pub enum Misfit {
    TooFew,
    TooMany,
    SpaceBefore,
    SpaceBehind,
    OddByte,
    Emptied,
    Blank,
    TooLarge,
    Joined,
    Split,
    Dropped,
    Twice,
}

pub const MISFITS: [Misfit; 12] = [
    Misfit::TooFew,
    Misfit::TooMany,
    Misfit::SpaceBefore,
    Misfit::SpaceBehind,
    Misfit::OddByte,
    Misfit::Emptied,
    Misfit::Blank,
    Misfit::TooLarge,
    Misfit::Joined,
    Misfit::Split,
    Misfit::Dropped,
    Misfit::Twice,
];

/// How the end of a text is damaged.
#[derive(Clone, Copy, Debug, PartialEq)]
pub enum End {
    CutAtLine,
    CutInLine,
    Unclosed,
    NumberLine,
    LineAgain,
    EmptyLine,
    StrayByte,
    StraySpace,
    StrayDigit,
}

pub const ENDS: [End; 9] = [
    End::CutAtLine,
    End::CutInLine,
    End::Unclosed,
    End::NumberLine,
    End::LineAgain,
    End::EmptyLine,
    End::StrayByte,
    End::StraySpace,
    End::StrayDigit,
];

/// Bytes that no text has, those beside the digits, the space and the newline in the table of bytes among them.
const ODD: [u8; 24] = [
    b'\t', b'\r', 0, b'+', b'-', b'.', b',', b'a', b'f', b'x', b'A', b'l', b'O', b'/', b':', b'_',
    0x0B, 0x0C, 0x1F, b'!', 0x7F, 0x80, 0xA0, 0xFF,
];

/// Numbers that do not fit a word. Cut to 16, 32 or 64 bits some are 0 or 1 again.
const TOO_LARGE: [&str; 14] = [
    "65536",
    "65536",
    "65537",
    "70000",
    "99999",
    "100000",
    "131072",
    "655350",
    "0000065536",
    "4294967296",
    "4294967297",
    "18446744073709551616",
    "340282366920938463463374607431768211457",
    "999999999999999999999999999999",
];

/// A byte that no text has.
pub fn odd_byte(random: &mut Random) -> u8 {
    match random.below(4) {
        0 => random.among(0x80, 0xFF) as u8,
        _ => random.pick(&ODD),
    }
}

/// Damages the line at this place, which there is.
pub fn spoil_line(sheet: &mut Sheet, random: &mut Random, at: usize, misfit: Misfit) {
    let line = &mut sheet.lines[at];
    match misfit {
        Misfit::TooFew => take_number(line, random),
        Misfit::TooMany => put_number(line, random),
        Misfit::SpaceBefore => drop(line.splice(..0, vec![b' '; random.among(1, 3)])),
        Misfit::SpaceBehind => line.extend(vec![b' '; random.among(1, 3)]),
        Misfit::OddByte => put_odd_byte(line, random),
        Misfit::Emptied => line.clear(),
        Misfit::Blank => *line = vec![b' '; random.among(1, 3)],
        Misfit::TooLarge => enlarge(line, random),
        Misfit::Joined => join(sheet, random, at),
        Misfit::Split => split(sheet, random, at),
        Misfit::Dropped => drop(sheet.lines.remove(at)),
        Misfit::Twice => sheet.lines.insert(at, sheet.lines[at].clone()),
    }
}

fn words(line: &[u8]) -> Vec<Vec<u8>> {
    let words = line.split(|&byte| byte == b' ');
    let words = words.filter(|word| !word.is_empty());
    words.map(<[u8]>::to_vec).collect()
}

/// Takes a number from a line; from a line that has none, it cannot.
fn take_number(line: &mut Vec<u8>, random: &mut Random) {
    let mut words = words(line);
    if words.is_empty() {
        return put_number(line, random);
    }
    words.remove(random.place(0, words.len()));
    *line = words.join(&b' ');
}

fn put_number(line: &mut Vec<u8>, random: &mut Random) {
    let mut words = words(line);
    let number = random.pick(&["0", "1", "3", "00", "65535"]);
    words.insert(random.place(0, words.len() + 1), number.into());
    *line = words.join(&b' ');
}

fn put_odd_byte(line: &mut Vec<u8>, random: &mut Random) {
    let byte = odd_byte(random);
    let at = random.place(0, line.len() + 1);
    match at < line.len() && random.once_in(2) {
        true => line[at] = byte,
        false => line.insert(at, byte),
    }
}

fn enlarge(line: &mut Vec<u8>, random: &mut Random) {
    let mut words = words(line);
    let number = random.pick(&TOO_LARGE).into();
    match words.is_empty() {
        true => words.push(number),
        false => {
            let at = random.place(0, words.len());
            words[at] = number;
        }
    }
    *line = words.join(&b' ');
}

/// Joins a line with the next one, the last with the one before it: with a space between them, or nothing.
fn join(sheet: &mut Sheet, random: &mut Random, at: usize) {
    if sheet.lines.len() < 2 {
        return sheet.lines.clear();
    }
    let at = at.min(sheet.lines.len() - 2);
    let next = sheet.lines.remove(at + 1);
    if !random.once_in(3) {
        sheet.lines[at].push(b' ');
    }
    sheet.lines[at].extend(next);
}

/// Parts a line in two, in one of its gaps if it has one and chance wills it.
fn split(sheet: &mut Sheet, random: &mut Random, at: usize) {
    let line = &mut sheet.lines[at];
    let gaps: Vec<usize> = (0..line.len()).filter(|&at| line[at] == b' ').collect();
    let behind = match gaps.is_empty() || random.once_in(4) {
        true => line.split_off(random.among(0, line.len())),
        false => {
            let gap = random.pick(&gaps);
            let behind = line.split_off(gap + 1);
            line.pop();
            behind
        }
    };
    sheet.lines.insert(at + 1, behind);
}

/// Damages the end of a text, which has a line.
pub fn spoil_end(sheet: &mut Sheet, random: &mut Random, end: End) {
    let count = sheet.lines.len();
    match end {
        End::CutAtLine => sheet.lines.truncate(random.place(0, count)),
        End::CutInLine => {
            let at = random.place(0, count);
            let cut = sheet.lines[at].len();
            sheet.tail = sheet.lines[at][..random.among(0, cut)].to_vec();
            sheet.lines.truncate(at);
        }
        End::Unclosed => sheet.tail = sheet.lines.pop().unwrap_or_default(),
        End::NumberLine => {
            let line = random.pick(&["0", "1", "0 0 0 0", "65535", "1 1 1 1 0"]);
            sheet.lines.push(line.into());
        }
        End::LineAgain => sheet.lines.push(sheet.lines[count - 1].clone()),
        End::EmptyLine => sheet
            .lines
            .resize(count + random.pick(&[1, 1, 2, 9]), vec![]),
        End::StrayByte => sheet.tail = vec![odd_byte(random)],
        End::StraySpace => sheet.tail = vec![b' '; random.pick(&[1, 1, 2, 9])],
        End::StrayDigit => sheet.tail = vec![random.among(b'0'.into(), b'9'.into()) as u8],
    }
}

#[cfg(test)]
mod tests {
    use super::*;
    use crate::generate::grow::{accepted, Reach};
    use crate::paper::text::write;

    const TRIES: usize = 400;

    /// Texts with such a line, of which the place is given; of each the refusal's place, if it is 15, and the line's.
    fn told(misfit: Misfit, at: impl Fn(usize) -> usize) -> Vec<(usize, usize)> {
        let mut random = Random::new(5);
        let mut told = Vec::new();
        for _ in 0..TRIES {
            let draft = accepted(&mut random, Reach::Small);
            let mut sheet = Sheet::of(&draft, &mut random, Reach::Small);
            let at = at(sheet.lines.len());
            spoil_line(&mut sheet, &mut random, at, misfit);
            let refusal = write(&sheet.bytes(), 65_535).err();
            let refusal = refusal.filter(|refusal| refusal.number == 15);
            told.extend(refusal.map(|refusal| (refusal.place, at + 1)));
        }
        told
    }

    #[test]
    fn each_misfit_is_told_at_its_line() {
        let places: [fn(usize) -> usize; 3] = [|_| 0, |count| count / 2, |count| count - 1];
        for misfit in MISFITS {
            let moved = matches!(
                misfit,
                Misfit::Joined | Misfit::Split | Misfit::Dropped | Misfit::Twice
            );
            for place in places {
                let told = told(misfit, place);
                // with lines moved, it is not always the text that is at fault, and not always there
                let least = if moved { TRIES * 9 / 10 } else { TRIES };
                assert!(told.len() >= least, "{misfit:?}: {}", told.len());
                assert!(
                    moved || told.iter().all(|(told, at)| told == at),
                    "{misfit:?}"
                );
            }
        }
    }

    #[test]
    fn each_end_is_told() {
        let mut random = Random::new(6);
        for end in ENDS {
            let mut behind = 0;
            for _ in 0..TRIES {
                let draft = accepted(&mut random, Reach::Small);
                let mut sheet = Sheet::of(&draft, &mut random, Reach::Small);
                let count = sheet.lines.len();
                spoil_end(&mut sheet, &mut random, end);
                let refusal = write(&sheet.bytes(), 65_535).expect_err("a text that does not fit");
                assert_eq!(refusal.number, 15);
                assert_eq!(refusal.place, sheet.lines.len().min(count) + 1, "{end:?}");
                behind += usize::from(refusal.place == count + 1);
            }
            let missing = matches!(end, End::CutAtLine | End::CutInLine | End::Unclosed);
            assert_eq!(behind, if missing { 0 } else { TRIES }, "{end:?}");
        }
    }
}
