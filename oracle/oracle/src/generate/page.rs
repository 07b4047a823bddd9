//! The lines of a script while it is written, and when there are enough of them; and a line that is written wrong.
//!
//! Assumes: no line holds a newline.

use crate::random::Random;
use crate::script::Script;

/// How many bytes of long lines a script has, about.
const BYTES_A_SCRIPT: usize = 20_000_000;

#[derive(Default)]
pub struct Page {
    lines: Vec<Vec<u8>>,
    bytes: usize,
}

impl Page {
    pub fn write(&mut self, line: impl Into<Vec<u8>>) {
        let line = line.into();
        self.bytes += line.len();
        self.lines.push(line);
    }

    pub fn lines(&self) -> usize {
        self.lines.len()
    }

    pub fn is_full(&self) -> bool {
        self.bytes >= BYTES_A_SCRIPT
    }

    /// The script written so far; the page is empty then.
    pub fn script(&mut self) -> Script {
        Script::new(std::mem::take(self).lines)
    }
}

/// A script of the lines that are left, or of as many as fit; nothing if none are left.
pub fn fill(left: &mut usize, mut make: impl FnMut() -> Vec<u8>) -> Option<Script> {
    let mut page = Page::default();
    while *left > 0 && !page.is_full() {
        page.write(make());
        *left -= 1;
    }
    page.script().if_any()
}

/// That none of these lines can be read, for the tests of the kinds that have such lines.
#[cfg(test)]
pub fn assert_unreadable(lines: &[&str]) {
    let lines = lines.iter().map(|text| text.as_bytes().to_vec()).collect();
    let answers = crate::answers::replay::answers(&Script::new(lines));
    assert!(answers.iter().all(|answer| answer == "?"), "{answers:?}");
}

/// A readable line with one byte changed, added or taken away: nearly always one that cannot be read.
pub fn miswritten(random: &mut Random, mut line: Vec<u8>) -> Vec<u8> {
    let place = random.below(line.len());
    let odd = match random.below(6) {
        0 => b' ',
        1 => b'\r',
        2 => 0,
        3 => random.among(b'A'.into(), b'Z'.into()) as u8,
        4 => random.among(0x80, 0xFF) as u8,
        _ => random.among(0x0B, 0x7F) as u8,
    };
    match random.below(3) {
        0 => line[place] = odd,
        1 => line.insert(place, odd),
        _ => {
            line.remove(place);
        }
    }
    line
}
