//! A script: lines of bytes, and whether the last one is closed by a newline.
//!
//! Assumes: no line holds a newline.

#[derive(Clone)]
pub struct Script {
    pub lines: Vec<Vec<u8>>,
    /// Whether the last line has its newline; a last line without it counts all the same.
    pub closed: bool,
}

impl Script {
    pub fn new(lines: Vec<Vec<u8>>) -> Self {
        Script {
            lines,
            closed: true,
        }
    }

    /// The script, if it has lines.
    pub fn if_any(self) -> Option<Self> {
        (!self.lines.is_empty()).then_some(self)
    }

    /// What is written to a program's standard input.
    pub fn bytes(&self) -> Vec<u8> {
        let mut bytes = self.lines.join(&b'\n');
        if self.closed && !self.lines.is_empty() {
            bytes.push(b'\n');
        }
        bytes
    }

    /// How many answers are owed: an unclosed last line that is empty is no line.
    pub fn owed(&self) -> usize {
        let bare_end = !self.closed && self.lines.last().is_some_and(Vec::is_empty);
        self.lines.len() - usize::from(bare_end)
    }
}
