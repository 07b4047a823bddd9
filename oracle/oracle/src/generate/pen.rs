//! The pen that writes scripts of calls. It makes each call beside the line that it writes: so what is written next
//! can be aimed at what stands by then, and what happens is counted. Which lines there are and what they call is said
//! by two parts: `debounce/pen.rs` and `layout/pen.rs`.
//!
//! Assumes: the paper's steps are those of both sides; where they are not, the comparison tells.

use super::page::Page;
use crate::random::Random;
use crate::script::Script;

/// What the lines of a script are about, as it stands after them. Each script starts with the default.
pub trait Beside: Default {
    /// What happened so far, in all scripts.
    type Counts: Default;

    /// How many lines a script has at the most, if it is not ended by its bytes.
    const LINES_A_SCRIPT: usize = usize::MAX;
}

pub struct Pen<B: Beside> {
    pub random: Random,
    pub counts: B::Counts,
    pub beside: B,
    page: Page,
}

impl<B: Beside> Pen<B> {
    pub fn new(seed: u64) -> Self {
        Pen {
            random: Random::new(seed),
            counts: B::Counts::default(),
            beside: B::default(),
            page: Page::default(),
        }
    }

    pub fn lines(&self) -> usize {
        self.page.lines()
    }

    pub fn is_full(&self) -> bool {
        self.page.is_full() || self.page.lines() >= B::LINES_A_SCRIPT
    }

    /// A line that is not stepped beside, and of which nothing is counted.
    pub fn write(&mut self, line: &str) {
        self.page.write(line);
    }

    /// The script written so far; the next one starts as every script does.
    pub fn script(&mut self) -> Script {
        self.beside = B::default();
        self.page.script()
    }

    /// The first lines written so far.
    pub fn sample(mut self, count: usize) -> Script {
        let mut script = self.script();
        script.lines.truncate(count);
        script
    }
}
