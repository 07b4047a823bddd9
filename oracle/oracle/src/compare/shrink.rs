//! Makes a script with a difference as short as it can: fewer lines, then lower numbers, fewer bytes in hex
//! words and lower bytes. Each try runs both sides.
//!
//! Assumes: any difference is as good as the first one. The time is limited: a script that could be still
//! shorter is of more use than a long wait. Whoever wants the verdict alone gives it no time.

use super::side::{Difference, Sides};
use crate::script::Script;
use crate::words;
use std::io;
use std::time::{Duration, Instant};

const LONGEST_SEARCH: Duration = Duration::from_secs(40);

/// The variable of the environment that sets another time, in whole seconds.
const SEARCH_SECONDS: &str = "SEARCH_SECONDS";

/// How long a search may take.
fn search_time() -> Duration {
    let wanted = std::env::var(SEARCH_SECONDS).ok();
    let seconds = wanted.and_then(|text| text.parse().ok());
    seconds.map_or(LONGEST_SEARCH, Duration::from_secs)
}

struct Shrinker<'a> {
    sides: &'a Sides,
    best: Script,
    difference: Option<Difference>,
    end: Instant,
}

/// The shortest script found, and its difference.
pub fn shortest(sides: &Sides, script: Script) -> io::Result<(Script, Option<Difference>)> {
    let mut shrinker = Shrinker {
        sides,
        difference: sides.difference(&script, false)?,
        best: script,
        end: Instant::now() + search_time(),
    };
    shrinker.cut_tail()?;
    // a lowered byte may let others go, so the steps are taken until none serves
    let mut before = Vec::new();
    while shrinker.has_time() && shrinker.best.bytes() != before {
        before = shrinker.best.bytes();
        shrinker.drop_lines()?;
        for line in 0..shrinker.best.lines.len() {
            shrinker.shrink_words(line)?;
        }
    }
    Ok((shrinker.best, shrinker.difference))
}

impl Shrinker<'_> {
    fn has_time(&self) -> bool {
        Instant::now() < self.end
    }

    /// Takes a script over if it still differs.
    fn takes(&mut self, script: Script) -> io::Result<bool> {
        let difference = self.sides.difference(&script, false)?;
        let differs = difference.is_some();
        if differs {
            self.best = script;
            self.difference = difference;
        }
        Ok(differs)
    }

    fn takes_lines(&mut self, lines: Vec<Vec<u8>>) -> io::Result<bool> {
        let closed = self.best.closed;
        self.takes(Script { lines, closed })
    }

    /// What comes after the difference plays no part.
    fn cut_tail(&mut self) -> io::Result<()> {
        if let Some(found) = &self.difference {
            let kept = self.best.lines.iter().take(found.line + 1).cloned();
            let lines = kept.collect();
            self.takes_lines(lines)?;
        }
        Ok(())
    }

    /// Drops stretches of lines, ever shorter ones down to single lines.
    fn drop_lines(&mut self) -> io::Result<()> {
        let mut stretch = self.best.lines.len() / 2;
        while stretch > 0 {
            let mut at = 0;
            while at < self.best.lines.len() && self.has_time() {
                let lines = without(&self.best.lines, at, stretch);
                if lines.is_empty() || !self.takes_lines(lines)? {
                    at += stretch;
                }
            }
            stretch /= 2;
        }
        Ok(())
    }

    fn shrink_words(&mut self, line: usize) -> io::Result<()> {
        let words = self.best.lines[line].split(|&byte| byte == b' ').count();
        // the first word is the command
        for word in 1..words {
            self.lower_number(line, word)?;
            self.drop_bytes(line, word)?;
            self.lower_bytes(line, word)?;
        }
        Ok(())
    }

    /// Lowers a decimal number: to 0, else as far as halving its distance from 0 goes.
    fn lower_number(&mut self, line: usize, word: usize) -> io::Result<()> {
        let found = words::number(self.word(line, word));
        let mut number = found.unwrap_or(0);
        let mut step = number;
        while step > 0 && self.has_time() {
            match number.checked_sub(step) {
                Some(lower) if self.takes_word(line, word, &lower.to_string())? => number = lower,
                _ => step /= 2,
            }
        }
        Ok(())
    }

    fn drop_bytes(&mut self, line: usize, word: usize) -> io::Result<()> {
        let mut stretch = self.hex(line, word).len();
        while stretch > 0 {
            let mut at = 0;
            while at < self.hex(line, word).len() && self.has_time() {
                let bytes = without(&self.hex(line, word), at, stretch);
                if !self.takes_hex(line, word, &bytes)? {
                    at += stretch;
                }
            }
            stretch /= 2;
        }
        Ok(())
    }

    /// Lowers each byte: to 0, else as far as halving its distance from 0 goes.
    fn lower_bytes(&mut self, line: usize, word: usize) -> io::Result<()> {
        for at in 0..self.hex(line, word).len() {
            let mut step = self.hex(line, word)[at];
            while step > 0 && self.has_time() {
                let mut bytes = self.hex(line, word);
                let lowered = bytes[at].checked_sub(step);
                bytes[at] = lowered.unwrap_or(bytes[at]);
                if lowered.is_none() || !self.takes_hex(line, word, &bytes)? {
                    step /= 2;
                }
            }
        }
        Ok(())
    }

    fn word(&self, line: usize, word: usize) -> &[u8] {
        let mut words = self.best.lines[line].split(|&byte| byte == b' ');
        words.nth(word).unwrap_or_default()
    }

    /// The bytes of a word; none if it is not hex.
    fn hex(&self, line: usize, word: usize) -> Vec<u8> {
        words::hex(self.word(line, word)).unwrap_or_default()
    }

    fn takes_hex(&mut self, line: usize, word: usize, bytes: &[u8]) -> io::Result<bool> {
        self.takes_word(line, word, &words::to_hex(bytes))
    }

    /// Takes the script with another word in a word's place over, if it still differs.
    fn takes_word(&mut self, line: usize, word: usize, text: &str) -> io::Result<bool> {
        let mut lines = self.best.lines.clone();
        let mut words: Vec<&[u8]> = self.best.lines[line].split(|&byte| byte == b' ').collect();
        words[word] = text.as_bytes();
        lines[line] = words.join(&b' ');
        self.takes_lines(lines)
    }
}

fn without<T: Clone>(items: &[T], from: usize, count: usize) -> Vec<T> {
    let to = items.len().min(from + count);
    [&items[..from], &items[to..]].concat()
}
