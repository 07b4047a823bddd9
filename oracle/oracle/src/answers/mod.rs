//! What answers lines: a file for each part of the port that a script drives. It reads a line's words, asks the
//! Rust, the paper or both, and puts the answer in words. `replay` hands the lines of a script to these files;
//! `panel` answers as the program of that name does.
//!
//! Assumes: a line's words were parted by `words::split`. Where the Rust and the paper both answer they are held
//! together (`both`), and an object of the Rust that has panicked is not asked again (`guard`).

pub mod both;
mod changes;
pub mod codes;
mod debouncer;
mod keyboard;
pub mod layout;
pub mod panel;
pub mod replay;
mod text;

/// The answer to a line that cannot be read.
const UNREADABLE: &str = "?";

/// Answers the lines of some commands, and keeps what they change.
trait Adapter {
    /// The answer to a line, or nothing if it cannot be read; then it has changed nothing.
    fn answer(&mut self, command: &[u8], rest: &[&[u8]]) -> Option<String>;
}

/// The answers to lines, given one after the other.
#[cfg(test)]
fn answers(adapter: &mut impl Adapter, lines: &[&str]) -> Vec<String> {
    let answer = |line: &&str| {
        let words = crate::words::split(line.as_bytes()).expect("a line of words");
        let answer = adapter.answer(words[0], &words[1..]);
        answer.unwrap_or_else(|| UNREADABLE.to_string())
    };
    lines.iter().map(answer).collect()
}
