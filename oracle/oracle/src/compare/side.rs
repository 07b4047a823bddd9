//! The sides of a comparison: each a child process that is given a script and whose answers are kept whole; and the
//! first difference between the two sides' answers.
//!
//! Assumes: nothing of the child; a wrong number of answers, a bad exit status and an answer without its
//! newline are all differences. So is an answer on which the oracle itself is of two minds, even if the other
//! side gives the same: it may be the oracle too.

use super::promise::{self, Broken};
use crate::answers::both::MARK;
use crate::script::Script;
use std::io::{self, Read, Write};
use std::process::{Command, ExitStatus, Stdio};

struct Answers {
    bytes: Vec<u8>,
    status: ExitStatus,
}

/// Where two sides differ first: the line, counted from 0, and what each has there.
pub struct Difference {
    pub line: usize,
    pub ours: String,
    pub oracle: String,
}

/// The two sides of a comparison.
pub struct Sides {
    pub ours: Vec<String>,
    pub oracle: Vec<String>,
}

impl Sides {
    /// The first difference between the two sides' answers to a script, or in ours where an empty list of changed cells
    /// promises that there is none; else how many such promises were kept. Both run at the same time.
    pub fn held(&self, script: &Script, loud: bool) -> io::Result<Result<usize, Difference>> {
        let input = script.bytes();
        let (ours, oracle) = std::thread::scope(|scope| {
            let ours = scope.spawn(|| run(&self.ours, &input, loud));
            let oracle = run(&self.oracle, &input, loud);
            (ours.join().expect("a side's thread does not panic"), oracle)
        });
        let (ours, oracle) = (ours?, oracle?);
        Ok(match first_difference(script.owed(), &ours, &oracle) {
            Some(difference) => Err(difference),
            None => promises(script, &ours, &oracle),
        })
    }

    /// The first difference alone.
    pub fn difference(&self, script: &Script, loud: bool) -> io::Result<Option<Difference>> {
        Ok(self.held(script, loud)?.err())
    }
}

/// How many promises our answers keep, or the first one broken. There is an answer to each line.
fn promises(script: &Script, ours: &Answers, oracle: &Answers) -> Result<usize, Difference> {
    let lines = ours.lines();
    let kept = promise::kept(&script.lines[..lines.len()], &lines);
    kept.map_err(|Broken { first, second }| Difference {
        line: second,
        ours: format!(
            "{}, and over the first table, at line {}: {}",
            ours.at(&lines, second),
            first + 1,
            ours.at(&lines, first)
        ),
        oracle: oracle.at(&oracle.lines(), second),
    })
}

/// Runs a command over an input. Its standard error is shown if `loud`. The input is written by a thread of
/// its own, since a child that answers while it reads would otherwise wait for us and we for it.
fn run(command: &[String], input: &[u8], loud: bool) -> io::Result<Answers> {
    let said = if loud {
        Stdio::inherit()
    } else {
        Stdio::null()
    };
    let mut child = Command::new(&command[0])
        .args(&command[1..])
        .stdin(Stdio::piped())
        .stdout(Stdio::piped())
        .stderr(said)
        .spawn()
        .map_err(|error| io::Error::new(error.kind(), format!("{}: {error}", command[0])))?;
    let mut to_child = child.stdin.take().expect("the child's input is piped");
    let mut from_child = child.stdout.take().expect("the child's output is piped");
    let mut bytes = Vec::new();
    std::thread::scope(|scope| {
        // a child may end before it has read everything: its answers or its status tell
        scope.spawn(move || drop(to_child.write_all(input)));
        from_child.read_to_end(&mut bytes)
    })?;
    let status = child.wait()?;
    Ok(Answers { bytes, status })
}

/// The first difference; `owed` is the number of answers that each side owes.
fn first_difference(owed: usize, ours: &Answers, oracle: &Answers) -> Option<Difference> {
    let well = |side: &Answers| {
        let answers = side.bytes.iter().filter(|&&byte| byte == b'\n').count();
        side.status.success() && answers == owed && side.bytes.last().is_none_or(|&b| b == b'\n')
    };
    if ours.bytes == oracle.bytes && well(ours) && well(oracle) && !oracle.is_marked() {
        return None;
    }
    let (ours_lines, oracle_lines) = (ours.lines(), oracle.lines());
    let most = ours_lines.len().max(oracle_lines.len());
    let marked = |line: &&&[u8]| line.starts_with(MARK.as_bytes());
    let differs = |at: usize| {
        let answer = oracle_lines.get(at);
        at >= owed || ours_lines.get(at) != answer || answer.filter(marked).is_some()
    };
    let line = (0..most).find(|&at| differs(at)).unwrap_or(most);
    Some(Difference {
        line,
        ours: ours.at(&ours_lines, line),
        oracle: oracle.at(&oracle_lines, line),
    })
}

impl Answers {
    /// Whether an answer begins with the mark.
    fn is_marked(&self) -> bool {
        self.lines()
            .iter()
            .any(|line| line.starts_with(MARK.as_bytes()))
    }

    /// The answers, each with its newline.
    fn lines(&self) -> Vec<&[u8]> {
        self.bytes.split_inclusive(|&byte| byte == b'\n').collect()
    }

    /// What this side has at a line, in words, with its exit status if that is part of the difference.
    fn at(&self, lines: &[&[u8]], line: usize) -> String {
        let mut text = match lines.get(line) {
            Some(answer) => match answer.strip_suffix(b"\n") {
                Some(answer) => answer.escape_ascii().to_string(),
                None => format!("{} (without a newline)", answer.escape_ascii()),
            },
            None => "(no answer)".to_string(),
        };
        if !self.status.success() {
            text += &format!(" ({})", self.status);
        }
        text
    }
}

#[cfg(test)]
mod tests {
    use super::*;

    /// The answers of a side that says what it is told.
    fn saying(text: &str) -> Answers {
        run(&["cat".to_string()], text.as_bytes(), true).expect("cat runs")
    }

    fn first(owed: usize, ours: &str, oracle: &str) -> Option<usize> {
        let found = first_difference(owed, &saying(ours), &saying(oracle));
        found.map(|difference| difference.line)
    }

    #[test]
    fn differences_are_found_at_their_line() {
        assert_eq!(first(2, "a\nb\n", "a\nb\n"), None);
        assert_eq!(first(2, "a\nc\n", "a\nb\n"), Some(1));
        assert_eq!(first(2, "a\n", "a\nb\n"), Some(1));
        assert_eq!(first(1, "a\nb\n", "a\nb\n"), Some(1));
        assert_eq!(first(2, "a\nb", "a\nb"), Some(2));
    }

    #[test]
    fn a_broken_promise_is_a_difference_of_two_that_agree() {
        let lines = ["compare 00 01 3", "image 00", "t", "image 01", "t"];
        let script = Script::new(lines.map(|line| line.as_bytes().to_vec()).into());
        let held = |answers: &str| {
            let sides = [saying(answers), saying(answers)];
            assert!(first_difference(5, &sides[0], &sides[1]).is_none());
            promises(&script, &sides[0], &sides[1])
        };
        assert_eq!(held("cells -\na\nb\na\nb\n").ok(), Some(1));
        assert_eq!(held("cells 000000\na\nb\na\nc\n").ok(), Some(0));
        let Err(broken) = held("cells -\na\nb\na\nc\n") else {
            panic!("a difference");
        };
        assert_eq!(broken.line, 4);
        assert_eq!(broken.ours, "c, and over the first table, at line 3: b");
        assert_eq!(broken.oracle, "c");
    }

    #[test]
    fn an_oracle_of_two_minds_differs_from_everybody() {
        assert_eq!(first(2, "a\n! b\n", "a\n! b\n"), Some(1));
        assert_eq!(first(2, "a\nb !\n", "a\nb !\n"), None);
    }
}
