//! An entry of docs/DIFFERENCES.md: what the Rust did, and what is asked of the port.
//!
//! Assumes: what is asked is a line of `replay`.

use crate::guard::Guarded;
use crate::words;

/// An entry: its name, what the Rust did, and what is asked of the port.
pub struct Entry {
    pub name: &'static str,
    /// A line for each thing that was done and what came of it, or why the Rust cannot be given it.
    pub rust: Vec<String>,
    pub here: Vec<Asked>,
    /// What there is to say beside the answers, or where no line of `replay` shows it.
    pub note: &'static str,
}

/// A line of `replay`, and the words that tell it.
pub struct Asked {
    pub label: String,
    pub line: String,
}

impl Entry {
    pub fn new(name: &'static str, rust: Vec<String>, here: Vec<Asked>) -> Self {
        Entry {
            name,
            rust,
            here,
            note: "",
        }
    }

    /// An input that the Rust's types have no value for.
    pub fn unwritable(name: &'static str, why: &str, here: Vec<Asked>) -> Self {
        Entry::new(name, vec![format!("cannot be written: {why}")], here)
    }

    pub fn noting(self, note: &'static str) -> Self {
        Entry { note, ..self }
    }

    pub fn text(&self, answers: &[String]) -> String {
        let rust = self.rust.iter().map(|line| format!("  Rust  {line}\n"));
        let asked = self.here.iter().zip(answers);
        let here = asked.map(|(asked, answer)| format!("  here  {}: {answer}\n", asked.label));
        let note = match self.note {
            "" => String::new(),
            note => format!("  here  {note}\n"),
        };
        let lines: String = rust.chain(here).collect();
        format!("{}\n{lines}{note}", self.name)
    }
}

impl Asked {
    pub fn image(label: String, bytes: &[u8]) -> Self {
        Asked {
            label,
            line: format!("image {}", words::to_hex(bytes)),
        }
    }
}

/// What code of the Rust yields, or the message of its panic.
pub fn attempt<R>(code: impl FnOnce() -> R) -> Result<R, String> {
    let mut yielded = None;
    let keep = |_: &mut ()| {
        yielded = Some(code());
        String::new()
    };
    Guarded::new(()).attempt(keep)?;
    Ok(yielded.expect("code that does not panic yields"))
}

/// Lines that tell themselves.
pub fn lines(lines: &[&str]) -> Vec<Asked> {
    let asked = |line: &&str| Asked {
        label: line.to_string(),
        line: line.to_string(),
    };
    lines.iter().map(asked).collect()
}
