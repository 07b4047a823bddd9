//! `oracle panel`: what the port's program `panel` must print for an image and lines.
//!
//! Assumes: the answers of `replay` are right (the layout's lines are answered by the Rust and the paper side by
//! side, the reports by the Rust), and the two programs read a line's words alike but for its length.

use super::layout::Keys;
use super::{codes, Adapter, UNREADABLE};
use crate::{guard, words};
use std::fs;
use std::io::{self, Read, Write};

/// What `panel` must print.
pub fn answers(image: &[u8], input: &[u8]) -> String {
    let mut keys = Keys::default();
    let hex = words::to_hex(image);
    let brought = keys
        .answer(b"image", &[hex.as_bytes()])
        .expect("hex is read");
    if brought != "accepted" {
        return brought + "\n";
    }
    let mut lines: Vec<&[u8]> = input.split(|&byte| byte == b'\n').collect();
    if lines.last().is_some_and(|line| line.is_empty()) {
        lines.pop(); // nothing is past the last newline
    }
    lines
        .iter()
        .map(|line| answer(&mut keys, line) + "\n")
        .collect()
}

fn answer(keys: &mut Keys, line: &[u8]) -> String {
    let told = match words::split(line).as_deref() {
        Some([b"t"]) => keys.answer(b"t", &[]),
        Some([way @ (b"p" | b"r"), i, j]) => keys.answer(way, &[i, j]),
        _ => None,
    };
    told.map_or(UNREADABLE.to_string(), |told| report(&told))
}

/// The report of an answer's codes; an answer without codes as it is.
fn report(told: &str) -> String {
    let list = told
        .strip_prefix("codes ")
        .and_then(|rest| rest.split(' ').next());
    match list.and_then(|list| words::hex(list.as_bytes())) {
        Some(list) => codes::report(&list),
        None => told.to_string(),
    }
}

/// `oracle panel IMAGE`, lines from standard input.
pub fn run(path: &str) -> io::Result<()> {
    guard::silence();
    let image = fs::read(path)?;
    let mut input = Vec::new();
    io::stdin().lock().read_to_end(&mut input)?;
    io::stdout()
        .lock()
        .write_all(answers(&image, &input).as_bytes())
}

#[cfg(test)]
mod tests {
    use super::*;
    use crate::paper::image::Z;

    #[test]
    fn the_five_lines_of_document_01() {
        let told = answers(&Z, b"p 0 0\nt\nt\nr 0 0\nt\n");
        let none = "0000000000000000\n";
        assert_eq!(
            told,
            [none, none, none, "00002c0000000000\n", none].concat()
        );
    }

    #[test]
    fn a_refusal_stands_alone() {
        assert_eq!(answers(&Z[..51], b"t\nt\n"), "refused 3 0\n");
        assert_eq!(
            answers(&[Z.to_vec(), vec![0; 9000]].concat(), b"t"),
            "refused 3 0\n"
        );
    }
}
