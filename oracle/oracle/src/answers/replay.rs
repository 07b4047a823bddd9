//! `oracle replay`: reads a script from standard input, a command a line, and prints an answer a line.
//!
//! Assumes: nothing of the lines; one that cannot be read, or that the Rust has no counterpart of, is
//! answered with `?` and changes nothing.

use super::debouncer::Bounces;
use super::keyboard::Board;
use super::layout::Keys;
use super::{changes, codes, text, Adapter, UNREADABLE};
use crate::paper::areas;
use crate::{guard, words};
use std::io::{self, BufRead, BufWriter, Write};

/// Everything that lines change.
#[derive(Default)]
struct Replay {
    keys: Keys,
    bounces: Bounces,
    board: Board,
}

pub fn run() -> io::Result<()> {
    guard::silence();
    let mut replay = Replay::default();
    let mut input = io::stdin().lock();
    let mut output = BufWriter::new(io::stdout().lock());
    let mut line = Vec::new();
    while input.read_until(b'\n', &mut line)? > 0 {
        if line.last() == Some(&b'\n') {
            line.pop();
        }
        let answer = replay.answer(&line);
        writeln!(output, "{}", answer.as_deref().unwrap_or(UNREADABLE))?;
        line.clear();
    }
    output.flush()
}

impl Replay {
    /// The answer to a line, or nothing if it cannot be read.
    fn answer(&mut self, line: &[u8]) -> Option<String> {
        let words = words::split(line)?;
        let (command, rest) = words.split_first()?;
        match *command {
            b"codes" => match rest {
                [list] => Some(codes::report(&words::hex(list)?)),
                _ => None,
            },
            b"areas" => match rest {
                [operator, built_in] => {
                    Some(in_use(&words::hex(operator)?, &words::hex(built_in)?))
                }
                _ => None,
            },
            b"write" | b"print" => text::answer(command, rest),
            b"compare" => changes::answer(rest),
            b"debounce" | b"debouncer" | b"scan" | b"update" | b"picture" | b"space" => {
                self.bounces.answer(command, rest)
            }
            b"report" | b"get" | b"set" | b"rate" | b"idling" | b"clock" | b"descriptor" => {
                self.board.answer(command, rest)
            }
            _ => self.keys.answer(command, rest),
        }
    }
}

/// The table in use is the paper's to say: the Rust has no images.
fn in_use(operator: &[u8], built_in: &[u8]) -> String {
    match areas::in_use(operator, built_in) {
        Ok(found) => found.to_string(),
        Err(refusal) => refusal.to_string(),
    }
}

/// The answers to a script.
#[cfg(test)]
pub fn answers(script: &crate::script::Script) -> Vec<String> {
    let mut replay = Replay::default();
    let answer = |line: &Vec<u8>| {
        let answer = replay.answer(line);
        answer.unwrap_or_else(|| UNREADABLE.to_string())
    };
    script.lines.iter().map(answer).collect()
}

#[cfg(test)]
mod tests {
    use super::*;
    use crate::paper::image::Z;
    use crate::paper::text::Z_TEXT;
    use crate::script::Script;

    /// The answers to lines, given one after the other.
    fn answers(lines: &[&str]) -> Vec<String> {
        let lines = lines.iter().map(|line| line.as_bytes().to_vec());
        super::answers(&Script::new(lines.collect()))
    }

    #[test]
    fn areas_are_answered() {
        let z = words::to_hex(&Z);
        let short = &z[..102];
        for (line, answer) in [
            (format!("areas {z} -"), "operator 52"),
            (format!("areas {z}ff {z}"), "operator 52"),
            (format!("areas - {z}00"), "built-in 52"),
            (format!("areas {short} {z}"), "built-in 52"),
            (format!("areas {short} -"), "refused 3 0"),
            ("areas - -".to_string(), "refused 1 0"),
            ("areas -".to_string(), UNREADABLE),
            (format!("areas {z} {z} {z}"), UNREADABLE),
            (format!("areas {z} {short}0"), UNREADABLE),
        ] {
            assert_eq!(answers(&[&line]), [answer], "{line}");
        }
    }

    #[test]
    fn areas_leave_the_image_and_its_layout() {
        let z = words::to_hex(&Z);
        let (image, areas) = (format!("image {z}"), format!("areas - {z}"));
        let got = answers(&[&image, "p 0 0", "t", &areas, "t", "areas - -", "t"]);
        assert_eq!([&got[3], &got[5]], ["built-in 52", "refused 1 0"]);
        assert_eq!(got[4], "codes - | acted - | decided - | dropped 0");
        assert_eq!(got[6], "codes e0 | acted - | decided hold 0 0 | dropped 0");
        assert_eq!(answers(&[&areas, "t"]), ["built-in 52", "refused 1 0"]);
    }

    #[test]
    fn texts_are_written_and_images_printed() {
        let (z, text) = (words::to_hex(&Z), words::to_hex(Z_TEXT.as_bytes()));
        for (line, answer) in [
            (format!("write {text} 52"), format!("image {z}")),
            (format!("write {text} 00052"), format!("image {z}")),
            (format!("print {z} 49"), format!("text {text}")),
            (format!("print {z} 65535"), format!("text {text}")),
        ] {
            assert_eq!(answers(&[&line]), [answer], "{line}");
        }
        for (line, answer) in [
            (format!("write {text} 51"), "refused 12 0"),
            (format!("write {text}20 52"), "refused 15 7"),
            ("write - 0".to_string(), "refused 15 1"),
            (format!("print {z} 48"), "refused 12 0"),
            (format!("print {z}00 0"), "refused 3 0"),
            ("print - 0".to_string(), "refused 1 0"),
        ] {
            assert_eq!(answers(&[&line]), [answer], "{line}");
        }
    }

    #[test]
    fn lines_of_texts_are_strict() {
        let text = words::to_hex(Z_TEXT.as_bytes());
        for line in [
            "write".to_string(),
            format!("write {text}"),
            format!("write {text} 52 52"),
            format!("write {text} 65536"),
            format!("write {text} 000052"),
            format!("write {text} -"),
            format!("write {text} 3a"),
            format!("write {text}0 52"),
            format!("write {}A 52", &text[1..]),
            format!("write  {text} 52"),
            format!("write 52 {text}"),
            format!("prints {text} 52"),
            "print -".to_string(),
        ] {
            assert_eq!(answers(&[&line]), [UNREADABLE], "{line}");
        }
        let long = |zeros: usize| format!("write {} 0", "30".repeat(zeros));
        // two of 65,536 bytes, and one of 65,537
        assert_eq!(answers(&[&long(32_764)]), ["refused 15 1"]);
        assert_eq!(answers(&[&format!("{}00", long(32_763))]), ["refused 15 1"]);
        assert_eq!(answers(&[&format!("{}0", long(32_764))]), [UNREADABLE]);
    }

    #[test]
    fn texts_leave_the_image_and_its_layout() {
        let image = words::to_hex(&Z);
        let write = format!("write {} 52", words::to_hex(Z_TEXT.as_bytes()));
        let print = format!("print {image} 49");
        let image = format!("image {image}");
        let got = answers(&[&image, "p 0 0", "t", &write, "t", &print, "write - 0", "t"]);
        assert_eq!(got[4], "codes - | acted - | decided - | dropped 0");
        assert_eq!(got[7], "codes e0 | acted - | decided hold 0 0 | dropped 0");
        assert_eq!(answers(&[&write, "t"])[1], "refused 1 0");
    }

    #[test]
    fn tables_are_compared() {
        let z = words::to_hex(&Z);
        // the second cell names the other code
        let other = z.replacen("03000100", "03000200", 1);
        for (line, answer) in [
            (format!("compare {z} {z} 6"), "cells -"),
            (format!("compare {z} {other} 6"), "cells 000001"),
            (format!("compare {other} {z} 00006"), "cells 000001"),
            (format!("compare {z} {z} 5"), "refused 12 0"),
            (format!("compare {z} {z}00 6"), "refused 3 0"),
            (format!("compare - {z} 65535"), "refused 1 0"),
            ("compare - - 0".to_string(), "refused 1 0"),
        ] {
            assert_eq!(answers(&[&line]), [answer], "{line}");
        }
    }

    #[test]
    fn lines_that_compare_are_strict() {
        let z = words::to_hex(&Z);
        for line in [
            "compare".to_string(),
            format!("compare {z} {z}"),
            format!("compare {z} 6"),
            format!("compare {z} {z} 6 6"),
            format!("compare {z} {z} 65536"),
            format!("compare {z} {z} 000006"),
            format!("compare {z} {z} -"),
            format!("compare {z} {z}0 6"),
            format!("compare {z}0 {z} 6"),
            format!("compare {}A {z} 6", &z[1..]),
            format!("compare {z}  {z} 6"),
            format!("compares {z} {z} 6"),
        ] {
            assert_eq!(answers(&[&line]), [UNREADABLE], "{line}");
        }
    }

    #[test]
    fn comparing_leaves_the_image_and_its_layout() {
        let z = words::to_hex(&Z);
        let (image, compare) = (format!("image {z}"), format!("compare {z} {z} 6"));
        let got = answers(&[&image, "p 0 0", "t", &compare, "t", "compare - - 0", "t"]);
        assert_eq!([&got[3], &got[5]], ["cells -", "refused 1 0"]);
        assert_eq!(got[4], "codes - | acted - | decided - | dropped 0");
        assert_eq!(got[6], "codes e0 | acted - | decided hold 0 0 | dropped 0");
        assert_eq!(answers(&[&compare, "t"]), ["cells -", "refused 1 0"]);
    }
}
