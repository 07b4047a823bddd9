//! What an empty list of changed cells promises, held to a side's answers by themselves: wherever it finds no cell in
//! which two tables differ, and the script then brings the first table, makes calls, brings the second and makes the
//! same calls, the answers to the calls are the same, line by line, as far as the calls are.
//!
//! Assumes: there is an answer to each line. A script says by its lines where calls are to be held together, so that a
//! part of a script is held to it as the whole was.

/// What is answered where no cell differs.
const NO_CELL: &[u8] = b"cells -\n";

/// The lines of a call over the first table and of the same over the second, where their answers differ.
#[derive(Debug, PartialEq)]
pub struct Broken {
    pub first: usize,
    pub second: usize,
}

/// How many times the promise was kept, or where it was first broken.
pub fn kept(lines: &[Vec<u8>], answers: &[&[u8]]) -> Result<usize, Broken> {
    let mut kept = 0;
    for at in 0..lines.len() {
        if answers[at] != NO_CELL {
            continue;
        }
        let Some((count, second)) = equal_calls(&lines[at..]) else {
            continue;
        };
        // the tables come straight before the calls, and are answered too
        for call in 0..=count {
            let broken = Broken {
                first: at + 1 + call,
                second: at + second + call,
            };
            if answers[broken.first] != answers[broken.second] {
                return Err(broken);
            }
        }
        kept += 1;
    }
    Ok(kept)
}

/// Where lines compare two tables, bring the first, make calls, bring the second and make the same calls: how many are
/// the same from the first on, and the line that brings the second.
fn equal_calls(lines: &[Vec<u8>]) -> Option<(usize, usize)> {
    let words: Vec<&[u8]> = lines[0].split(|&byte| byte == b' ').collect();
    let [b"compare", one, other, _] = words[..] else {
        return None;
    };
    let brings = |at: usize, table: &[u8]| {
        let line = lines.get(at)?;
        (line.strip_prefix(b"image ")? == table).then_some(())
    };
    brings(1, one)?;
    let calls = lines[2..].iter().take_while(|line| is_call(line));
    let second = 2 + calls.clone().count();
    brings(second, other)?;
    let both = calls.zip(&lines[second + 1..]);
    let same = both.take_while(|(call, again)| call == again).count();
    (same > 0).then_some((same, second))
}

fn is_call(line: &[u8]) -> bool {
    matches!(line, [b'p' | b'r', b' ', ..] | [b't' | b'k'])
}

#[cfg(test)]
mod tests {
    use super::*;

    /// What is found in lines with these answers.
    fn found(lines: &[(&str, &str)]) -> Result<usize, Broken> {
        let answers: Vec<String> = lines
            .iter()
            .map(|(_, answer)| format!("{answer}\n"))
            .collect();
        let answers: Vec<&[u8]> = answers.iter().map(|answer| answer.as_bytes()).collect();
        let lines = lines.iter().map(|(line, _)| line.as_bytes().to_vec());
        kept(&lines.collect::<Vec<_>>(), &answers)
    }

    const KEPT: [(&str, &str); 8] = [
        ("t", "x"),
        ("compare 00 01 6", "cells -"),
        ("image 00", "accepted"),
        ("p 0 0", "a"),
        ("t", "b"),
        ("image 01", "accepted"),
        ("p 0 0", "a"),
        ("t", "b"),
    ];

    #[test]
    fn equal_answers_are_counted() {
        assert_eq!(found(&KEPT), Ok(1));
        assert_eq!(found(&[KEPT, KEPT].concat()), Ok(2));
    }

    #[test]
    fn an_answer_that_differs_is_found() {
        for (at, first) in [(5, 2), (6, 3), (7, 4)] {
            let mut lines = KEPT;
            lines[at].1 = "c";
            assert_eq!(found(&lines), Err(Broken { first, second: at }));
        }
    }

    #[test]
    fn nothing_is_promised_of_tables_that_differ_or_of_other_calls() {
        for (at, line) in [
            (1, ("compare 00 01 6", "cells 000000")),
            (1, ("compare 00 02 6", "cells -")),
            (1, ("compares 00 01 6", "cells -")),
            (2, ("image 02", "accepted")),
            (3, ("r 0 0", "a")),
            (4, ("room 64", "b")),
            (5, ("image 00", "accepted")),
            (6, ("k", "a")),
        ] {
            let mut lines = KEPT;
            lines[at] = line;
            lines[7].1 = "c";
            assert_eq!(found(&lines), Ok(0), "{line:?}");
        }
        assert_eq!(found(&KEPT[..6]), Ok(0));
        assert_eq!(found(&[KEPT[1], KEPT[2], KEPT[5]]), Ok(0));
    }

    #[test]
    fn calls_are_held_together_as_far_as_they_are_the_same() {
        let mut lines = KEPT;
        lines[7] = ("k", "c");
        assert_eq!(found(&lines), Ok(1));
        assert_eq!(found(&lines[..7]), Ok(1));
        lines[6].1 = "c";
        let broken = Broken {
            first: 3,
            second: 6,
        };
        assert_eq!(found(&lines), Err(broken));
    }
}
