//! What comes up in scripts of texts, read off their lines and the paper's answers, and what must. For tests alone.
//!
//! Assumes: a line is read as `replay` reads it; what cannot be read is passed over.

use super::{Texts, ROOMY};
use crate::generate::kind::all;
use crate::paper::image::length;
use crate::paper::text::{print, write};
use crate::words;
use std::collections::BTreeSet;

/// Ways in which a line of a text does not fit, by what stands in it.
const FAULTS: [&str; 17] = [
    "a tab",
    "a carriage return",
    "a sign",
    "a letter",
    "a dot",
    "a zero byte",
    "a high byte",
    "no number",
    "spaces alone",
    "a space before",
    "a space behind",
    "65536",
    "70000",
    "99999",
    "thirty digits",
    "four numbers",
    "other numbers",
];

/// The bytes of the largest image there is, and of the smallest.
const LARGEST: usize = 6_160;
const SMALLEST: usize = 26;

/// Wanted situations that stand for themselves.
const OTHERS: [&str; 44] = [
    "no text",
    "newlines alone",
    "missing: all but the counts",
    "missing: the last line",
    "missing: a line before it",
    "unclosed: the first line",
    "unclosed: the last line",
    "unclosed: a part of a line",
    "left over: an empty line",
    "left over: a line of one number",
    "left over: a line of four numbers",
    "left over: a space",
    "left over: a digit",
    "left over: an odd byte",
    "asked for 65536 lines and more",
    "asked for all lines that 32 bits count",
    "accepted with two spaces",
    "accepted with thirty spaces",
    "accepted with a zero in front",
    "accepted with thirty digits",
    "accepted with 65535",
    "accepted with 65535 behind a zero",
    "accepted and the largest",
    "accepted and the smallest",
    "written into just enough",
    "written into more",
    "written into one less",
    "written into none",
    "written into fewer",
    "15 before 2",
    "15 before 12",
    "15 before 2 and 12",
    "2 before 12",
    "printed into just enough",
    "printed into more",
    "printed into one less",
    "printed into none",
    "printed into fewer",
    "printed and the largest",
    "printed: 3 for one more byte",
    "printed: 3 for one byte less",
    "printed: a refusal before 12",
    "two spaces and a fault of the image",
    "an illegal count past 255",
];

/// The lines of a text, the last of them whatever stands behind the last newline.
fn lines(text: &[u8]) -> Vec<&[u8]> {
    text.split(|&byte| byte == b'\n').collect()
}

fn words_of(line: &[u8]) -> Vec<&[u8]> {
    let words = line.split(|&byte| byte == b' ');
    words.filter(|word| !word.is_empty()).collect()
}

/// The counts of a text, if its first line is in form.
fn counts(text: &[u8]) -> Option<[usize; 5]> {
    let first = lines(text)[0];
    let read = |word: &[u8]| std::str::from_utf8(word).ok()?.parse::<u16>().ok();
    let read: Option<Vec<u16>> = words_of(first).into_iter().map(read).collect();
    let counts: [u16; 5] = read?.try_into().ok()?;
    Some(counts.map(usize::from))
}

fn are_legal([layers, rows, columns, records, entries]: [usize; 5]) -> bool {
    (1..=8).contains(&layers)
        && (1..=8).contains(&rows)
        && (1..=16).contains(&columns)
        && (1..=256).contains(&records)
        && entries <= 1_024
}

fn image_length([layers, rows, columns, records, entries]: [usize; 5]) -> usize {
    16 + 2 * layers * rows * columns + 8 * records + 2 * entries
}

/// What is wrong with a line that does not fit.
fn fault_of(line: &[u8]) -> &'static str {
    let has = |odd: &dyn Fn(u8) -> bool| line.iter().any(|&byte| odd(byte));
    let word = |word: &str| words_of(line).contains(&word.as_bytes());
    let found = [
        has(&|byte| byte == b'\t'),
        has(&|byte| byte == b'\r'),
        has(&|byte| matches!(byte, b'+' | b'-')),
        has(&|byte| byte.is_ascii_alphabetic()),
        has(&|byte| byte == b'.'),
        has(&|byte| byte == 0),
        has(&|byte| byte >= 0x80),
        line.is_empty(),
        has(&|byte| byte == b' ') && !has(&|byte| byte != b' '),
        line.starts_with(b" "),
        line.ends_with(b" "),
        word("65536"),
        word("70000"),
        word("99999"),
        words_of(line).iter().any(|word| word.len() >= 30),
        words_of(line).len() == 4,
        true,
    ];
    let at = found.iter().position(|&found| found);
    FAULTS[at.expect("the last is always found")]
}

fn of_misfit(text: &[u8], place: usize, room: usize) -> Vec<String> {
    let lines = lines(text);
    let closed = lines.len() - 1;
    let counts = counts(text);
    let asked = counts.map(|[l, r, _, a, e]| 1 + l * r + a + e);
    let mut found = vec![match asked {
        Some(asked) if place > asked => of_rest(&lines[asked..]),
        _ if place > closed => of_missing(lines[closed], place, asked),
        _ => {
            let which = match place {
                1 => "first",
                _ if place == closed => "last",
                _ => "middle",
            };
            format!("{which} {}", fault_of(lines[place - 1]))
        }
    }];
    if asked > Some(65_536) {
        found.push("asked for 65536 lines and more".to_string());
    }
    if asked == Some(1 << 32) {
        found.push("asked for all lines that 32 bits count".to_string());
    }
    found.extend(counts.map(|counts| of_order(counts, room)));
    found
}

/// What would be told if the lines did fit.
fn of_order(counts: [usize; 5], room: usize) -> String {
    let illegal = !are_legal(counts);
    let short = room < image_length(counts);
    let later = match (illegal, short) {
        (true, true) => "2 and 12",
        (true, false) => "2",
        (false, true) => "12",
        (false, false) => "nothing",
    };
    format!("15 before {later}")
}

/// What is left over.
fn of_rest(rest: &[&[u8]]) -> String {
    let what = match (rest[0], rest.len()) {
        (b"", _) => "an empty line",
        (b" ", 1) => "a space",
        ([b'0'..=b'9'], 1) => "a digit",
        ([_], 1) => "an odd byte",
        (line, 2) if words_of(line).len() == 1 => "a line of one number",
        (line, 2) if words_of(line).len() == 4 => "a line of four numbers",
        _ => "other lines",
    };
    format!("left over: {what}")
}

/// What is missing where the text ends, and with it what stands behind the last newline.
fn of_missing(tail: &[u8], place: usize, asked: Option<usize>) -> String {
    let unclosed = !tail.is_empty();
    let what = match (unclosed, place) {
        (false, 2) => "missing: all but the counts",
        (false, _) if asked == Some(place) => "missing: the last line",
        (false, _) => "missing: a line before it",
        (true, 1) if words_of(tail).len() == 5 => "unclosed: the first line",
        (true, _) if asked == Some(place) && [1, 4].contains(&words_of(tail).len()) => {
            "unclosed: the last line"
        }
        (true, _) => "unclosed: a part of a line",
    };
    what.to_string()
}

/// What stands in a text that is in form.
fn of_spelling(text: &[u8]) -> Vec<&'static str> {
    let words: Vec<&[u8]> = lines(text).into_iter().flat_map(words_of).collect();
    let has = |part: &[u8]| text.windows(part.len()).any(|window| window == part);
    let mut found = Vec::new();
    let mut add = |is: bool, what: &'static str| found.extend(is.then_some(what));
    add(has(b"  "), "accepted with two spaces");
    add(has(&[b' '; 30]), "accepted with thirty spaces");
    let zeros = |word: &&[u8]| word.len() > 1 && word[0] == b'0';
    add(words.iter().any(zeros), "accepted with a zero in front");
    add(
        words.iter().any(|word| word.len() >= 30),
        "accepted with thirty digits",
    );
    add(words.contains(&&b"65535"[..]), "accepted with 65535");
    let behind_zero = |word: &&[u8]| word.ends_with(b"065535");
    add(
        words.iter().any(behind_zero),
        "accepted with 65535 behind a zero",
    );
    found
}

fn of_room(what: &str, room: usize, length: usize) -> String {
    let into = match room {
        _ if room == length => "just enough",
        _ if room > length => "more",
        0 => "none",
        _ if room + 1 == length => "one less",
        _ => "fewer",
    };
    format!("{what} into {into}")
}

/// Which counts break their rules, and how.
fn of_counts(counts: [usize; 5]) -> Vec<String> {
    let mut found = Vec::new();
    let limits = [("L", 9), ("R", 9), ("C", 17), ("A", 257), ("E", 1_025)];
    for (count, (name, past)) in counts.into_iter().zip(limits) {
        if [0, past, 65_535].contains(&count) {
            found.push(format!("illegal {name} {count}"));
        }
        if past < 256 && (256..65_535).contains(&count) {
            found.push("an illegal count past 255".to_string());
        }
    }
    found
}

fn of_text(text: &[u8], room: usize) -> Vec<String> {
    let mut found = match write(text, room) {
        Ok(image) => of_accepted(text, room, image.len()),
        Err(refusal) if refusal.number == 15 => of_misfit(text, refusal.place, room),
        Err(refusal) => of_refused(text, room, refusal.number),
    };
    if text.is_empty() {
        found.push("no text".to_string());
    } else if text.iter().all(|&byte| byte == b'\n') {
        found.push("newlines alone".to_string());
    }
    found
}

fn of_accepted(text: &[u8], room: usize, length: usize) -> Vec<String> {
    let mut found = vec![of_room("written", room, length)];
    found.extend(of_spelling(text).into_iter().map(str::to_string));
    match length {
        LARGEST => found.push("accepted and the largest".to_string()),
        SMALLEST => found.push("accepted and the smallest".to_string()),
        _ => (),
    }
    found
}

/// A text whose lines fit, and so its counts can be read.
fn of_refused(text: &[u8], room: usize, number: u8) -> Vec<String> {
    let counts = counts(text).expect("lines that fit");
    let length = image_length(counts);
    let mut found = Vec::new();
    match number {
        12 => found.push(of_room("written", room, length)),
        _ => found.extend((room < length).then(|| format!("{number} before 12"))),
    }
    if number == 2 {
        found.extend(of_counts(counts));
    } else if text.windows(2).any(|window| window == b"  ") {
        found.push("two spaces and a fault of the image".to_string());
    }
    found
}

fn of_image(image: &[u8], room: usize) -> Vec<String> {
    let whole = print(image, ROOMY);
    let mut found = Vec::new();
    match &whole {
        Ok(text) => {
            found.push(of_room("printed", room, text.len()));
            found.extend((image.len() == LARGEST).then(|| "printed and the largest".to_string()));
        }
        Err(refusal) => {
            found.push(format!("printed: refused {}", refusal.number));
            found.extend((room == 0).then(|| "printed: a refusal before 12".to_string()));
        }
    }
    if let Ok(length) = length(image) {
        if image.len() == length + 1 {
            found.push("printed: 3 for one more byte".to_string());
        } else if image.len() + 1 == length {
            found.push("printed: 3 for one byte less".to_string());
        }
    }
    found
}

fn wanted() -> Vec<String> {
    let mut wanted: Vec<String> = OTHERS.map(str::to_string).into();
    for place in ["first", "middle", "last"] {
        let faults = FAULTS.iter().map(|fault| format!("{place} {fault}"));
        wanted.extend(faults);
    }
    wanted.extend((1..=9).map(|number| format!("printed: refused {number}")));
    wanted.extend((4..=9).map(|number| format!("{number} before 12")));
    for name in ["L", "R", "C"] {
        wanted.extend([0, 65_535].map(|count| format!("illegal {name} {count}")));
    }
    wanted.extend(
        ["L 9", "R 9", "C 17", "A 0", "A 257", "E 1025"].map(|count| format!("illegal {count}")),
    );
    wanted
}

#[test]
fn every_situation_comes_up() {
    let mut found: BTreeSet<String> = BTreeSet::new();
    let scripts = all(&mut Texts::new(30_000, 1));
    // those of the opening stand there in so many words
    for line in scripts[1..].iter().flat_map(|script| &script.lines) {
        let words = words::split(line).expect("a line of words");
        let bytes = words::hex(words[1]).expect("hex");
        let room = words::number(words[2]).expect("a number").into();
        found.extend(match words[0] {
            b"write" => of_text(&bytes, room),
            _ => of_image(&bytes, room),
        });
    }
    let missing: Vec<String> = wanted()
        .into_iter()
        .filter(|w| !found.contains(w))
        .collect();
    assert!(missing.is_empty(), "{missing:?}");
}
