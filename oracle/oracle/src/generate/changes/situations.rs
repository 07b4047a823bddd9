//! What comes up in scripts of `compare` lines, read off their lines and the paper's check, and what must. For tests
//! alone.
//!
//! Assumes: a line is read as `replay` reads it.

use super::Changes;
use crate::generate::kind::all;
use crate::paper::changes::differing;
use crate::paper::image::{check, Parts, Refusal};
use crate::words;
use std::cmp::Ordering;
use std::collections::BTreeSet;

/// Wanted situations that stand for themselves.
const OTHERS: [&str; 22] = [
    "unequal: only the layers",
    "unequal: only the rows",
    "unequal: only the columns",
    "unequal: as many cells",
    "unequal: permuted",
    "unequal: room for none",
    "unequal: room for the first",
    "no cell: the same bytes but for a word",
    "no cell: an empty list elsewhere",
    "no cell: records in another order alone",
    "one cell: the same bytes but for a word",
    "no cell: of the most cells",
    "one cell: of the most cells",
    "several: of the most cells",
    "no cell: 256 records",
    "one cell: 256 records",
    "no cell: 1024 entries",
    "one cell: 1024 entries",
    "no cell: the smallest",
    "one cell: the smallest",
    "no cell: the largest",
    "one cell: the largest",
];

fn sizes(parts: &Parts) -> [usize; 3] {
    [parts.layers(), parts.rows, parts.columns]
}

/// How a buffer's length stands to the one that is asked for.
fn of_room(room: usize, asked: usize) -> &'static str {
    match room {
        0 => "none",
        _ if room == asked => "just enough",
        _ if room + 1 == asked => "one less",
        _ if room < asked => "fewer",
        65_535 => "the most",
        _ => "more",
    }
}

/// Where an image is refused: the refusals of both, whether the headers have the same sizes, and the buffer.
fn of_refused(
    images: [&[u8]; 2],
    checked: [&Result<Parts, Refusal>; 2],
    room: usize,
) -> Vec<String> {
    let numbers = checked.map(|checked| checked.as_ref().map_or_else(|r| r.number, |_| 0));
    let [one, other] = numbers;
    let sizes = match images[0].get(2..8) == images[1].get(2..8) {
        true => "equal",
        false => "unequal",
    };
    let room = if room == 0 { "no room" } else { "some room" };
    vec![
        format!("refused {one} and {other}"),
        format!("refused {other} in the second, {sizes} sizes, {room}"),
        format!("refused {one} in the first, {sizes} sizes, {room}"),
    ]
}

fn of_unequal(one: [usize; 3], other: [usize; 3], room: usize) -> Vec<&'static str> {
    let mut found = Vec::new();
    let differ: Vec<usize> = (0..3).filter(|&at| one[at] != other[at]).collect();
    match differ[..] {
        [0] => found.push("unequal: only the layers"),
        [1] => found.push("unequal: only the rows"),
        [2] => found.push("unequal: only the columns"),
        _ => (),
    }
    let cells = one.iter().product::<usize>();
    if cells == other.iter().product() {
        found.push("unequal: as many cells");
    }
    let [mut sorted, mut others] = [one, other];
    sorted.sort();
    others.sort();
    if sorted == others {
        found.push("unequal: permuted");
    }
    match room {
        0 => found.push("unequal: room for none"),
        _ if room == 3 * cells => found.push("unequal: room for the first"),
        _ => (),
    }
    found
}

/// How two tables are laid out, the one beside the other.
fn of_layouts(images: [&[u8]; 2], one: &Parts, other: &Parts) -> Vec<String> {
    let records = other.records.len().cmp(&one.records.len());
    let entries = other.list.len().cmp(&one.list.len());
    let mut found = vec![format!("records {records:?}, entries {entries:?}")];
    let words = images[0].chunks(2).zip(images[1].chunks(2));
    let changed = words.filter(|(one, other)| one != other).count();
    if images[0].len() == images[1].len() && changed == 1 {
        found.push("the same bytes but for a word".to_string());
    }
    let [mut sorted, mut others] = [one, other].map(|parts| parts.records.clone());
    sorted.sort();
    others.sort();
    if one.records != other.records && sorted == others {
        found.push("records in another order alone".to_string());
    }
    let moved = |(one, other): (&[u16; 4], &[u16; 4])| match (one, other) {
        ([3, first, 0, 0], [3, other, 0, 0]) => first != other,
        ([4, first, 0, 0], [4, other, 0, 0]) => first != other,
        _ => false,
    };
    if one.records.iter().zip(&other.records).any(moved) {
        found.push("an empty list elsewhere".to_string());
    }
    found
}

/// What is as large or as small in a table as it can be.
fn of_limits(parts: &Parts) -> Vec<String> {
    let counts = (parts.cells.len(), parts.records.len(), parts.list.len());
    let (cells, records, entries) = counts;
    let limits = [
        (cells == 1_024, "of the most cells"),
        (records == 256, "256 records"),
        (entries == 1_024, "1024 entries"),
        (counts == (1_024, 256, 1_024), "the largest"),
        (counts == (1, 1, 0), "the smallest"),
    ];
    let found = limits.iter().filter(|(is_so, _)| *is_so);
    found.map(|(_, name)| name.to_string()).collect()
}

fn of_pair(one: &[u8], other: &[u8], room: usize) -> Vec<String> {
    let checked = [one, other].map(check);
    let [Ok(first), Ok(second)] = &checked else {
        return of_refused([one, other], [&checked[0], &checked[1]], room);
    };
    let sizes = [first, second].map(sizes);
    if sizes[0] != sizes[1] {
        let found = of_unequal(sizes[0], sizes[1], room);
        return found.into_iter().map(str::to_string).collect();
    }
    let listed = differing(one, other, 65_535).expect("accepted").len();
    let answer = match listed {
        0 => "no cell",
        3 => "one cell",
        _ => "several",
    };
    let names = [of_layouts([one, other], first, second), of_limits(first)].concat();
    let mut found: Vec<String> = (names.iter())
        .map(|name| format!("{answer}: {name}"))
        .collect();
    let same = if listed == 0 { "the same" } else { "changed" };
    let room = of_room(room, 3 * first.cells.len());
    found.push(format!("{same}, room: {room}"));
    found
}

fn wanted_refusals() -> Vec<String> {
    let mut wanted = Vec::new();
    for one in 0..=9 {
        let others = (0..=9).filter(|other| (one, *other) != (0, 0));
        wanted.extend(others.map(|other| format!("refused {one} and {other}")));
    }
    for place in ["first", "second"] {
        for room in ["no room", "some room"] {
            let unequal = |n: u8| format!("refused {n} in the {place}, unequal sizes, {room}");
            wanted.extend((1..=9).map(unequal));
            // the others are not made of a table with the sizes of the second
            let equal = |n: u8| format!("refused {n} in the {place}, equal sizes, {room}");
            wanted.extend((4..=9).map(equal));
        }
    }
    wanted
}

fn wanted() -> Vec<String> {
    let mut wanted: Vec<String> = OTHERS.map(str::to_string).into();
    wanted.extend(wanted_refusals());
    for same in ["the same", "changed"] {
        let short = ["none", "one less", "fewer"];
        let enough = ["just enough", "the most", "more"];
        let rooms = short.into_iter().chain(enough);
        wanted.extend(rooms.map(|room| format!("{same}, room: {room}")));
    }
    let each = [Ordering::Less, Ordering::Equal, Ordering::Greater];
    for answer in ["no cell", "one cell", "several"] {
        for records in each {
            let name = |entries| format!("{answer}: records {records:?}, entries {entries:?}");
            wanted.extend(each.map(name));
        }
    }
    wanted
}

#[test]
fn every_situation_comes_up() {
    let mut found: BTreeSet<String> = BTreeSet::new();
    let scripts = all(&mut Changes::new(40_000, 1));
    // those of the opening stand there in so many words
    for line in scripts[1..].iter().flat_map(|script| &script.lines) {
        let words = words::split(line).expect("a line of words");
        let [b"compare", one, other, room] = words[..] else {
            continue;
        };
        let [one, other] = [one, other].map(|word| words::hex(word).expect("hex"));
        let room = words::number(room).expect("a number").into();
        found.extend(of_pair(&one, &other, room));
    }
    let missing: Vec<String> = wanted()
        .into_iter()
        .filter(|w| !found.contains(w))
        .collect();
    assert!(missing.is_empty(), "{missing:?}");
}
