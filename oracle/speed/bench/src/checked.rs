//! The tables that the image check is counted on, and those that grow.
//!
//! Assumes nothing.

use super::case::{Case, TICK};
use super::tables::{self, image};

type Records = Vec<[usize; 4]>;

/// As many cells as there can be.
const LARGEST: [usize; 3] = [8, 8, 16];

fn filled(sizes: [usize; 3], records: Records, list: &[usize]) -> Vec<u8> {
    let cells = vec![records.len() - 1; sizes.iter().product()];
    image(sizes, &cells, &records, list)
}

/// The records, and then `last` up to 256.
fn full(mut records: Records, last: [usize; 4], list: &[usize]) -> Vec<u8> {
    records.resize(256, last);
    filled(LARGEST, records, list)
}

/// Record n names n - 1 up to record 63, and each later one names record 62.
fn chains() -> Vec<u8> {
    let mut records = chain(64);
    records.resize(256, [4, 62, 1, 0]);
    filled(LARGEST, records, &(0..63).collect::<Vec<usize>>())
}

/// A NoOp, and MultipleActions that each name the record before.
fn chain(count: usize) -> Records {
    let links = (1..count).map(|n| [4, n - 1, 1, 0]);
    [[0; 4]].into_iter().chain(links).collect()
}

/// Record 0 is an empty MultipleActions, records 1 to 3 name it and the record before; each later one names record 3
/// nine times, which is as often as the weight allows.
fn nested() -> Vec<u8> {
    let records = vec![[4, 0, 0, 0], [4, 0, 2, 0], [4, 2, 2, 0], [4, 4, 2, 0]];
    let list = [&[0, 0, 0, 1, 0, 2][..], &[3; 9]].concat();
    full(records, [4, 6, 9, 0], &list)
}

/// Record 1 names record 0, a NoOp; each later one names record 1 as often as the weight allows.
fn pairs() -> Vec<u8> {
    let list = [&[0][..], &[1; 31]].concat();
    full(vec![[0; 4], [4, 0, 1, 0]], [4, 1, 31, 0], &list)
}

/// Record 0 is an empty MultipleActions, records 1 to 12 each name the one before; each later one names record 12 four times
/// and record 10 once, which is as much as the weight allows.
fn ropes() -> Vec<u8> {
    let mut records = chain(13);
    records[0] = [4, 0, 0, 0];
    let list = [&(0..12).collect::<Vec<usize>>()[..], &[12, 12, 12, 12, 10]].concat();
    full(records, [4, 12, 5, 0], &list)
}

fn single() -> Vec<(&'static str, Vec<u8>)> {
    let empty = [4, 0, 0, 0];
    let of_63 = [4, 0, 63, 0];
    vec![
        ("Z of document 01", tables::z()),
        (
            "ordinary: 4 layers of 4 × 12 cells; 60 records of all kinds",
            tables::ordinary(),
        ),
        (
            "largest: 255 MultipleKeyCodes of 63 codes",
            full(vec![[0; 4]], [3, 0, 63, 0], &[4; 63]),
        ),
        (
            "largest: 255 MultipleActions in chains up to 64 deep",
            chains(),
        ),
        (
            "largest: 255 MultipleActions of 63 NoOp",
            full(vec![[0; 4]], of_63, &[0; 63]),
        ),
        (
            "largest: 254 MultipleActions that each name an empty one 63 times",
            full(vec![[0; 4], empty], of_63, &[1; 63]),
        ),
        (
            "largest: 252 MultipleActions that each name nine times one nested three deep",
            nested(),
        ),
        (
            "largest: 254 MultipleActions that each name 31 times one that names a NoOp",
            pairs(),
        ),
        (
            "largest: 243 MultipleActions that each name four times a chain of thirteen, and once its eleventh",
            ropes(),
        ),
    ]
}

fn of_cells() -> Vec<(&'static str, usize, Vec<u8>)> {
    let sizes = [[1, 1, 1], [1, 8, 16], [2, 8, 16], [4, 8, 16], [8, 8, 16]];
    let table = |sizes: [usize; 3]| filled(sizes, vec![[0; 4]], &[]);
    sizes
        .map(|sizes| {
            (
                "cells that name a NoOp",
                sizes.iter().product(),
                table(sizes),
            )
        })
        .into()
}

/// Tables of one cell.
fn of_records() -> Vec<(&'static str, usize, Vec<u8>)> {
    let one = [1, 1, 1];
    let counts = [1, 64, 128, 192, 256];
    let codes = counts.map(|n| ("KeyCode", n, filled(one, vec![[2, 4, 0, 0]; n], &[])));
    let holds = counts.map(|n| {
        let mut records = vec![[0; 4]];
        records.resize(n, [7, 200, 0, 0]);
        ("HoldTap of a NoOp twice", n, filled(one, records, &[]))
    });
    let links = [1, 4, 5, 16, 32, 48, 64].map(|n| {
        let list: Vec<usize> = (0..63).collect();
        let name = "MultipleActions that names the record before";
        (name, n, filled(one, chain(n), &list))
    });
    codes.into_iter().chain(holds).chain(links).collect()
}

/// Tables of one cell whose last record names so many.
fn of_entries() -> Vec<(&'static str, usize, Vec<u8>)> {
    let kinds = [
        ("codes of a MultipleKeyCodes", 3, [4; 63]),
        ("entries of a MultipleActions that name a NoOp", 4, [0; 63]),
        (
            "entries of a MultipleActions that name an empty one",
            4,
            [1; 63],
        ),
    ];
    let mut tables = Vec::new();
    for (name, kind, list) in kinds {
        for n in [0, 16, 32, 48, 63] {
            let records = vec![[0; 4], [4, 0, 0, 0], [kind, 0, n, 0]];
            tables.push((name, n, filled([1, 1, 1], records, &list)));
        }
    }
    tables
}

/// A table in a tick of a fresh layout.
fn case(part: &'static str, name: &str, table: Vec<u8>) -> Case {
    Case::new(part, name, [&[0], &table[..]].concat(), &TICK)
}

pub fn cases() -> Vec<Case> {
    let given = single().into_iter();
    let given = given.map(|(name, table)| case("image", name, table));
    let parts = [
        ("cells", of_cells()),
        ("records", of_records()),
        ("entries", of_entries()),
    ];
    let grown = parts.into_iter().flat_map(|(part, tables)| {
        let one = move |(name, size, table)| case(part, name, table).sized(size);
        tables.into_iter().map(one)
    });
    given.chain(grown).collect()
}
