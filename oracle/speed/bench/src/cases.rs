//! What is counted: all cases.
//!
//! Assumes: the first byte of an input says what is driven: 0 a layout, 1 a debouncer, 2 the codes of a report, 3 a
//! keyboard. With any other nothing is.

use super::calls::Keys;
use super::case::Case;
use super::checked;

/// Nothing is driven.
const NOTHING: u8 = 255;

/// So many switches down, the rest of 8 by 16 up.
fn scan(down: usize) -> Vec<u8> {
    (0..128).map(|place| (place < down).into()).collect()
}

fn scans() -> Vec<Case> {
    let case = |name: &str, before: &[usize], last: usize| {
        let before: Vec<u8> = before.iter().flat_map(|&down| scan(down)).collect();
        Case::new("scan", name, [&[1], &before[..]].concat(), &scan(last))
    };
    vec![
        case("scan, nothing changes", &[], 0),
        case("scan, a change begins", &[], 1),
        case("scan, the change stands", &[1], 1),
        case("scan, the change is taken: 1 event", &[1; 5], 1),
        case("scan, the change is taken: 6 events", &[6; 5], 6),
        case("scan, the change is taken: 128 events", &[128; 5], 128),
    ]
}

fn reports() -> Vec<Case> {
    let case = |name: &str, codes: &[u8]| Case {
        part: "report",
        name: name.into(),
        size: None,
        before: vec![NOTHING],
        after: [&[2], codes].concat(),
    };
    vec![
        case("report of no code", &[]),
        case("report of 1 code", &[4]),
        case("report of 2 modifiers and 2 codes", &[0xE0, 0xE1, 4, 5]),
        case("report of 6 codes", &[4, 5, 6, 7, 8, 9]),
        case("report of 64 codes", &(4..68).collect::<Vec<u8>>()),
    ]
}

fn keyboards() -> Vec<Case> {
    let first = [4, 0, 0, 0, 0, 0, 0, 0];
    let other = [5, 0, 0, 0, 0, 0, 0, 0];
    let before = [&[3], &first[..]].concat();
    let case = |name: &str, last: [u8; 8]| Case::new("keyboard", name, before.clone(), &last);
    vec![
        case("keyboard, the report as before", first),
        case("keyboard, another report", other),
    ]
}

pub fn all() -> Vec<Case> {
    let z = Keys::of_z();
    let layouts = [z.cases(), Keys::of_ordinary().cases()].concat();
    let others = [scans(), reports(), keyboards()].concat();
    [layouts, others, checked::cases(), z.growth()].concat()
}

pub fn names() -> String {
    let line = |case: &Case| {
        let size = case.size.map_or(String::new(), |size| size.to_string());
        format!("{}\t{}\t{size}\n", case.part, case.name)
    };
    all().iter().map(line).collect()
}
