//! The entries of the layout and its tables: limits of the image, hold-taps inside others, and what a table is.
//!
//! Assumes: a table is given to the Rust as trees and to the port as the image of the same trees.

use super::entry::{lines, Asked, Entry};
use super::foretold;
use super::trees::{as_image, hold_tap, kept, list, row, told};
use crate::key_code::of_byte;
use crate::paper::image::Z;
use keyberon::action::Action;
use keyberon::key_code::KeyCode;
use keyberon::layout::Layers;

const A: Action = Action::KeyCode(KeyCode::A);
const B: Action = Action::KeyCode(KeyCode::B);
const C: Action = Action::KeyCode(KeyCode::C);

/// Image Z of document 01, and lines over it.
fn over_z(others: &[&str]) -> Vec<Asked> {
    let mut asked = vec![Asked::image("image Z".to_string(), &Z)];
    asked.extend(lines(others));
    asked
}

/// Z with one byte changed.
fn spoilt(at: usize, byte: u8) -> Asked {
    let mut bytes = Z;
    bytes[at] = byte;
    Asked::image(format!("Z, byte {at} {byte:02x}"), &bytes)
}

/// A table on which these calls are run on the Rust, and its image.
fn of_table(name: &'static str, layers: Layers, calls: &[&str]) -> Entry {
    let rust = calls.iter().map(|calls| told(layers, calls)).collect();
    Entry::new(name, rust, vec![as_image(layers)])
}

/// A table of so many layers: the first has these keys, the last as many with the code B, the others none.
fn layered(first: &[Action], layers: usize) -> Layers {
    let empty: &'static [&'static [Action]] = &[];
    let mut all = vec![empty; layers];
    all[0] = row(first)[0];
    all[layers - 1] = row(&vec![B; first.len()])[0];
    kept(all)
}

/// Tables past the limits of an image, each run by the Rust.
pub fn limits() -> Vec<Entry> {
    let rows = kept(vec![kept(vec![kept(vec![B]); 9])]);
    vec![
        of_table(
            "layers-9",
            layered(&[Action::Layer(8), A], 9),
            &["p 0 0, p 0 1, 2 t"],
        ),
        of_table("layers-0", &[], &["p 0 0, t"]),
        of_table("rows-0", &[&[]], &["p 0 0, t"]),
        of_table("columns-0", &[&[&[]]], &["p 0 0, t"]),
        of_table("rows-9", rows, &["p 8 0, t"]),
        of_table("columns-17", row(&[B; 17]), &["p 0 16, t"]),
        of_table("records-257", many_records(), &["p 0 4, t"]),
        of_table("entries-1071", many_entries(), &["p 1 0, t"]),
        of_table("weight-65", row(&[codes(64)]), &["p 0 0, t"]),
        of_table("weight-66", row(&[codes(65)]), &["p 0 0, t"]),
        circle(),
        layer_number(),
        layer_sum(),
    ]
}

/// So many times the code A.
fn codes(count: usize) -> Action {
    Action::MultipleKeyCodes(kept(vec![KeyCode::A; count]))
}

/// 257 different actions, in three layers of 8 by 16: the 193 key codes, and Layer 0 to 63.
fn many_records() -> Layers {
    let codes = (0..=255).filter_map(of_byte).map(Action::KeyCode);
    let all: Vec<Action> = codes.chain((0..64).map(Action::Layer)).collect();
    let rows: Vec<&'static [Action]> = all.chunks(16).map(|row| kept(row.to_vec())).collect();
    kept(rows.chunks(8).map(|layer| kept(layer.to_vec())).collect())
}

/// Seventeen keys, each with 63 times a code of its own: no two lists can share an entry.
fn many_entries() -> Layers {
    let code = |byte: u8| of_byte(byte).expect("a legal code");
    let keys = (4..21).map(|byte| Action::MultipleKeyCodes(kept(vec![code(byte); 63])));
    let keys: Vec<Action> = keys.collect();
    let rows = keys.chunks(16).map(|row| kept(row.to_vec())).collect();
    kept(vec![kept(rows)])
}

static NOTHING: Action = Action::NoOp;
static CIRCLE: Action = Action::HoldTap {
    timeout: 1,
    hold: &CIRCLE,
    tap: &NOTHING,
};

/// A hold-tap whose hold is itself: the Rust waits as long as the key is down, and acts on nothing behind it, up to a
/// seventeenth event. One that is its own tap, and a list that names itself, cannot be run: the Rust does not return.
fn circle() -> Entry {
    let keys = row(&[CIRCLE, A]);
    let calls = ["p 0 0, p 0 1, 100000 t", "p 0 0, t, 17 p 0 1"];
    let rust = calls.iter().map(|calls| told(keys, calls)).collect();
    // Z's hold-tap is record 3, and its hold is in bytes 48 and 49
    Entry::new("circle", rust, vec![spoilt(48, 3)])
}

fn layer_number() -> Entry {
    let calls = "p 0 0, p 0 1, 2 t";
    let many = layered(&[Action::Layer(65_536), A], 65_537);
    let mut rust = vec![format!("65537 layers, Layer(65536): {}", told(many, calls))];
    for action in [
        Action::Layer(65_536),
        Action::Layer(65_535),
        Action::DefaultLayer(65_536),
        Action::DefaultLayer(65_535),
    ] {
        rust.push(format!(
            "1 layer, {action:?}: {}",
            told(row(&[action, A]), calls)
        ));
    }
    Entry::new("layer-number", rust, vec![])
        .noting("cannot be written: a number in an image is a word of 16 bits")
}

/// Layer numbers that are held at once: two that sum past the Rust's word, and as many of the largest as an image has.
fn layer_sum() -> Entry {
    let two = row(&[list(&[Action::Layer(usize::MAX), Action::Layer(1)]), A]);
    let most = row(&[list(&[Action::Layer(65_535); 63]), A]);
    let calls = "p 0 0, p 0 1, 2 t";
    let rust = vec![
        format!("Layer(usize::MAX) and Layer(1): {}", told(two, calls)),
        format!("63 times Layer(65535): {}", told(most, calls)),
    ];
    let mut here = vec![as_image(most)];
    here.extend(lines(&["p 0 0", "p 0 1", "t", "t"]));
    Entry::new("layer-sum", rust, here)
}

/// Hold-taps inside others.
pub fn nested() -> Vec<Entry> {
    let inner = hold_tap(2, C, B);
    let in_hold = row(&[hold_tap(2, inner, A), A]);
    let in_tap = row(&[hold_tap(2, A, inner), A]);
    let early = row(&[list(&[inner, A]), A]);
    vec![
        of_table(
            "nested-runs",
            in_hold,
            &["p 0 0, t, r 0 0", "p 0 0, 3 t, r 0 0", "p 0 0, 4 t"],
        ),
        of_table(
            "nested-17th",
            in_hold,
            &[
                "p 0 0, t, 17 p 0 1",
                "p 0 0, t, 17 p 9 9",
                "p 0 0, t, r 0 1, 16 p 0 1",
                "p 0 0, t, 16 p 0 1, r 0 0",
            ],
        ),
        of_table(
            "nested-queued-release",
            in_hold,
            &[
                "4 p 0 1, p 0 0, 3 t, r 0 0, 2 t",
                "4 p 0 1, p 0 0, r 0 0, 5 t",
            ],
        ),
        of_table(
            "nested-in-tap",
            in_tap,
            &["p 0 0, r 0 0, t", "p 0 0, t, r 0 0"],
        ),
        of_table("open-before-last", early, &["p 0 0, t", "p 0 0, r 0 0, t"]),
        Entry::new("panics-exactly", foretold::search().told(), vec![])
            .noting("each table with such a run is refused, with 8 Nested"),
    ]
}

/// What a table and a layout are.
pub fn shapes() -> Vec<Entry> {
    let ragged = kept(vec![kept(vec![kept(vec![A]), kept(vec![A, B])])]);
    let mut filled = of_table("ragged", ragged, &["p 0 1, t", "p 1 1, t"]);
    filled.here.extend(lines(&["p 0 1", "t", "p 1 1", "t"]));
    let older = ["counts 0 2", "queue 0 p 0 0 0", "queue 1 r 0 0 1", "t"];
    let state = ["default 1", "k", "debouncer 1 1 0 1 0 0", "picture"];
    let room = ["room 63", "k", "space 2", "scan 1"];
    vec![
        filled,
        image_faults(),
        Entry::unwritable(
            "table-per-call",
            "Layout::new takes the table, for ever",
            vec![],
        )
        .noting("every call is given an image, and checks it and the layout over it"),
        Entry::unwritable(
            "older-release",
            "the queue is private, and calls put no older event behind a younger one",
            over_z(&older),
        ),
        Entry::unwritable("state", "the fields are private", over_z(&state)),
        Entry::unwritable("room", "answers are iterators", over_z(&room)),
    ]
}

fn image_faults() -> Entry {
    let why = "a cell is an Action, one of eight, and what it names is an Action or a KeyCode";
    let short = Asked::image("Z, 15 bytes".to_string(), &Z[..15]);
    let cut = Asked::image("Z, 51 bytes".to_string(), &Z[..51]);
    // version, second cell, kind of record 0, code of record 1
    let faults = [(0, 2), (18, 4), (20, 8), (30, 0xA5)];
    let mut here = vec![short, cut];
    here.extend(faults.map(|(at, byte)| spoilt(at, byte)));
    Entry::unwritable("image-faults", why, here)
}
