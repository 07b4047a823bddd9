//! The entries of the debouncer.
//!
//! Assumes: the Rust's pictures are arrays of arrays of bool, as its documentation has them, or vectors of vectors,
//! which its bounds take too.

use super::entry::{attempt, lines, Entry};
use keyberon::debounce::Debouncer;
use keyberon::layout::Event;

/// A picture of any size.
type Picture = Vec<Vec<bool>>;

pub fn entries() -> Vec<Entry> {
    vec![
        comment(),
        longest(),
        two_pictures(),
        sizes(),
        row_256(),
        scan_size(),
        Entry::unwritable(
            "scan-byte",
            "a switch is a bool",
            lines(&["debounce 1 1 0 0", "scan 2"]),
        ),
        unwalked(),
    ]
}

fn up(rows: usize, columns: usize) -> Picture {
    vec![vec![false; columns]; rows]
}

fn down(rows: usize, columns: usize) -> Picture {
    vec![vec![true; columns]; rows]
}

fn fresh(picture: Picture, nb_bounce: u16) -> Debouncer<Picture> {
    Debouncer::new(picture.clone(), picture, nb_bounce)
}

/// The events of a scan, or the message of the panic that their walk ends in.
fn events(debouncer: &mut Debouncer<Picture>, scan: Picture) -> Result<Vec<Event>, String> {
    attempt(|| debouncer.events(scan).collect())
}

fn comment() -> Entry {
    let mut two = fresh(up(1, 1), 2);
    let told = [1, 2, 3].map(|scan| {
        let events = events(&mut two, down(1, 1)).expect("no panic");
        format!("nb_bounce 2, equal scan {scan}: {events:?}")
    });
    let asked = ["debounce 1 1 2 0", "scan 1", "scan 1", "scan 1"];
    Entry::new("bounce-comment", told.to_vec(), lines(&asked))
}

fn longest() -> Entry {
    let mut longest = fresh(up(1, 1), u16::MAX);
    let mut scan = 0;
    let message = loop {
        scan += 1;
        match events(&mut longest, down(1, 1)) {
            Ok(events) => assert!(events.is_empty()),
            Err(message) => break message,
        }
    };
    let told = format!("nb_bounce 65535, equal scan {scan}: panic: {message}");
    let asked = lines(&["debounce 1 1 65535 0"]);
    Entry::new("bounce-65535", vec![told], asked)
}

/// Every pair of pictures of two switches, with every run of five scans: does the second picture ever show?
fn two_pictures() -> Entry {
    let picture = |bits: usize| vec![vec![bits & 1 != 0, bits & 2 != 0]];
    let (mut runs, mut other) = (0, 0);
    for case in 0..4 * 4 * 4 * 1_024 {
        let [cur, new, bounces] = [case % 4, case / 4 % 4, case / 16 % 4];
        let mut two = Debouncer::new(picture(cur), picture(new), bounces as u16);
        let mut one = fresh(picture(cur), bounces as u16);
        runs += 1;
        for at in 0..5 {
            let scan = picture((case / 64) >> (2 * at));
            other += usize::from(events(&mut two, scan.clone()) != events(&mut one, scan));
        }
    }
    let told = format!(
        "{runs} runs of 5 scans, each pair of start pictures: {other} answers hang on the second"
    );
    let asked = lines(&["debounce 1 2 1 01", "scan 01", "scan 11", "scan 11"]);
    Entry::new("bounce-two-pictures", vec![told], asked)
}

fn sizes() -> Entry {
    let told = [(9, 1), (1, 17), (0, 0)].map(|(rows, columns)| {
        let events = events(&mut fresh(up(rows, columns), 0), down(rows, columns));
        let events = events.expect("no panic");
        let last = events.last();
        format!(
            "{rows} by {columns}, all down: {} events, the last {last:?}",
            events.len()
        )
    });
    let up = |count: usize| "0".repeat(count);
    let asked = [
        format!("debounce 9 1 0 {}", up(9)),
        format!("debounce 1 17 0 {}", up(17)),
        "debounce 0 0 0 -".to_string(),
    ];
    let asked = asked.each_ref().map(String::as_str);
    Entry::new("bounce-sizes", told.to_vec(), lines(&asked))
}

fn row_256() -> Entry {
    let message = events(&mut fresh(up(257, 1), 0), down(257, 1)).expect_err("a panic");
    let mut rest = up(257, 1);
    rest[255][0] = true;
    let fine = events(&mut fresh(up(257, 1), 0), rest).expect("no panic");
    let told = vec![
        format!("257 rows, row 255 down: {fine:?}"),
        format!("257 rows, all down: panic: {message}"),
    ];
    Entry::new("bounce-row-256", told, lines(&["debounce 257 1 0 0"]))
}

fn scan_size() -> Entry {
    let mut one = fresh(up(1, 1), 0);
    let told = events(&mut one, vec![vec![true, true]]).expect("no panic");
    let after = one.get().clone();
    let told = vec![
        "arrays: cannot be written, a scan has the picture's type".to_string(),
        format!("vectors, 1 by 1, a scan of 1 by 2: {told:?}, accepted picture {after:?}"),
    ];
    let asked = lines(&["debounce 1 1 0 0", "scan 11"]);
    Entry::new("scan-size", told, asked)
}

fn unwalked() -> Entry {
    let mut one = fresh(up(1, 1), 0);
    drop(one.events(down(1, 1)));
    let accepted = one.get().clone();
    let again = events(&mut one, down(1, 1)).expect("no panic");
    let told = format!(
        "a press whose events are not walked: accepted picture {accepted:?}; the same scan again: {again:?}"
    );
    Entry::new("events-unwalked", vec![told], vec![])
        .noting("a call writes all its events to the buffer")
}
