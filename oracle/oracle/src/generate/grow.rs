//! Tables that are accepted: records are added from 0 up, each naming lower ones that its rules allow, so the
//! rules are kept by construction and not by asking the check.
//!
//! Assumes: most tables are to be small; what is rare in small ones is asked for on purpose.

use super::codes::legal;
use super::draft::*;
use super::fields::{layer, timeout, word};
use super::weights;
use crate::paper::report::is_legal;
use crate::random::Random;

/// How large tables get.
#[derive(Clone, Copy, PartialEq)]
pub enum Reach {
    /// Some few hundred bytes, for scripts that are kept.
    Small,
    /// Up to the largest there are.
    Any,
}

struct Size {
    layers: usize,
    rows: usize,
    columns: usize,
    records: usize,
    entries: usize,
}

const LARGEST: Size = Size::new(
    MOST_LAYERS,
    MOST_ROWS,
    MOST_COLUMNS,
    MOST_RECORDS,
    MOST_ENTRIES,
);

impl Size {
    const fn new(
        layers: usize,
        rows: usize,
        columns: usize,
        records: usize,
        entries: usize,
    ) -> Self {
        Size {
            layers,
            rows,
            columns,
            records,
            entries,
        }
    }
}

/// A table that is accepted.
pub fn accepted(random: &mut Random, reach: Reach) -> Draft {
    let size = size(random, reach);
    let mut draft = Draft::new(size.layers, size.rows, size.columns);
    let heavy = random.once_in(12).then(|| random.below(size.records));
    while draft.records.len() < size.records {
        if heavy == Some(draft.records.len()) && draft.has_room() {
            weights::push(&mut draft, random, HEAVIEST);
        } else {
            grow(&mut draft, random, size.entries);
        }
    }
    pad(&mut draft, random, size.entries);
    for at in 0..draft.cells.len() {
        draft.cells[at] = cell(random, draft.records.len());
    }
    draft
}

/// Of a thousand tables one is the largest, four have any sizes, and nine hundred are small.
fn size(random: &mut Random, reach: Reach) -> Size {
    let rare = match reach {
        Reach::Small => random.among(20, 999),
        Reach::Any => random.below(1_000),
    };
    let most = match rare {
        0 => return LARGEST,
        1..=4 => LARGEST,
        5..=19 => Size::new(4, 6, 8, 80, 160),
        20..=59 => Size::new(1, 1, 1, 3, 4),
        60..=99 => Size::new(3, 4, 6, 24, 60),
        _ => Size::new(2, 2, 4, 10, 14),
    };
    Size {
        layers: random.among(1, most.layers),
        rows: random.among(1, most.rows),
        columns: random.among(1, most.columns),
        records: random.among(1, most.records),
        entries: random.among(0, most.entries),
    }
}

/// Adds a legal record, with new entries only while the list has at most `entries`.
pub fn grow(draft: &mut Draft, random: &mut Random, entries: usize) {
    let room = entries.saturating_sub(draft.list.len());
    match random.below(18) {
        0 => draft.push_plain(NOOP),
        1 => draft.push_plain([1, 0, 0, 0]),
        2..=4 => draft.push_plain([2, legal(random).into(), 0, 0]),
        5 => draft.push_plain([5, layer(random, draft.layers), 0, 0]),
        6 => draft.push_plain([6, layer(random, draft.layers), 0, 0]),
        7..=9 => codes(draft, random, room),
        10..=13 => actions(draft, random, room),
        _ => hold_tap(draft, random),
    };
}

fn codes(draft: &mut Draft, random: &mut Random, room: usize) -> u16 {
    if random.once_in(2) {
        let (first, count) = old_stretch(draft, random);
        if draft.list[first..first + count]
            .iter()
            .all(|&word| is_legal(word))
        {
            return draft.push_old_codes(first, count);
        }
    }
    let count = entry_count(random);
    draft.push_codes(random, count.min(room))
}

/// How many entries a record is to have: few, mostly.
fn entry_count(random: &mut Random) -> usize {
    match random.below(8) {
        0 => 0,
        1 | 2 => 1,
        3 => random.among(2, HEAVIEST - 1),
        _ => random.among(2, 5),
    }
}

/// A stretch of the list as it stands, short enough for one record: so stretches overlap.
fn old_stretch(draft: &Draft, random: &mut Random) -> (usize, usize) {
    let first = random.among(0, draft.list.len());
    let most = (draft.list.len() - first).min(HEAVIEST - 1);
    let most = if random.once_in(4) { most } else { most.min(5) };
    (first, random.among(0, most))
}

fn actions(draft: &mut Draft, random: &mut Random, room: usize) -> u16 {
    if random.once_in(4) {
        let (first, count) = old_stretch(draft, random);
        let named = &draft.list[first..first + count];
        if draft.shape_of_actions(named).is_some() {
            return draft.push_old_actions(first, count);
        }
    }
    let count = entry_count(random);
    let named = named(draft, random, count.min(room));
    draft.push_actions(random, &named)
}

/// Up to so many records that a MultipleActions may name, the last one open if there is such a one and
/// chance wills it.
fn named(draft: &Draft, random: &mut Random, count: usize) -> Vec<u16> {
    let at = draft.records.len();
    let mut named = Vec::new();
    let mut left = HEAVIEST - 1;
    while named.len() < count {
        let last = named.len() + 1 == count;
        let open = last && random.once_in(2);
        let mut fitting = draft.nameable(at, open, left);
        if fitting.is_empty() {
            fitting = draft.nameable(at, false, left);
        }
        if fitting.is_empty() {
            break;
        }
        let record = random.pick(&fitting);
        left -= draft.shape(record).map_or(0, |shape| shape.weight);
        named.push(record);
    }
    named
}

fn hold_tap(draft: &mut Draft, random: &mut Random) -> u16 {
    let at = draft.records.len();
    let holds = draft.nameable(at, false, HEAVIEST - 2);
    if holds.is_empty() {
        return draft.push_plain(NOOP);
    }
    let hold = random.pick(&holds);
    let left = HEAVIEST - 1 - draft.shape(hold).map_or(0, |shape| shape.weight);
    let taps = draft.nameable(at, false, left);
    if taps.is_empty() {
        return draft.push_plain(NOOP);
    }
    let tap = random.pick(&taps);
    let timeout = timeout(random);
    draft.push_hold_tap(timeout, hold, tap)
}

/// Brings entries that no record names into the list: none, some, or up to the wanted number.
fn pad(draft: &mut Draft, random: &mut Random, entries: usize) {
    let left = entries.saturating_sub(draft.list.len());
    let more = match random.below(4) {
        _ if entries == MOST_ENTRIES => left,
        0 => left,
        1 => left.min(3),
        _ => 0,
    };
    let words: Vec<u16> = (0..more).map(|_| word(random)).collect();
    draft.enter(random, &words);
}

/// A cell's record: any, more often the last, which is the one that names most.
fn cell(random: &mut Random, records: usize) -> u16 {
    match random.below(4) {
        0 => (records - 1) as u16,
        _ => random.below(records) as u16,
    }
}

#[cfg(test)]
mod tests {
    use super::*;
    use crate::paper::image::check;
    use std::collections::BTreeSet;

    const TABLES: usize = 30_000;

    /// Wanted features that stand for themselves.
    const OTHERS: [&str; 19] = [
        "last kind 4 open true",
        "last kind 7 open true",
        "64 by actions, nested true open false",
        "64 by actions, nested false open false",
        "64 by actions, nested true open true",
        "64 by actions, nested false open true",
        "sizes (1, 1, 1)",
        "sizes (8, 8, 16)",
        "records 1",
        "records 256",
        "list 0",
        "list 1",
        "list 1024",
        "the largest",
        "a free entry",
        "a free entry with no legal code",
        "overlapping stretches",
        "an empty stretch at the list's end",
        "actions at the list's start",
    ];

    /// The stretches of the list that records name, those of codes and of actions.
    fn stretches(draft: &Draft) -> Vec<(usize, usize)> {
        let listed = draft.records.iter().filter(|r| matches!(r[0], 3 | 4));
        listed.map(|r| (r[1].into(), r[2].into())).collect()
    }

    fn of_list(draft: &Draft) -> Vec<&'static str> {
        let stretches = stretches(draft);
        let namings = |at: usize| {
            let named = |&&(first, count): &&(usize, usize)| (first..first + count).contains(&at);
            stretches.iter().filter(named).count()
        };
        let counts: Vec<usize> = (0..draft.list.len()).map(namings).collect();
        let free = || (0..draft.list.len()).filter(|&at| counts[at] == 0);
        let mut found = Vec::new();
        if free().any(|at| is_legal(draft.list[at])) {
            found.push("a free entry");
        }
        if free().any(|at| !is_legal(draft.list[at])) {
            found.push("a free entry with no legal code");
        }
        if counts.iter().any(|&count| count > 1) {
            found.push("overlapping stretches");
        }
        if stretches.contains(&(draft.list.len(), 0)) && !draft.list.is_empty() {
            found.push("an empty stretch at the list's end");
        }
        if draft.records.iter().any(|r| r[0] == 4 && r[1] == 0) {
            found.push("actions at the list's start");
        }
        found
    }

    fn of_sizes(draft: &Draft) -> Vec<String> {
        let mut found = vec![];
        let sizes = (draft.layers, draft.rows, draft.columns);
        if [(1, 1, 1), (8, 8, 16)].contains(&sizes) {
            found.push(format!("sizes {sizes:?}"));
        }
        for (name, count) in [("records", draft.records.len()), ("list", draft.list.len())] {
            if [0, 1, 256, 1_024].contains(&count) {
                found.push(format!("{name} {count}"));
            }
        }
        if sizes == (8, 8, 16) && draft.records.len() == 256 && draft.list.len() == 1_024 {
            found.push("the largest".to_string());
        }
        found
    }

    fn of_actions(draft: &Draft, named: &[u16], weight: usize) -> Vec<String> {
        let mut found = vec![format!("actions {}", named.len().min(3))];
        let kind = |record: u16| draft.records[usize::from(record)][0];
        let open = |record: u16| draft.shape(record).unwrap().open;
        if let Some((&last, rest)) = named.split_last() {
            found.push(format!("last kind {} open {}", kind(last), open(last)));
            found.extend(rest.iter().map(|&record| format!("rest {}", kind(record))));
        }
        if weight == HEAVIEST {
            let nested = named.iter().any(|&record| kind(record) == 4);
            let open = named.iter().any(|&record| open(record));
            found.push(format!("64 by {} entries", named.len().min(63)));
            found.push(format!("64 by actions, nested {nested} open {open}"));
        }
        found
    }

    fn of_record(draft: &Draft, place: usize) -> Vec<String> {
        let [kind, a, b, c] = draft.records[place];
        let weight = draft.shapes[place].expect("a legal record").weight;
        let mut found = vec![format!("kind {kind}")];
        match kind {
            3 => found.push(format!("codes {b}")),
            4 => {
                let named = &draft.list[a.into()..usize::from(a) + usize::from(b)];
                found.extend(of_actions(draft, named, weight));
            }
            5 | 6 => {
                let place = usize::from(a).cmp(&draft.layers);
                found.push(format!("layer {kind} {place:?}"));
                found.push(format!("layer {kind} {a}"));
            }
            7 => {
                let of = |record: u16| draft.records[usize::from(record)][0];
                found.push(format!("timeout {a}"));
                found.push(format!("hold {}", of(b)));
                found.push(format!("tap {}", of(c)));
            }
            _ => (),
        }
        if weight == HEAVIEST {
            found.push(format!("64 by kind {kind}"));
        }
        found
    }

    fn wanted() -> Vec<String> {
        let mut wanted: Vec<String> = Vec::new();
        wanted.extend((0..8).map(|kind| format!("kind {kind}")));
        for kind in 0..7 {
            wanted.extend(["hold", "tap", "rest"].map(|of| format!("{of} {kind}")));
            wanted.push(format!("last kind {kind} open false"));
        }
        wanted.extend((0..64).map(|count| format!("codes {count}")));
        wanted.extend((0..4).map(|count| format!("actions {count}")));
        wanted.extend([0, 1, 2, 3, 65_535].map(|ticks| format!("timeout {ticks}")));
        for kind in [5, 6] {
            let places = ["Less", "Equal", "Greater", "0", "65535"];
            wanted.extend(places.map(|place| format!("layer {kind} {place}")));
        }
        wanted.extend([3, 4, 7].map(|kind| format!("64 by kind {kind}")));
        wanted.extend([1, 2, 63].map(|count| format!("64 by {count} entries")));
        wanted.extend(OTHERS.map(str::to_string));
        wanted
    }

    #[test]
    fn they_are_accepted_and_have_everything() {
        let mut random = Random::new(11);
        let mut found: BTreeSet<String> = BTreeSet::new();
        for _ in 0..TABLES {
            let draft = accepted(&mut random, Reach::Any);
            let checked = check(&draft.bytes());
            assert!(checked.is_ok(), "{:?}: {checked:?}", draft.bytes());
            found.extend(of_list(&draft).into_iter().map(str::to_string));
            found.extend(of_sizes(&draft));
            for place in 0..draft.records.len() {
                found.extend(of_record(&draft, place));
            }
        }
        let missing: Vec<String> = wanted()
            .into_iter()
            .filter(|w| !found.contains(w))
            .collect();
        assert!(missing.is_empty(), "{missing:?}");
    }

    #[test]
    fn small_ones_are_small() {
        let mut random = Random::new(12);
        let longest = (0..TABLES).map(|_| accepted(&mut random, Reach::Small).bytes().len());
        assert!(longest.max() < Some(1_500));
    }
}
