//! Damage to the cells, records and list of a draft: faults 4 to 9 of document 01, alone or two in one record.
//!
//! Assumes: a fault is what is aimed at, not what must come out: another record that shares the entries or
//! names the damaged one may be at fault before it. What came out is counted by who asked for it.

use super::codes;
use super::draft::*;
use super::fields::{timeout, word};
use super::grow::grow;
use super::weights;
use crate::random::Random;

/// Brings a fault of this number, 4 to 9, into a draft. Legal records may follow a damaged one; a damaged cell
/// is to be the last damage, since a record more may be the one that it names.
pub fn damage(draft: &mut Draft, random: &mut Random, number: u8) {
    draft.fixed = true;
    match number {
        4 => return cell(draft, random),
        5 => form(draft, random),
        6 => code(draft, random),
        7 => child(draft, random),
        8 => nested(draft, random),
        _ => weight(draft, random),
    }
    follow(draft, random);
}

/// Adds some legal records, so that a damaged one is not always the last.
fn follow(draft: &mut Draft, random: &mut Random) {
    for _ in 0..random.below(3) {
        if draft.records.len() < MOST_RECORDS {
            let entries = MOST_ENTRIES.min(draft.list.len() + 3);
            grow(draft, random, entries);
        }
    }
}

/// A place for a damaged record, from this number up: that of an old one, or a new one at the end.
fn place(draft: &mut Draft, random: &mut Random, from: usize) -> usize {
    let count = draft.records.len();
    if from >= count || (count < MOST_RECORDS && random.once_in(4)) {
        return draft.push(NOOP, None).into();
    }
    match random.below(6) {
        0 => from,
        1 => count - 1,
        _ => random.among(from, count - 1),
    }
}

/// The first, the last, or any of some places.
fn end_or_any(random: &mut Random, count: usize) -> usize {
    match random.below(3) {
        0 => 0,
        1 => count - 1,
        _ => random.below(count),
    }
}

fn cell(draft: &mut Draft, random: &mut Random) {
    let at = end_or_any(random, draft.cells.len());
    let records = draft.records.len();
    let low_byte_legal = 256 + random.below(records);
    draft.cells[at] = match random.below(6) {
        0 | 1 => records,
        2 => records + 1,
        3 => 65_535,
        4 => low_byte_legal,
        _ => random.among(records, 65_535),
    } as u16;
}

fn form(draft: &mut Draft, random: &mut Random) {
    let place = place(draft, random, 0);
    let record = match random.below(3) {
        0 => of_unknown_kind(random, draft.records[place]),
        1 => with_used_word(random, draft.records[place]),
        _ => past_the_list(random, draft.list.len()),
    };
    draft.replace(place, record);
}

fn of_unknown_kind(random: &mut Random, [kind, a, b, c]: [u16; 4]) -> [u16; 4] {
    let low_byte_legal = 256 | (kind & 7);
    let kind = match random.below(6) {
        0 => 8,
        1 => 255,
        2 => low_byte_legal,
        3 => 65_535,
        4 => random.among(8, 255) as u16,
        _ => random.among(8, 65_535) as u16,
    };
    [kind, a, b, c]
}

/// A record with an unused word that is not zero: the old one, or one of any kind.
fn with_used_word(random: &mut Random, old: [u16; 4]) -> [u16; 4] {
    let kind = random.below(7) as u16;
    let mut record = match kind {
        _ if old[0] < 7 && random.once_in(2) => old,
        2 => [2, codes::legal(random).into(), 0, 0],
        5 | 6 => [kind, word(random), 0, 0],
        _ => [kind, 0, 0, 0],
    };
    let unused = match record[0] {
        0 | 1 => 1,
        3 | 4 => 3,
        _ => 2,
    };
    record[random.among(unused, 3)] = not_zero(random);
    record
}

fn not_zero(random: &mut Random) -> u16 {
    match random.below(6) {
        0 => 1,
        1 => 255,
        2 => 256,
        3 => 32_768,
        4 => 65_535,
        _ => random.among(1, 65_535) as u16,
    }
}

/// A kind 3 or 4 with a + b above the number of entries, most of them only just, or only if the sum is not
/// cut to 16 bits.
fn past_the_list(random: &mut Random, entries: usize) -> [u16; 4] {
    let first = random.among(0, entries);
    let past = random.among(entries + 1, 65_535);
    let (a, b) = match random.below(9) {
        0 | 1 => (first, entries - first + 1),
        2 => (entries + 1, 0),
        3 => (first + 1, 65_535),
        4 => (65_535, first + 1),
        5 => (65_535, 65_535),
        6 => (past, 65_536 - past),
        7 => (past, 0),
        _ => (word(random).into(), past),
    };
    [random.pick(&[3, 4]), a as u16, b as u16, 0]
}

fn illegal(random: &mut Random) -> u16 {
    match random.below(4) {
        0 => random.pick(&[0xA5, 0xDF, 0xFC, 0xFF]),
        1 => random.pick(&[0x0100, 0x0104, 0x01E0, 0x8004, 0xFFFF]),
        2 => codes::illegal(random).into(),
        _ => random.among(0x0100, 0xFFFF) as u16,
    }
}

fn code(draft: &mut Draft, random: &mut Random) {
    match random.below(3) {
        0 => {
            let place = place(draft, random, 0);
            let code = illegal(random);
            draft.replace(place, [2, code, 0, 0]);
        }
        1 => illegal_entry(draft, random),
        _ => {
            let count = random.among(1, 8);
            illegal_codes(draft, random, count, 0);
        }
    }
}

/// An illegal code among the entries of a kind 3 that was there, which may share them with others.
fn illegal_entry(draft: &mut Draft, random: &mut Random) {
    let listed = draft.records.iter().filter(|r| r[0] == 3 && r[2] > 0);
    let listed: Vec<[u16; 4]> = listed.copied().collect();
    if listed.is_empty() {
        return illegal_codes(draft, random, 1, 0);
    }
    let [_, first, count, _] = random.pick(&listed).map(usize::from);
    let at = first + end_or_any(random, count);
    // a damaged one may have its entries past the list
    if at < draft.list.len() {
        draft.list[at] = illegal(random);
    }
}

/// A kind 3 of so many codes with an illegal one among them, and this last word.
fn illegal_codes(draft: &mut Draft, random: &mut Random, count: usize, c: u16) {
    let place = place(draft, random, 0);
    let mut entries: Vec<u16> = (0..count).map(|_| codes::legal(random).into()).collect();
    entries[end_or_any(random, count)] = illegal(random);
    let first = draft.force(&entries);
    draft.replace(place, [3, first as u16, count as u16, c]);
}

/// A record's number that is not lower than this place.
fn not_lower(draft: &Draft, random: &mut Random, place: usize) -> u16 {
    let records = draft.records.len();
    let low_byte_lower = 256 + random.below(place + 1);
    let number = match random.below(8) {
        0 | 1 => place,
        2 => place + 1,
        3 => records - 1,
        4 => records,
        5 => low_byte_lower,
        6 => 65_535,
        _ => random.among(place, 65_535),
    };
    number as u16
}

/// A light closed record below a place; the first, which cannot be open, if there is no other.
fn closed(draft: &Draft, random: &mut Random, place: usize) -> u16 {
    let light = draft.nameable(place, false, 6);
    match light.is_empty() {
        true => 0,
        false => random.pick(&light),
    }
}

fn child(draft: &mut Draft, random: &mut Random) {
    let place = place(draft, random, 0);
    let bad = not_lower(draft, random, place);
    let other = closed(draft, random, place);
    let timeout = timeout(random);
    match random.below(5) {
        0 => draft.replace(place, [7, timeout, bad, other]),
        1 => draft.replace(place, [7, timeout, other, bad]),
        2 => draft.replace(place, [7, timeout, bad, bad]),
        _ => bad_child_in_actions(draft, random, place, 0),
    }
}

/// A kind 4 with a child that is not lower, and this last word.
fn bad_child_in_actions(draft: &mut Draft, random: &mut Random, place: usize, c: u16) {
    let count = random.among(1, 5);
    let mut named: Vec<u16> = (0..count).map(|_| closed(draft, random, place)).collect();
    named[end_or_any(random, count)] = not_lower(draft, random, place);
    actions(draft, place, &named, c);
}

fn actions(draft: &mut Draft, place: usize, named: &[u16], c: u16) {
    let first = draft.force(named);
    draft.replace(place, [4, first as u16, named.len() as u16, c]);
}

/// An open record: an old one, a new HoldTap, or a new MultipleActions around one.
fn open(draft: &mut Draft, random: &mut Random) -> u16 {
    let old = draft.nameable(draft.records.len(), true, HEAVIEST);
    let mut open = match old.is_empty() {
        false => random.pick(&old),
        true => {
            let end = draft.records.len();
            let (hold, tap) = (closed(draft, random, end), closed(draft, random, end));
            let timeout = timeout(random);
            draft.push_hold_tap(timeout, hold, tap)
        }
    };
    if draft.has_room() && random.once_in(3) {
        open = draft.push_actions(random, &[open]);
    }
    open
}

fn nested(draft: &mut Draft, random: &mut Random) {
    let open = open(draft, random);
    let place = place(draft, random, usize::from(open) + 1);
    let other = closed(draft, random, place);
    let timeout = timeout(random);
    match random.below(5) {
        0 => draft.replace(place, [7, timeout, open, other]),
        1 => draft.replace(place, [7, timeout, other, open]),
        2 => draft.replace(place, [7, timeout, open, open]),
        _ => open_before_the_end(draft, random, place, open),
    }
}

/// A kind 4 with an open entry before its last, which may be open too.
fn open_before_the_end(draft: &mut Draft, random: &mut Random, place: usize, open: u16) {
    let before = random.among(1, 4);
    let mut named: Vec<u16> = (0..before).map(|_| closed(draft, random, place)).collect();
    named[end_or_any(random, before)] = open;
    named.push(match random.below(3) {
        0 => open,
        _ => closed(draft, random, place),
    });
    actions(draft, place, &named, 0);
}

fn weight(draft: &mut Draft, random: &mut Random) {
    let room = draft.has_room();
    match random.below(10) {
        0..=4 if room => drop(weights::push(draft, random, HEAVIEST + 1)),
        5 if room => doubling(draft, random),
        6 if room => sum_of_256(draft, random),
        7 if random.once_in(40) => sum_of_65_536(draft, random),
        8 => many_entries(draft, random),
        _ => many_codes(draft, random),
    }
}

/// MultipleActions that name the one before them twice or more: the weights grow like powers.
fn doubling(draft: &mut Draft, random: &mut Random) {
    let times = random.among(2, 4);
    let most = (MOST_ENTRIES - draft.list.len()) / times;
    let most = most.min(MOST_RECORDS - draft.records.len() - 1);
    let length = match random.below(20) {
        0 => most,
        _ => random.among(7, 20).min(most),
    };
    let mut last = draft.push_plain(NOOP);
    for _ in 0..length {
        last = draft.push_actions(random, &vec![last; times]);
    }
}

/// Four records of weight 64 under one: a sum that a byte cuts to almost nothing.
fn sum_of_256(draft: &mut Draft, random: &mut Random) {
    let heavy = draft.push_codes(random, HEAVIEST - 1);
    draft.push_actions(random, &[heavy; 4]);
}

/// The same for 16 bits, a table by itself: the list's 1,024 entries name a record of weight 64, and are its
/// codes as well.
fn sum_of_65_536(draft: &mut Draft, random: &mut Random) {
    draft.records.truncate(1);
    draft.shapes.truncate(1);
    draft.cells.fill(0);
    draft.list = vec![1; MOST_ENTRIES];
    draft.replace(0, NOOP);
    let first = random.below(MOST_ENTRIES - HEAVIEST);
    draft.push_old_codes(first, HEAVIEST - 1);
    draft.push_old_actions(0, MOST_ENTRIES);
}

/// How many entries make a record too heavy by their number: just so many, or far more.
fn too_many(random: &mut Random) -> usize {
    match random.below(30) {
        0 => MOST_ENTRIES,
        1 => random.pick(&[255, 256, 257, 511]),
        2..=9 => random.among(66, 130),
        10..=19 => HEAVIEST + 1,
        _ => HEAVIEST,
    }
}

fn many_codes(draft: &mut Draft, random: &mut Random) {
    let place = place(draft, random, 0);
    let count = too_many(random);
    let entries: Vec<u16> = (0..count).map(|_| codes::legal(random).into()).collect();
    let first = draft.force(&entries);
    draft.replace(place, [3, first as u16, count as u16, 0]);
}

fn many_entries(draft: &mut Draft, random: &mut Random) {
    let place = place(draft, random, 1);
    let count = too_many(random);
    let named: Vec<u16> = (0..count).map(|_| closed(draft, random, place)).collect();
    actions(draft, place, &named, 0);
}

/// Brings two faults into one record: the lower number must be told.
pub fn damage_twice_in_one(draft: &mut Draft, random: &mut Random) {
    draft.fixed = true;
    let open = open(draft, random);
    let place = place(draft, random, usize::from(open) + 1);
    let bad = not_lower(draft, random, place);
    let lights: Vec<u16> = (0..HEAVIEST)
        .map(|_| closed(draft, random, place))
        .collect();
    let (not_zero, timeout) = (not_zero(random), timeout(random));
    match random.below(10) {
        0 => {
            let code = illegal(random);
            draft.replace(place, [2, code, not_zero, 0]);
        }
        1 => illegal_codes(draft, random, 5, not_zero),
        2 => bad_child_in_actions(draft, random, place, not_zero),
        3 => illegal_codes(draft, random, HEAVIEST, 0),
        4 => draft.replace(place, [7, timeout, open, bad]),
        5 => draft.replace(place, [7, timeout, bad, open]),
        6 => actions(draft, place, &[open, bad], 0),
        7 => actions(draft, place, &[&lights[..], &[bad]].concat(), 0),
        8 => actions(draft, place, &[&[open], &lights[..]].concat(), 0),
        _ => actions(draft, place, &[&[open], &lights[..]].concat(), not_zero),
    }
    follow(draft, random);
}
