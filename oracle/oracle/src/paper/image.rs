//! The check of a table image by document 01, "The table image" and "Refusal numbers": all faults are
//! collected, each with its place in the paper's order, and the first in that order decides.
//!
//! Assumes: nothing of the bytes. A fault is looked for where the rules before it make it meaningful: there
//! are no cells in an image of the wrong length, and no weight of a record that names itself. That loses
//! nothing, since the fault that makes it meaningless comes first.
//! Read so: cells and records count from 0; faults in a record name the record, not the list entry; a + b
//! is not cut to 16 bits; list entries that no record names are not looked at.

use super::report::is_legal;
use std::fmt;

const HEADER_BYTES: usize = 16;
const HEAVIEST: u64 = 64;

const SHORT: u8 = 1;
pub const HEADER: u8 = 2;
pub const LENGTH: u8 = 3;
const CELL: u8 = 4;
const RECORD: u8 = 5;
const CODE: u8 = 6;
const CHILD: u8 = 7;
const NESTED: u8 = 8;
const WEIGHT: u8 = 9;

/// Image Z of document 01, "Bench cases".
pub const Z: [u8; 52] = [
    1, 0, 1, 0, 1, 0, 2, 0, 4, 0, 0, 0, 0x14, 0, 0x34, 0, 3, 0, 1, 0, 0, 0, 0, 0, 0, 0, 0, 0, 2, 0,
    0x2C, 0, 0, 0, 0, 0, 2, 0, 0xE0, 0, 0, 0, 0, 0, 7, 0, 3, 0, 2, 0, 1, 0,
];

/// Why an image is refused, and the cell or record that is at fault (0 where there is none).
#[derive(Clone, Copy, Debug, PartialEq)]
pub struct Refusal {
    pub number: u8,
    pub place: usize,
}

impl Refusal {
    /// A refusal of the image as a whole.
    pub fn whole(number: u8) -> Self {
        Refusal { number, place: 0 }
    }
}

impl fmt::Display for Refusal {
    /// As scripts are answered.
    fn fmt(&self, f: &mut fmt::Formatter) -> fmt::Result {
        write!(f, "refused {} {}", self.number, self.place)
    }
}

/// An image taken apart.
#[derive(Debug)]
pub struct Parts {
    pub rows: usize,
    pub columns: usize,
    pub cells: Vec<u16>,
    pub records: Vec<[u16; 4]>,
    pub list: Vec<u16>,
}

/// The parts of an accepted image, or the refusal.
pub fn check(bytes: &[u8]) -> Result<Parts, Refusal> {
    check_but(bytes, |_| false)
}

/// The parts of an image that is accepted or breaks the open rule alone, which the Rust does not have.
pub fn check_but_nested(bytes: &[u8]) -> Result<Parts, Refusal> {
    check_but(bytes, |refusal| refusal.number == NESTED)
}

/// The parts of an image that has no faults but forgiven ones of 4 to 9.
fn check_but(bytes: &[u8], forgiven: impl Fn(&Refusal) -> bool) -> Result<Parts, Refusal> {
    let sizes = sizes(bytes)?;
    if bytes.len() != sizes.length() {
        return Err(Refusal::whole(LENGTH));
    }
    let parts = sizes.parts(&words(bytes));
    let mut faults = parts.faults();
    faults.retain(|refusal| !forgiven(refusal));
    match faults.iter().min_by_key(|refusal| order(refusal)) {
        Some(first) => Err(*first),
        None => Ok(parts),
    }
}

/// The length in bytes of the image that begins so, by its header; refused if there is no legal one.
pub fn length(bytes: &[u8]) -> Result<usize, Refusal> {
    Ok(sizes(bytes)?.length())
}

fn sizes(bytes: &[u8]) -> Result<Sizes, Refusal> {
    let header = bytes.get(..HEADER_BYTES).ok_or(Refusal::whole(SHORT))?;
    Sizes::of(&words(header)).ok_or(Refusal::whole(HEADER))
}

fn words(bytes: &[u8]) -> Vec<u16> {
    bytes
        .chunks_exact(2)
        .map(|pair| u16::from_le_bytes([pair[0], pair[1]]))
        .collect()
}

/// Where a fault of a cell or record stands in the paper's order: cells first, then record by record, and
/// within a record by number.
fn order(refusal: &Refusal) -> (bool, usize, u8) {
    (refusal.number != CELL, refusal.place, refusal.number)
}

/// The counts of a header that keeps its rules.
struct Sizes {
    layers: usize,
    rows: usize,
    columns: usize,
    records: usize,
    entries: usize,
}

impl Sizes {
    fn of(words: &[u16]) -> Option<Self> {
        let word = |at: usize| usize::from(words[at]);
        let sizes = Sizes {
            layers: word(1),
            rows: word(2),
            columns: word(3),
            records: word(4),
            entries: word(5),
        };
        let legal = word(0) == 1
            && (1..=8).contains(&sizes.layers)
            && (1..=8).contains(&sizes.rows)
            && (1..=16).contains(&sizes.columns)
            && (1..=256).contains(&sizes.records)
            && sizes.entries <= 1_024
            && word(6) == sizes.records_offset()
            && word(7) == sizes.list_offset();
        legal.then_some(sizes)
    }

    fn cells(&self) -> usize {
        self.layers * self.rows * self.columns
    }

    fn records_offset(&self) -> usize {
        HEADER_BYTES + 2 * self.cells()
    }

    fn list_offset(&self) -> usize {
        self.records_offset() + 8 * self.records
    }

    fn length(&self) -> usize {
        self.list_offset() + 2 * self.entries
    }

    /// The parts of an image that has the length its header says.
    fn parts(&self, words: &[u16]) -> Parts {
        let (cells, rest) = words[HEADER_BYTES / 2..].split_at(self.cells());
        let (records, list) = rest.split_at(4 * self.records);
        Parts {
            rows: self.rows,
            columns: self.columns,
            cells: cells.to_vec(),
            records: records
                .chunks(4)
                .map(|r| [r[0], r[1], r[2], r[3]])
                .collect(),
            list: list.to_vec(),
        }
    }
}

/// What the records above a record need to know of it. Nothing is known of a record that is out of form
/// or names one that is not lower, nor of those that name it.
#[derive(Clone, Copy)]
struct Known {
    open: bool,
    weight: u64,
}

impl Parts {
    pub fn layers(&self) -> usize {
        self.cells.len() / (self.rows * self.columns)
    }

    /// The faults 4 to 9, in no particular order.
    fn faults(&self) -> Vec<Refusal> {
        let mut faults = Vec::new();
        for (place, &cell) in self.cells.iter().enumerate() {
            if usize::from(cell) >= self.records.len() {
                faults.push(Refusal {
                    number: CELL,
                    place,
                });
            }
        }
        let mut known: Vec<Option<Known>> = Vec::new();
        for place in 0..self.records.len() {
            let (numbers, of_this) = self.record_faults(place, &known);
            faults.extend(numbers.into_iter().map(|number| Refusal { number, place }));
            known.push(of_this);
        }
        faults
    }

    /// The numbers of a record's faults and what is known of it, given what is known of the lower ones.
    fn record_faults(&self, place: usize, lower: &[Option<Known>]) -> (Vec<u8>, Option<Known>) {
        if !self.in_form(place) {
            return (vec![RECORD], None);
        }
        let mut faults = Vec::new();
        if !self.codes(place).iter().all(|&word| is_legal(word)) {
            faults.push(CODE);
        }
        let named = self.named(place);
        if !named.iter().all(|&record| usize::from(record) < place) {
            faults.push(CHILD);
            return (faults, None);
        }
        let children: Option<Vec<Known>> = named
            .iter()
            .map(|&record| lower[usize::from(record)])
            .collect();
        let Some(children) = children else {
            return (faults, None);
        };
        let weight = self.weight(place, &children);
        if self.breaks_open_rule(place, &children) {
            faults.push(NESTED);
        }
        if weight > HEAVIEST {
            faults.push(WEIGHT);
        }
        let open = self.kind(place) == 7 || children.iter().any(|child| child.open);
        (faults, Some(Known { open, weight }))
    }

    fn kind(&self, place: usize) -> u16 {
        self.records[place][0]
    }

    /// Whether the kind is known, unused words are zero and the entries are in the list.
    fn in_form(&self, place: usize) -> bool {
        let [kind, a, b, c] = self.records[place];
        match kind {
            0 | 1 => (a, b, c) == (0, 0, 0),
            2 | 5 | 6 => (b, c) == (0, 0),
            3 | 4 => c == 0 && usize::from(a) + usize::from(b) <= self.list.len(),
            _ => kind == 7,
        }
    }

    /// The list entries of a kind 3 or 4 in form.
    pub fn entries(&self, place: usize) -> &[u16] {
        let [_, first, count, _] = self.records[place].map(usize::from);
        &self.list[first..first + count]
    }

    /// The words of a record that are codes.
    fn codes(&self, place: usize) -> &[u16] {
        match self.kind(place) {
            2 => &self.records[place][1..2],
            3 => self.entries(place),
            _ => &[],
        }
    }

    /// The records that a record names, repeated ones each time; of a HoldTap hold and tap.
    pub fn named(&self, place: usize) -> &[u16] {
        match self.kind(place) {
            4 => self.entries(place),
            7 => &self.records[place][2..],
            _ => &[],
        }
    }

    /// Hold and tap are not open; of a MultipleActions all but the last are not.
    fn breaks_open_rule(&self, place: usize, children: &[Known]) -> bool {
        let closed = match self.kind(place) {
            7 => children,
            _ => &children[..children.len().saturating_sub(1)],
        };
        closed.iter().any(|child| child.open)
    }

    /// The weight; a sum past all numbers, which repeated naming can reach, stays at the largest.
    fn weight(&self, place: usize, children: &[Known]) -> u64 {
        let own = match self.kind(place) {
            3 => 1 + self.entries(place).len() as u64,
            _ => 1,
        };
        let below = children.iter().map(|child| child.weight);
        below.fold(own, u64::saturating_add)
    }
}

#[cfg(test)]
mod tests {
    use super::*;
    use crate::random::Random;

    /// A 1 by 1 image of one layer with these records and list.
    fn image(cell: u16, records: &[[u16; 4]], list: &[u16]) -> Vec<u8> {
        let (count, entries) = (records.len() as u16, list.len() as u16);
        let mut words = vec![1, 1, 1, 1, count, entries, 18, 18 + 8 * count, cell];
        words.extend(records.iter().flatten());
        words.extend(list);
        words.iter().flat_map(|word| word.to_le_bytes()).collect()
    }

    /// The refusal's number and place, (0, 0) if there is none.
    fn verdict(bytes: &[u8]) -> (u8, usize) {
        match check(bytes) {
            Ok(_) => (0, 0),
            Err(refusal) => (refusal.number, refusal.place),
        }
    }

    const NOOP: [u16; 4] = [0; 4];
    const HOLDTAP: [u16; 4] = [7, 200, 0, 0];

    #[test]
    fn bench_cases() {
        assert_eq!(verdict(&Z), (0, 0));
        assert_eq!(verdict(&Z[..51]), (LENGTH, 0));
        assert_eq!(verdict(&Z[..15]), (SHORT, 0));
    }

    #[test]
    fn each_header_word_has_its_rule() {
        for (at, bad) in [
            (0, 2),
            (2, 9),
            (4, 0),
            (6, 17),
            (9, 1),
            (11, 5),
            (12, 21),
            (14, 53),
        ] {
            let mut bytes = Z;
            bytes[at] = bad;
            if (at, bad) == (9, 1) {
                bytes[8] = 1;
            }
            assert_eq!(verdict(&bytes), (HEADER, 0), "byte {at}");
        }
        let longer = [&Z[..], &[0]].concat();
        assert_eq!(verdict(&longer), (LENGTH, 0));
    }

    #[test]
    fn cells_come_before_records() {
        assert_eq!(verdict(&image(1, &[[8, 0, 0, 0]], &[])), (CELL, 0));
        let mut bytes = Z;
        bytes[18] = 4;
        assert_eq!(verdict(&bytes), (CELL, 1));
    }

    #[test]
    fn records_have_their_form() {
        for bad in [
            [8, 0, 0, 0],
            [0, 0, 0, 1],
            [1, 1, 0, 0],
            [2, 4, 1, 0],
            [3, 0, 3, 0],
            [3, 65_535, 65_535, 0],
            [4, 3, 0, 0],
            [4, 0, 0, 1],
            [5, 0, 0, 1],
            [6, 0, 1, 0],
        ] {
            assert_eq!(
                verdict(&image(0, &[NOOP, bad], &[0, 0])),
                (RECORD, 1),
                "{bad:?}"
            );
        }
        assert_eq!(verdict(&image(0, &[NOOP, [4, 2, 0, 0]], &[0, 0])), (0, 0));
    }

    #[test]
    fn codes_are_whole_words_and_unnamed_entries_are_free() {
        assert_eq!(verdict(&image(0, &[[2, 0x104, 0, 0]], &[])), (CODE, 0));
        assert_eq!(
            verdict(&image(0, &[NOOP, [3, 0, 2, 0]], &[4, 0xA5])),
            (CODE, 1)
        );
        assert_eq!(
            verdict(&image(0, &[NOOP, [3, 0, 1, 0]], &[4, 0xA5])),
            (0, 0)
        );
    }

    #[test]
    fn children_are_lower() {
        assert_eq!(verdict(&image(0, &[NOOP, [7, 0, 1, 0]], &[])), (CHILD, 1));
        assert_eq!(verdict(&image(0, &[[4, 0, 1, 0]], &[0])), (CHILD, 0));
        assert_eq!(verdict(&image(0, &[NOOP, [4, 0, 1, 0]], &[9])), (CHILD, 1));
    }

    #[test]
    fn only_the_last_action_may_be_open() {
        let last = [NOOP, HOLDTAP, [4, 0, 2, 0], [4, 2, 1, 0]];
        assert_eq!(verdict(&image(0, &last, &[0, 1, 2])), (0, 0));
        assert_eq!(verdict(&image(0, &last, &[1, 0, 2])), (NESTED, 2));
        let inner = [NOOP, HOLDTAP, [4, 0, 1, 0], [7, 1, 0, 2]];
        assert_eq!(verdict(&image(0, &inner, &[1])), (NESTED, 3));
    }

    #[test]
    fn weight_is_at_most_64() {
        let codes = vec![4; 64];
        assert_eq!(verdict(&image(0, &[[3, 0, 63, 0]], &codes)), (0, 0));
        assert_eq!(verdict(&image(0, &[[3, 0, 64, 0]], &codes)), (WEIGHT, 0));
        let twice = [[3, 0, 31, 0], [7, 0, 0, 0]];
        assert_eq!(verdict(&image(0, &twice, &codes)), (WEIGHT, 1));
    }

    #[test]
    fn a_record_passes_whole_before_the_next() {
        let records = [NOOP, [7, 0, 1, 0], [8, 0, 0, 0]];
        assert_eq!(verdict(&image(0, &records, &[])), (CHILD, 1));
    }

    #[test]
    fn repeated_naming_ends_quickly() {
        let records: Vec<[u16; 4]> = (0..256)
            .map(|at: u16| if at == 0 { NOOP } else { [4, at * 4 - 4, 4, 0] })
            .collect();
        let list: Vec<u16> = (0..1_020).map(|at| at / 4).collect();
        assert_eq!(verdict(&image(0, &records, &list)), (WEIGHT, 3));
    }

    #[test]
    fn damaged_images_are_answered() {
        let mut random = Random::new(1);
        for _ in 0..20_000 {
            let mut bytes = image(0, &[NOOP, HOLDTAP, [3, 0, 2, 0], [4, 1, 2, 0]], &[4, 0, 1]);
            for _ in 0..random.among(1, 4) {
                let at = random.below(bytes.len());
                bytes[at] = random.below(256) as u8;
            }
            bytes.truncate(random.among(0, 2 * bytes.len()));
            let (number, place) = verdict(&bytes);
            assert!(number <= 9 && place < 4);
        }
    }
}
