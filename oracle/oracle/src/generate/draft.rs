//! A table under construction: its parts apart, with any words in them, and of each record what those above
//! it must know to name it and keep the rules.
//!
//! Assumes: counts fit a word. Nothing is assumed of the words.

use super::codes::legal;
use crate::random::Random;

/// The limits of document 01, "The table image".
pub const MOST_LAYERS: usize = 8;
pub const MOST_ROWS: usize = 8;
pub const MOST_COLUMNS: usize = 16;
pub const MOST_RECORDS: usize = 256;
pub const MOST_ENTRIES: usize = 1_024;
pub const HEAVIEST: usize = 64;

pub const NOOP: [u16; 4] = [0; 4];

/// Whether a record is open, and its weight.
#[derive(Clone, Copy)]
pub struct Shape {
    pub open: bool,
    pub weight: usize,
}

#[derive(Clone)]
pub struct Draft {
    pub layers: usize,
    pub rows: usize,
    pub columns: usize,
    pub cells: Vec<u16>,
    pub records: Vec<[u16; 4]>,
    pub list: Vec<u16>,
    /// The records' shapes; none of those that no legal record may name.
    pub shapes: Vec<Option<Shape>>,
    /// Whether entries stay where they are: from the first damaged record on, which may hold any words and
    /// so cannot be led after them.
    pub fixed: bool,
}

impl Draft {
    /// A table without records, whose cells all name the first.
    pub fn new(layers: usize, rows: usize, columns: usize) -> Self {
        Draft {
            layers,
            rows,
            columns,
            cells: vec![0; layers * rows * columns],
            records: Vec::new(),
            list: Vec::new(),
            shapes: Vec::new(),
            fixed: false,
        }
    }

    /// The image, with the counts and offsets that its parts have.
    pub fn bytes(&self) -> Vec<u8> {
        let records = 16 + 2 * self.cells.len();
        let list = records + 8 * self.records.len();
        let counts = [self.layers, self.rows, self.columns, self.records.len()];
        let header = [&[1], &counts[..], &[self.list.len(), records, list]].concat();
        let words = header.iter().map(|&word| word as u16);
        words
            .chain(self.cells.iter().copied())
            .chain(self.records.iter().flatten().copied())
            .chain(self.list.iter().copied())
            .flat_map(u16::to_le_bytes)
            .collect()
    }

    /// Whether some 70 records and 140 entries more have room, enough for any way to a weight.
    pub fn has_room(&self) -> bool {
        self.records.len() + 70 <= MOST_RECORDS && self.list.len() + 140 <= MOST_ENTRIES
    }

    /// Adds a record; its number.
    pub fn push(&mut self, record: [u16; 4], shape: Option<Shape>) -> u16 {
        self.records.push(record);
        self.shapes
            .push(shape.filter(|shape| shape.weight <= HEAVIEST));
        (self.records.len() - 1) as u16
    }

    /// Adds a record that names none and has no entries.
    pub fn push_plain(&mut self, record: [u16; 4]) -> u16 {
        let shape = Shape {
            open: false,
            weight: 1,
        };
        self.push(record, Some(shape))
    }

    /// Adds a MultipleKeyCodes of new entries.
    pub fn push_codes(&mut self, random: &mut Random, count: usize) -> u16 {
        let codes: Vec<u16> = (0..count).map(|_| legal(random).into()).collect();
        let first = self.enter(random, &codes);
        self.push_old_codes(first, count)
    }

    /// Adds a MultipleKeyCodes of entries that the list has.
    pub fn push_old_codes(&mut self, first: usize, count: usize) -> u16 {
        let shape = Shape {
            open: false,
            weight: 1 + count,
        };
        self.push([3, first as u16, count as u16, 0], Some(shape))
    }

    /// Adds a MultipleActions of new entries.
    pub fn push_actions(&mut self, random: &mut Random, named: &[u16]) -> u16 {
        let first = self.enter(random, named);
        self.push_old_actions(first, named.len())
    }

    /// Adds a MultipleActions of entries that the list has.
    pub fn push_old_actions(&mut self, first: usize, count: usize) -> u16 {
        let shape = self.shape_of_actions(&self.list[first..first + count]);
        self.push([4, first as u16, count as u16, 0], shape)
    }

    pub fn push_hold_tap(&mut self, timeout: u16, hold: u16, tap: u16) -> u16 {
        let shape = self.weights(&[hold, tap]).map(|weights| Shape {
            open: true,
            weight: 1 + weights,
        });
        self.push([7, timeout, hold, tap], shape)
    }

    /// The shape of a MultipleActions of these records, if it is legal now.
    pub fn shape_of_actions(&self, named: &[u16]) -> Option<Shape> {
        let weight = 1 + self.weights(named)?;
        let opens = named.iter().filter(|&&record| self.is_open(record)).count();
        let open = named.last().is_some_and(|&record| self.is_open(record));
        (opens == usize::from(open) && weight <= HEAVIEST).then_some(Shape { open, weight })
    }

    /// The sum of the records' weights; none if one of them may not be named.
    fn weights(&self, named: &[u16]) -> Option<usize> {
        named
            .iter()
            .map(|&record| Some(self.shape(record)?.weight))
            .sum()
    }

    pub fn shape(&self, record: u16) -> Option<Shape> {
        *self.shapes.get(usize::from(record))?
    }

    fn is_open(&self, record: u16) -> bool {
        self.shape(record).is_some_and(|shape| shape.open)
    }

    /// The records below a place that a legal record may name, open or not, up to a weight.
    pub fn nameable(&self, below: usize, open: bool, most: usize) -> Vec<u16> {
        let below = below.min(self.records.len()) as u16;
        let fits = |&record: &u16| {
            self.shape(record)
                .is_some_and(|shape| shape.open == open && shape.weight <= most)
        };
        (0..below).filter(fits).collect()
    }

    /// Brings entries into the list, behind the others or before them; the number of the first.
    pub fn enter(&mut self, random: &mut Random, entries: &[u16]) -> usize {
        if self.fixed || !random.once_in(4) {
            self.list.extend(entries);
            return self.list.len() - entries.len();
        }
        self.list.splice(..0, entries.iter().copied());
        for record in &mut self.records {
            if matches!(record[0], 3 | 4) {
                record[1] += entries.len() as u16;
            }
        }
        0
    }

    /// Brings entries into the list at all costs: where there is no room, over the last ones.
    pub fn force(&mut self, entries: &[u16]) -> usize {
        let kept = self
            .list
            .len()
            .min(MOST_ENTRIES.saturating_sub(entries.len()));
        self.list.truncate(kept);
        self.list.extend(entries);
        kept
    }

    /// Puts a damaged record in the place of another.
    pub fn replace(&mut self, place: usize, record: [u16; 4]) {
        self.records[place] = record;
        self.shapes[place] = None;
        self.fixed = true;
    }
}

#[cfg(test)]
mod tests {
    use super::*;
    use crate::paper::image::Z;

    #[test]
    fn z_is_written() {
        let mut draft = Draft::new(1, 1, 2);
        draft.cells = vec![3, 1];
        draft.push_plain(NOOP);
        draft.push_plain([2, 0x2C, 0, 0]);
        draft.push_plain([2, 0xE0, 0, 0]);
        draft.push_hold_tap(3, 2, 1);
        assert_eq!(draft.bytes(), Z);
    }

    #[test]
    fn entries_move_with_their_records() {
        let mut random = Random::new(5);
        let mut draft = Draft::new(1, 1, 1);
        for count in 1..40 {
            draft.push_codes(&mut random, count);
        }
        let mut named: Vec<[u16; 4]> = draft.records.clone();
        named.sort_by_key(|record| record[1]);
        let mut next = 0;
        for [_, first, count, _] in named {
            assert_eq!(first, next);
            next += count;
        }
        assert_eq!(usize::from(next), draft.list.len());
    }
}
