//! Which cells differ between two tables, by document 02, request W-203: the tree of every cell is written out as text,
//! and a cell is listed where the two texts differ.
//!
//! Assumes: nothing of the bytes. Trees are written only of accepted images, whose records name lower ones, so each
//! has an end.
//! Read so: all that stands in a tree counts, also what has no effect; the numbers of records, the places of lists and
//! what no cell reaches do not stand in it. L, R and C are compared one by one. The buffer is asked for all cells,
//! also where none differs.

use super::image::{self, Parts, Refusal};
use super::ROOM;

pub const SHAPE: u8 = 16;

/// The cells whose actions differ, in their order, three bytes each: layer, row and column.
pub fn differing(one: &[u8], other: &[u8], room: usize) -> Result<Vec<u8>, Refusal> {
    let first = image::check(one)?;
    let second = image::check(other)?;
    if sizes(&first) != sizes(&second) {
        return Err(Refusal::whole(SHAPE));
    }
    if room < 3 * first.cells.len() {
        return Err(Refusal::whole(ROOM));
    }
    let [layers, rows, columns] = sizes(&first);
    let mut listed = Vec::new();
    for layer in 0..layers {
        for row in 0..rows {
            for column in 0..columns {
                let cell = (layer * rows + row) * columns + column;
                if action(&first, cell) != action(&second, cell) {
                    listed.extend([layer, row, column].map(|number| number as u8));
                }
            }
        }
    }
    Ok(listed)
}

fn sizes(parts: &Parts) -> [usize; 3] {
    [parts.layers(), parts.rows, parts.columns]
}

/// The action of a cell, written out.
fn action(parts: &Parts, cell: usize) -> String {
    tree(parts, parts.cells[cell])
}

/// The tree of a record, written out: its kind by name, its words, and the trees of the records that it names.
fn tree(parts: &Parts, record: u16) -> String {
    let place = usize::from(record);
    let [kind, a, ..] = parts.records[place];
    match kind {
        0 => "NoOp".to_string(),
        1 => "Trans".to_string(),
        2 => format!("KeyCode {a}"),
        3 => format!("MultipleKeyCodes {}", codes(parts.entries(place))),
        4 => format!("MultipleActions {}", trees(parts, parts.entries(place))),
        5 => format!("Layer {a}"),
        6 => format!("DefaultLayer {a}"),
        _ => format!("HoldTap {a} {}", trees(parts, parts.named(place))),
    }
}

fn codes(words: &[u16]) -> String {
    let written: Vec<String> = words.iter().map(u16::to_string).collect();
    format!("[{}]", written.join(", "))
}

fn trees(parts: &Parts, named: &[u16]) -> String {
    let written: Vec<String> = named.iter().map(|&record| tree(parts, record)).collect();
    format!("[{}]", written.join(", "))
}

#[cfg(test)]
mod tests {
    use super::*;
    use crate::paper::image::Z;

    /// As long as a buffer of `replay` can be.
    const ROOMY: usize = 65_535;
    const NOOP: [u16; 4] = [0; 4];

    /// An image of these sizes.
    fn image(sizes: [u16; 3], cells: &[u16], records: &[[u16; 4]], list: &[u16]) -> Vec<u8> {
        let offset = 16 + 2 * cells.len();
        let counts = [
            records.len(),
            list.len(),
            offset,
            offset + 8 * records.len(),
        ];
        let mut words = vec![1];
        words.extend(sizes);
        words.extend(counts.map(|count| count as u16));
        words.extend(cells);
        words.extend(records.iter().flatten());
        words.extend(list);
        words.iter().flat_map(|word| word.to_le_bytes()).collect()
    }

    /// An image of one cell, which names the last record.
    fn single(records: &[[u16; 4]], list: &[u16]) -> Vec<u8> {
        image([1; 3], &[records.len() as u16 - 1], records, list)
    }

    /// Whether two images of one cell differ in it.
    fn differ(one: &[u8], other: &[u8]) -> bool {
        let listed = differing(one, other, 3);
        assert_eq!(listed, differing(other, one, 3));
        match listed.expect("both are accepted").as_slice() {
            [] => false,
            [0, 0, 0] => true,
            more => panic!("one cell, and {more:?}"),
        }
    }

    /// The number and place of the refusal, (0, 0) if there is none.
    fn verdict(one: &[u8], other: &[u8], room: usize) -> (u8, usize) {
        let answer = differing(one, other, room);
        answer.map_or_else(|refusal| (refusal.number, refusal.place), |_| (0, 0))
    }

    /// Z with one byte set.
    fn z_with(at: usize, byte: u8) -> Vec<u8> {
        let mut image = Z.to_vec();
        image[at] = byte;
        image
    }

    #[test]
    fn z_is_itself_and_no_other() {
        assert_eq!(differing(&Z, &Z, 6), Ok(vec![]));
        // the timeout, the code of the tap, which the second cell has too, and the second cell
        assert_eq!(differing(&Z, &z_with(46, 4), 6), Ok(vec![0, 0, 0]));
        assert_eq!(differing(&Z, &z_with(30, 4), 6), Ok(vec![0, 0, 0, 0, 0, 1]));
        assert_eq!(differing(&Z, &z_with(18, 2), 6), Ok(vec![0, 0, 1]));
    }

    #[test]
    fn cells_come_by_layer_row_and_column() {
        let records = [NOOP, [1, 0, 0, 0]];
        let one = image([2, 2, 3], &[0; 12], &records, &[]);
        let other = image([2, 2, 3], &[1; 12], &records, &[]);
        let places = (0..12).flat_map(|at| [at / 6, at / 3 % 2, at % 3]);
        assert_eq!(differing(&one, &other, 36), Ok(places.collect()));
        let mut cells = [0; 12];
        (cells[4], cells[7]) = (1, 1);
        let other = image([2, 2, 3], &cells, &records, &[]);
        assert_eq!(differing(&one, &other, 36), Ok(vec![0, 1, 1, 1, 0, 1]));
    }

    #[test]
    fn every_word_of_a_tree_counts() {
        let plain = [
            NOOP,
            [1, 0, 0, 0],
            [2, 0, 0, 0],
            [2, 4, 0, 0],
            [2, 5, 0, 0],
            [3, 0, 0, 0],
            [4, 0, 0, 0],
            [3, 0, 1, 0],
            [3, 1, 1, 0],
            [3, 0, 2, 0],
            [3, 2, 2, 0],
            [3, 0, 3, 0],
            [5, 0, 0, 0],
            [6, 0, 0, 0],
            [5, 9, 0, 0],
            [5, 10, 0, 0],
            [5, 265, 0, 0],
            [6, 9, 0, 0],
            [6, 10, 0, 0],
        ];
        for (at, one) in plain.iter().enumerate() {
            for (place, other) in plain.iter().enumerate() {
                let [one, other] = [one, other].map(|&record| single(&[record], &[4, 5, 5, 4]));
                assert_eq!(differ(&one, &other), at != place, "{at} {place}");
            }
        }
    }

    #[test]
    fn an_action_is_not_the_list_of_it_alone() {
        let key = [2, 4, 0, 0];
        let [alone, listed] = [single(&[key], &[]), single(&[key, [4, 0, 1, 0]], &[0])];
        assert!(differ(&alone, &listed));
        assert!(differ(&alone, &single(&[[3, 0, 1, 0]], &[4])));
        let twice = single(&[key, [4, 0, 1, 0], [4, 1, 1, 0]], &[0, 1]);
        assert!(differ(&listed, &twice));
        // a list in a list is not the list of all its actions
        let flat = single(&[key, [4, 0, 2, 0]], &[0, 0]);
        let nested = single(&[key, [4, 0, 1, 0], [4, 1, 2, 0]], &[0, 0, 1]);
        assert!(differ(&flat, &nested));
        // nor is a list of key codes that of the same KeyCodes
        assert!(differ(&flat, &single(&[[3, 0, 2, 0]], &[4, 4])));
    }

    #[test]
    fn hold_and_tap_are_not_exchanged() {
        let keys = [[2, 4, 0, 0], [2, 5, 0, 0]];
        let of = |timeout: u16, hold: u16, tap: u16| {
            single(&[keys[0], keys[1], [7, timeout, hold, tap]], &[])
        };
        assert!(!differ(&of(200, 0, 1), &of(200, 0, 1)));
        assert!(differ(&of(200, 0, 1), &of(200, 1, 0)));
        assert!(differ(&of(200, 0, 1), &of(201, 0, 1)));
        assert!(differ(&of(200, 0, 1), &of(456, 0, 1)));
        assert!(differ(&of(200, 0, 1), &of(200, 0, 0)));
    }

    #[test]
    fn the_order_and_number_of_entries_count() {
        let of = |list: &[u16]| single(&[[3, 0, list.len() as u16, 0]], list);
        assert!(differ(&of(&[4, 5]), &of(&[5, 4])));
        assert!(differ(&of(&[4, 4, 5]), &of(&[4, 5, 5])));
        assert!(differ(&of(&[4, 5]), &of(&[4, 5, 5])));
        assert!(differ(&of(&[4, 5]), &of(&[45])));
        let of = |list: &[u16]| {
            let records = [NOOP, [1, 0, 0, 0], [4, 0, list.len() as u16, 0]];
            single(&records, list)
        };
        assert!(differ(&of(&[0, 1]), &of(&[1, 0])));
        assert!(differ(&of(&[0, 1]), &of(&[0, 1, 1])));
        assert!(differ(&of(&[0, 1]), &of(&[0])));
    }

    #[test]
    fn record_numbers_do_not_count() {
        let one = [[2, 4, 0, 0], [2, 5, 0, 0], [7, 9, 0, 1], [4, 0, 2, 0]];
        let other = [[2, 5, 0, 0], [2, 4, 0, 0], [7, 9, 1, 0], [4, 0, 2, 0]];
        assert!(!differ(&single(&one, &[0, 2]), &single(&other, &[1, 2])));
        assert!(differ(&single(&one, &[0, 2]), &single(&other, &[0, 2])));
        // the same record named twice, and two that are the same
        let shared = single(&[NOOP, [7, 0, 0, 0]], &[]);
        assert!(!differ(&shared, &single(&[NOOP, NOOP, [7, 0, 1, 0]], &[])));
    }

    #[test]
    fn where_a_list_stands_does_not_count() {
        let front = single(&[[3, 0, 2, 0]], &[4, 5]);
        assert!(!differ(&front, &single(&[[3, 3, 2, 0]], &[9, 9, 4, 4, 5])));
        let empty = [3, 4].map(|kind| single(&[[kind, 0, 0, 0]], &[4, 5]));
        let at_end = [3, 4].map(|kind| single(&[[kind, 2, 0, 0]], &[4, 5]));
        assert!(!differ(&empty[0], &at_end[0]) && !differ(&empty[1], &at_end[1]));
        assert!(differ(&empty[0], &empty[1]) && differ(&empty[0], &at_end[1]));
        // an entry that is a code to one record and a record to another
        let both = single(&[NOOP, [3, 0, 1, 0], [4, 0, 2, 0]], &[0, 1]);
        let apart = single(&[NOOP, [3, 0, 1, 0], [4, 1, 2, 0]], &[0, 0, 1]);
        assert!(!differ(&both, &apart));
    }

    #[test]
    fn what_no_cell_reaches_does_not_count() {
        let least = single(&[NOOP], &[]);
        let more = image(
            [1; 3],
            &[0],
            &[NOOP, [5, 7, 0, 0], [7, 1, 1, 1]],
            &[9, 65_535],
        );
        assert!(!differ(&least, &more));
        let other = image([1; 3], &[0], &[NOOP, [6, 7, 0, 0], [7, 2, 0, 1]], &[8]);
        assert!(!differ(&more, &other));
    }

    #[test]
    fn sizes_are_compared_one_by_one() {
        let of = |sizes: [u16; 3]| {
            let cells = sizes.iter().product::<u16>();
            image(sizes, &vec![0; cells.into()], &[NOOP], &[])
        };
        for (one, other) in [
            ([1, 2, 3], [1, 3, 2]),
            ([1, 2, 3], [2, 1, 3]),
            ([1, 2, 3], [3, 2, 1]),
            ([1, 1, 6], [1, 2, 3]),
            ([1, 1, 1], [2, 1, 1]),
            ([1, 1, 1], [1, 2, 1]),
            ([1, 1, 1], [1, 1, 2]),
        ] {
            assert_eq!(verdict(&of(one), &of(other), ROOMY), (SHAPE, 0));
            assert_eq!(verdict(&of(other), &of(one), 0), (SHAPE, 0));
        }
    }

    #[test]
    fn room_is_asked_for_all_cells() {
        assert_eq!([6, 5, 0].map(|room| verdict(&Z, &Z, room).0), [0, 12, 12]);
        let other = z_with(46, 4);
        assert_eq!(
            [6, 5, 3].map(|room| verdict(&Z, &other, room).0),
            [0, 12, 12]
        );
        assert_eq!(verdict(&Z, &Z, ROOMY), (0, 0));
    }

    #[test]
    fn refusals_have_their_order() {
        let (cell, child) = (z_with(18, 4), z_with(48, 3));
        assert_eq!(verdict(&cell, &child, 0), (4, 1));
        assert_eq!(verdict(&child, &cell, 0), (7, 3));
        assert_eq!(verdict(&Z, &child, 0), (7, 3));
        assert_eq!(verdict(&child, &Z, 6), (7, 3));
        assert_eq!(verdict(&[], &Z[..51], 0), (1, 0));
        assert_eq!(verdict(&Z[..51], &[], 0), (3, 0));
        assert_eq!(verdict(&Z, &[], ROOMY), (1, 0));
        // the second is refused and has other sizes too
        let bad = single(&[[8, 0, 0, 0]], &[]);
        assert_eq!(verdict(&Z, &bad, 0), (5, 0));
        assert_eq!(verdict(&Z, &single(&[NOOP], &[]), 0), (SHAPE, 0));
    }

    #[test]
    fn the_largest_tables_are_compared() {
        let chain: Vec<[u16; 4]> = (0..256)
            .map(|at: u16| match at % 64 {
                0 => [2, at / 64, 0, 0],
                _ => [4, at, 1, 0],
            })
            .collect();
        let list: Vec<u16> = (0..1_024).map(|at: u16| at.saturating_sub(1)).collect();
        let one = image([8, 8, 16], &[63; 1_024], &chain, &list);
        let other = image([8, 8, 16], &[127; 1_024], &chain, &list);
        assert_eq!(verdict(&one, &other, 3_071), (12, 0));
        assert_eq!(differing(&one, &one, 3_072), Ok(vec![]));
        let listed = differing(&one, &other, 3_072).expect("both are accepted");
        assert_eq!((listed.len(), &listed[3_069..]), (3_072, &[7, 7, 15][..]));
    }
}
