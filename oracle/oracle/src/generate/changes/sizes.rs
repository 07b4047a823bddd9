//! Tables with other sizes: permuted ones, ones of as many cells, and ones that are off by one.
//!
//! Assumes: the sizes are legal; so are the others.

use crate::generate::draft::{Draft, MOST_COLUMNS, MOST_LAYERS, MOST_ROWS};
use crate::random::Random;

/// The same records under cells of these sizes: as many of the old cells as there are, then others.
pub fn with_sizes(mut draft: Draft, sizes: [usize; 3], random: &mut Random) -> Draft {
    let records = draft.records.len();
    [draft.layers, draft.rows, draft.columns] = sizes;
    let cells = sizes.iter().product();
    draft
        .cells
        .resize_with(cells, || random.below(records) as u16);
    draft
}

/// Legal sizes that are not these.
pub fn other_sizes(random: &mut Random, sizes: [usize; 3]) -> [usize; 3] {
    let wanted: Vec<[usize; 3]> = match random.below(4) {
        0 => permuted(sizes).into(),
        1 => all()
            .filter(|other| cells(*other) == cells(sizes))
            .collect(),
        _ => by_one(sizes).into(),
    };
    let fitting = |from: Vec<[usize; 3]>| -> Vec<[usize; 3]> {
        let legal = |other: &[usize; 3]| are_legal(*other) && *other != sizes;
        from.into_iter().filter(legal).collect()
    };
    let mut others = fitting(wanted);
    if others.is_empty() {
        others = fitting(by_one(sizes).into());
    }
    random.pick(&others)
}

fn cells(sizes: [usize; 3]) -> usize {
    sizes.iter().product()
}

fn are_legal([layers, rows, columns]: [usize; 3]) -> bool {
    (1..=MOST_LAYERS).contains(&layers)
        && (1..=MOST_ROWS).contains(&rows)
        && (1..=MOST_COLUMNS).contains(&columns)
}

fn all() -> impl Iterator<Item = [usize; 3]> {
    let each = 0..MOST_LAYERS * MOST_ROWS * MOST_COLUMNS;
    each.map(|at| {
        let (layer, row) = (at / MOST_COLUMNS / MOST_ROWS, at / MOST_COLUMNS % MOST_ROWS);
        [layer + 1, row + 1, at % MOST_COLUMNS + 1]
    })
}

fn permuted([l, r, c]: [usize; 3]) -> [[usize; 3]; 5] {
    [[l, c, r], [r, l, c], [r, c, l], [c, l, r], [c, r, l]]
}

/// One size by one more or less.
fn by_one([l, r, c]: [usize; 3]) -> [[usize; 3]; 6] {
    [
        [l + 1, r, c],
        [l, r + 1, c],
        [l, r, c + 1],
        [l - 1, r, c],
        [l, r - 1, c],
        [l, r, c - 1],
    ]
}

#[cfg(test)]
mod tests {
    use super::*;

    #[test]
    fn they_are_others_and_legal() {
        let mut random = Random::new(8);
        let mut same_product = 0;
        for sizes in all() {
            assert!(are_legal(sizes));
            for _ in 0..5 {
                let other = other_sizes(&mut random, sizes);
                assert!(are_legal(other) && other != sizes);
                same_product += usize::from(cells(other) == cells(sizes));
            }
        }
        assert!(same_product > 1_500, "{same_product}");
    }
}
