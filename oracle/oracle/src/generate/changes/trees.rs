//! Tables as the trees of their cells, with nothing of how these are laid out in records and lists: the generator's own
//! measure of which cells differ.
//!
//! Assumes: a draft whose trees are taken is accepted.

use crate::generate::draft::{Draft, HEAVIEST};
use crate::random::Random;
use std::rc::Rc;

pub const NOOP: u16 = 0;
pub const TRANS: u16 = 1;
pub const KEY_CODE: u16 = 2;
pub const CODES: u16 = 3;
pub const ACTIONS: u16 = 4;
pub const LAYER: u16 = 5;
pub const DEFAULT_LAYER: u16 = 6;
pub const HOLD_TAP: u16 = 7;

#[derive(Clone, Debug, Hash, PartialEq, Eq)]
pub struct Tree {
    pub kind: u16,
    /// The code, the codes, the layer's number or the timeout.
    pub words: Vec<u16>,
    /// The actions of a MultipleActions; of a HoldTap hold and tap.
    pub children: Vec<Rc<Tree>>,
}

impl Tree {
    /// A tree that has no others under it.
    pub fn leaf(kind: u16, words: &[u16]) -> Self {
        Tree {
            kind,
            words: words.to_vec(),
            children: Vec::new(),
        }
    }

    pub fn actions(children: Vec<Rc<Tree>>) -> Self {
        Tree {
            kind: ACTIONS,
            words: Vec::new(),
            children,
        }
    }

    pub fn weight(&self) -> usize {
        let own = match self.kind {
            CODES => 1 + self.words.len(),
            _ => 1,
        };
        own + self.children.iter().map(|c| c.weight()).sum::<usize>()
    }

    fn is_open(&self) -> bool {
        self.kind == HOLD_TAP || self.children.iter().any(|child| child.is_open())
    }

    /// Whether records may have this tree: by its weight and the open rule, here and under it.
    pub fn is_legal(&self) -> bool {
        let closed = match self.kind {
            HOLD_TAP => &self.children[..],
            _ => &self.children[..self.children.len().saturating_sub(1)],
        };
        self.weight() <= HEAVIEST
            && !closed.iter().any(|child| child.is_open())
            && self.children.iter().all(|child| child.is_legal())
    }

    /// A way down to one of its nodes, this one too: at each the number of a child. Often one that goes to an end.
    pub fn some_way(&self, random: &mut Random) -> Vec<usize> {
        let mut way = Vec::new();
        let mut node = self;
        let stops = random.once_in(2);
        while !node.children.is_empty() {
            if stops && random.once_in(3) {
                break;
            }
            let child = random.place(0, node.children.len());
            way.push(child);
            node = &node.children[child];
        }
        way
    }

    pub fn node(&self, way: &[usize]) -> &Tree {
        way.iter().fold(self, |node, &child| &node.children[child])
    }

    /// This tree with another node at the end of a way.
    pub fn with_node(&self, way: &[usize], node: Tree) -> Tree {
        let Some((&child, rest)) = way.split_first() else {
            return node;
        };
        let mut tree = self.clone();
        tree.children[child] = Rc::new(self.children[child].with_node(rest, node));
        tree
    }

    /// This tree with a node in the place of each that is equal to an old one.
    pub fn with_all(&self, old: &Tree, new: &Tree) -> Tree {
        if self == old {
            return new.clone();
        }
        let children = self.children.iter();
        Tree {
            kind: self.kind,
            words: self.words.clone(),
            children: children.map(|c| Rc::new(c.with_all(old, new))).collect(),
        }
    }
}

/// The trees of a table's cells, by layer, row and column.
#[derive(Clone, Debug, PartialEq)]
pub struct Table {
    /// Layers, rows and columns.
    pub sizes: [usize; 3],
    pub cells: Vec<Rc<Tree>>,
}

impl Table {
    pub fn of(draft: &Draft) -> Self {
        let mut trees: Vec<Rc<Tree>> = Vec::new();
        for record in &draft.records {
            let tree = tree(*record, &draft.list, &trees);
            trees.push(Rc::new(tree));
        }
        let cells = draft.cells.iter();
        Table {
            sizes: [draft.layers, draft.rows, draft.columns],
            cells: cells
                .map(|&cell| trees[usize::from(cell)].clone())
                .collect(),
        }
    }

    /// The cells that differ, as they are to be listed. Both tables have the same sizes.
    pub fn differing(&self, other: &Table) -> Vec<u8> {
        let [_, rows, columns] = self.sizes;
        let places = (0..self.cells.len()).filter(|&at| self.cells[at] != other.cells[at]);
        let listed = places.flat_map(|at| [at / columns / rows, at / columns % rows, at % columns]);
        listed.map(|number| number as u8).collect()
    }
}

/// The tree of a record, given those of the lower ones.
fn tree([kind, a, b, c]: [u16; 4], list: &[u16], lower: &[Rc<Tree>]) -> Tree {
    let entries = || &list[usize::from(a)..usize::from(a) + usize::from(b)];
    let named = |records: &[u16]| {
        let trees = records.iter().map(|&r| lower[usize::from(r)].clone());
        trees.collect()
    };
    match kind {
        NOOP | TRANS => Tree::leaf(kind, &[]),
        CODES => Tree::leaf(kind, entries()),
        ACTIONS => Tree::actions(named(entries())),
        HOLD_TAP => Tree {
            kind,
            words: vec![a],
            children: named(&[b, c]),
        },
        _ => Tree::leaf(kind, &[a]),
    }
}

#[cfg(test)]
mod tests {
    use super::*;
    use crate::generate::grow::{accepted, Reach};
    use crate::paper::changes::differing;

    #[test]
    fn accepted_trees_are_legal() {
        let mut random = Random::new(4);
        for _ in 0..2_000 {
            let table = Table::of(&accepted(&mut random, Reach::Small));
            assert!(table.cells.iter().all(|cell| cell.is_legal()));
        }
    }

    #[test]
    fn trees_and_the_papers_texts_tell_the_same_cells() {
        let mut random = Random::new(5);
        for _ in 0..2_000 {
            let one = accepted(&mut random, Reach::Small);
            let mut other = one.clone();
            random.shuffle(&mut other.cells);
            let expected = Table::of(&one).differing(&Table::of(&other));
            let told = differing(&one.bytes(), &other.bytes(), 3 * one.cells.len());
            assert_eq!(told, Ok(expected));
        }
    }
}
