//! Trees laid out in records and lists, in one of the many ways there are: equal trees in one record or in copies,
//! records in any order that has the named ones first, lists anywhere, apart, shared and overlapping, and records and
//! entries that no cell reaches between them.
//!
//! Assumes: the trees are legal. Not all trees that fit a table in one way fit in every way; a thrifty one is tried
//! last.

use super::trees::{Table, Tree, ACTIONS, CODES, HOLD_TAP, KEY_CODE, LAYER, NOOP};
use crate::generate::codes::legal;
use crate::generate::draft::{Draft, MOST_ENTRIES, MOST_RECORDS};
use crate::generate::fields::word;
use crate::generate::grow::Reach;
use crate::random::Random;
use std::collections::HashMap;
use std::rc::Rc;

/// How lavishly a table is laid out.
#[derive(Clone, Copy)]
struct Style {
    /// How many records may be copies of others.
    copies: usize,
    /// How many trees that no cell has are laid out too, at the most.
    strays: usize,
    /// Whether entries that no record names stand between lists, and equal lists apart.
    loose: bool,
    /// Whether there are as many records and entries as there can be.
    full: bool,
}

const THRIFTY: Style = Style {
    copies: 0,
    strays: 0,
    loose: false,
    full: false,
};

/// A draft with these trees; none if they do not fit.
pub fn laid(
    table: &Table,
    strays: &[Rc<Tree>],
    random: &mut Random,
    reach: Reach,
) -> Option<Draft> {
    // where cells are many, records and entries are to be so too
    let seldom = if table.cells.len() > 512 { 3 } else { 150 };
    let lavish = Style {
        copies: random.pick(&[0, 1, 3, 10, 60]),
        strays: random.pick(&[0, 0, 1, 3, 12]),
        loose: !random.once_in(4),
        full: reach == Reach::Any && random.once_in(seldom),
    };
    let draft = laid_so(table, strays, random, lavish);
    draft.or_else(|| laid_so(table, &[], random, THRIFTY))
}

fn laid_so(table: &Table, strays: &[Rc<Tree>], random: &mut Random, style: Style) -> Option<Draft> {
    let mut nodes = Nodes {
        copies: style.copies,
        ..Nodes::default()
    };
    let cells = table.cells.iter();
    let cells: Vec<usize> = cells.map(|tree| nodes.of(random, tree)).collect();
    for _ in 0..style.strays.min(strays.len()) {
        nodes.add_stray(random, strays);
    }
    if style.full {
        nodes.fill(random);
    }
    if nodes.all.len() > MOST_RECORDS {
        return None;
    }
    let numbers = nodes.numbers(random);
    let [layers, rows, columns] = table.sizes;
    let mut draft = Draft::new(layers, rows, columns);
    draft.cells = cells.iter().map(|&node| numbers[node]).collect();
    nodes.write(&mut draft, random, &numbers, style);
    (draft.list.len() <= MOST_ENTRIES).then_some(draft)
}

/// A record to be, without a number.
struct Node {
    tree: Rc<Tree>,
    /// The nodes that it names.
    named: Vec<usize>,
}

#[derive(Default)]
struct Nodes {
    all: Vec<Node>,
    /// The nodes that have a tree.
    known: HashMap<Rc<Tree>, Vec<usize>>,
    /// How many more copies there may be.
    copies: usize,
}

impl Nodes {
    /// A node with this tree: one that there is, or a new one.
    fn of(&mut self, random: &mut Random, tree: &Rc<Tree>) -> usize {
        if let Some(known) = self.known.get(tree) {
            if self.copies == 0 || !random.once_in(3) {
                return random.pick(known);
            }
            self.copies -= 1;
        }
        let children = tree.children.iter();
        let named = children.map(|child| self.of(random, child)).collect();
        self.push(tree.clone(), named)
    }

    fn push(&mut self, tree: Rc<Tree>, named: Vec<usize>) -> usize {
        let node = self.all.len();
        self.known.entry(tree.clone()).or_default().push(node);
        self.all.push(Node { tree, named });
        node
    }

    /// Adds a tree that no cell has, if it has room.
    fn add_stray(&mut self, random: &mut Random, strays: &[Rc<Tree>]) {
        let tree = &strays[random.below(strays.len())];
        if self.all.len() + tree.weight() <= MOST_RECORDS {
            self.of(random, tree);
        }
    }

    /// Adds plain records until there are as many as there can be.
    fn fill(&mut self, random: &mut Random) {
        while self.all.len() < MOST_RECORDS {
            let tree = match random.below(3) {
                0 => Tree::leaf(NOOP, &[]),
                1 => Tree::leaf(LAYER, &[word(random)]),
                _ => Tree::leaf(KEY_CODE, &[legal(random).into()]),
            };
            self.push(Rc::new(tree), Vec::new());
        }
    }

    /// The numbers of the records: any that have those of the named ones below them.
    fn numbers(&self, random: &mut Random) -> Vec<u16> {
        let mut missing: Vec<usize> = self.all.iter().map(|node| node.named.len()).collect();
        let mut named_by = vec![Vec::new(); self.all.len()];
        for (node, Node { named, .. }) in self.all.iter().enumerate() {
            named.iter().for_each(|&below| named_by[below].push(node));
        }
        let mut ready: Vec<usize> = (0..self.all.len())
            .filter(|&node| missing[node] == 0)
            .collect();
        let mut numbers = vec![0; self.all.len()];
        for number in 0..self.all.len() {
            let node = ready.swap_remove(random.below(ready.len()));
            numbers[node] = number as u16;
            for &above in &named_by[node] {
                missing[above] -= 1;
                if missing[above] == 0 {
                    ready.push(above);
                }
            }
        }
        numbers
    }

    /// Writes the records and their lists.
    fn write(&self, draft: &mut Draft, random: &mut Random, numbers: &[u16], style: Style) {
        let firsts = self.write_lists(draft, random, numbers, style);
        let mut records = vec![[0; 4]; self.all.len()];
        for (node, Node { tree, named }) in self.all.iter().enumerate() {
            let word = || tree.words.first().copied().unwrap_or(0);
            records[usize::from(numbers[node])] = match tree.kind {
                CODES => [CODES, firsts[node], tree.words.len() as u16, 0],
                ACTIONS => [ACTIONS, firsts[node], named.len() as u16, 0],
                HOLD_TAP => [HOLD_TAP, word(), numbers[named[0]], numbers[named[1]]],
                kind => [kind, word(), 0, 0],
            };
        }
        for record in records {
            draft.push(record, None);
        }
    }

    /// Writes the lists in any order; the first entry of each node's. An empty list may stand anywhere.
    fn write_lists(
        &self,
        draft: &mut Draft,
        random: &mut Random,
        numbers: &[u16],
        style: Style,
    ) -> Vec<u16> {
        let mut order: Vec<usize> = (0..self.all.len()).collect();
        random.shuffle(&mut order);
        let mut firsts = vec![0; self.all.len()];
        let listed = |node: usize| self.entries(node, numbers);
        for &node in order.iter().filter(|&&node| !listed(node).is_empty()) {
            firsts[node] = enter(&mut draft.list, random, &listed(node), style.loose);
        }
        let most = match style.full {
            true => MOST_ENTRIES,
            false if style.loose && random.once_in(3) => draft.list.len() + random.among(1, 4),
            false => draft.list.len(),
        };
        while draft.list.len() < most.min(MOST_ENTRIES) {
            draft.list.push(word(random));
        }
        for node in order {
            if matches!(self.all[node].tree.kind, CODES | ACTIONS) && listed(node).is_empty() {
                firsts[node] = random.among(0, draft.list.len()) as u16;
            }
        }
        firsts
    }

    /// What stands in the list for a node.
    fn entries(&self, node: usize, numbers: &[u16]) -> Vec<u16> {
        let Node { tree, named } = &self.all[node];
        match tree.kind {
            CODES => tree.words.clone(),
            ACTIONS => named.iter().map(|&below| numbers[below]).collect(),
            _ => Vec::new(),
        }
    }
}

/// Brings entries into a list: where they stand already, over its end, or behind it; the number of the first.
fn enter(list: &mut Vec<u16>, random: &mut Random, entries: &[u16], loose: bool) -> u16 {
    let apart = loose && random.once_in(2);
    let found = list
        .windows(entries.len())
        .position(|stretch| stretch == entries);
    if let (Some(first), false) = (found, apart) {
        return first as u16;
    }
    if apart && random.once_in(3) {
        let more = random.among(1, 3);
        list.extend((0..more).map(|_| word(random)));
    }
    let overlaps = |count: &usize| list.ends_with(&entries[..*count]);
    let most = if apart { 0 } else { entries.len() };
    let over = (1..=most).rev().find(overlaps).unwrap_or(0);
    let first = list.len() - over;
    list.extend(&entries[over..]);
    first as u16
}

#[cfg(test)]
mod tests {
    use super::*;
    use crate::generate::grow::accepted;
    use crate::paper::image::check;

    #[test]
    fn laid_out_tables_are_accepted_and_have_their_trees() {
        let mut random = Random::new(6);
        let (mut misfits, mut full) = (0, 0);
        for _ in 0..4_000 {
            let table = Table::of(&accepted(&mut random, Reach::Any));
            let strays = Table::of(&accepted(&mut random, Reach::Small)).cells;
            let Some(draft) = laid(&table, &strays, &mut random, Reach::Any) else {
                misfits += 1;
                continue;
            };
            let checked = check(&draft.bytes());
            assert!(checked.is_ok(), "{:?}: {checked:?}", draft.bytes());
            assert_eq!(Table::of(&draft), table);
            full += usize::from((draft.records.len(), draft.list.len()) == (256, 1_024));
        }
        assert!(misfits < 10 && full > 10, "{misfits} {full}");
    }
}
