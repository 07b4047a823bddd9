//! One change in one node of one tree of a table: the least ways in which two actions differ, as far down as a tree
//! goes. It shows in one cell, in all that have this tree, or in all that have this node somewhere.
//!
//! Assumes: the trees are legal; so are the changed ones.

use super::trees::*;
use crate::generate::codes::legal;
use crate::generate::fields::{layer, word};
use crate::random::Random;
use std::rc::Rc;

/// A way in which a node changes.
#[derive(Clone, Copy, Debug, PartialEq)]
pub enum Change {
    Timeout,
    Code,
    /// A code of a list: the first, the last or any.
    ListedCode,
    CodesExchanged,
    CodeMore,
    CodeLess,
    ActionsExchanged,
    ActionMore,
    ActionLess,
    /// The last of the actions is another one.
    LastAction,
    LayerNumber,
    /// Layer to DefaultLayer of the same number, or back.
    LayerKind,
    HoldAndTap,
    /// An action to the list of it alone, or back.
    Wrapped,
    /// KeyCode to MultipleKeyCodes of it alone, or back.
    CodeAsList,
    /// MultipleKeyCodes to the MultipleActions of the same KeyCodes, or back; the empty ones too.
    CodesAsActions,
    /// A list in a list to its actions, in their place.
    Flattened,
    /// NoOp to KeyCode 0, or back.
    NoOpAsCode,
    /// NoOp, Trans and the two empty lists, one to another.
    Nothings,
    /// A HoldTap to its hold or its tap alone.
    Undecided,
}

pub const CHANGES: [Change; 20] = [
    Change::Timeout,
    Change::Code,
    Change::ListedCode,
    Change::CodesExchanged,
    Change::CodeMore,
    Change::CodeLess,
    Change::ActionsExchanged,
    Change::ActionMore,
    Change::ActionLess,
    Change::LastAction,
    Change::LayerNumber,
    Change::LayerKind,
    Change::HoldAndTap,
    Change::Wrapped,
    Change::CodeAsList,
    Change::CodesAsActions,
    Change::Flattened,
    Change::NoOpAsCode,
    Change::Nothings,
    Change::Undecided,
];

/// How many nodes are tried for a change.
const TRIES: usize = 30;

/// The table with one such change; none if no node was found that has what changes.
pub fn changed(table: &Table, random: &mut Random, change: Change) -> Option<Table> {
    for _ in 0..TRIES {
        let cell = some_cell(table, random);
        let tree = &table.cells[cell];
        let way = tree.some_way(random);
        let node = tree.node(&way);
        let Some(new) = apply(change, node, random, table.sizes[0]) else {
            continue;
        };
        let changed = tree.with_node(&way, new.clone());
        if new != *node && changed.is_legal() {
            return Some(spread(table, random, cell, changed, (node, &new)));
        }
    }
    None
}

/// A cell, more often one of the heaviest tree.
fn some_cell(table: &Table, random: &mut Random) -> usize {
    let cells = 0..table.cells.len();
    match random.once_in(4) {
        true => cells.max_by_key(|&cell| table.cells[cell].weight()),
        false => None,
    }
    .unwrap_or_else(|| random.below(table.cells.len()))
}

/// The table with a changed tree in one cell, in all cells that have its old one, or with the changed node wherever
/// its old one is.
fn spread(
    table: &Table,
    random: &mut Random,
    cell: usize,
    changed: Tree,
    (old, new): (&Tree, &Tree),
) -> Table {
    let mut spread = table.clone();
    match random.below(3) {
        0 => spread.cells[cell] = Rc::new(changed),
        1 => {
            let changed = Rc::new(changed);
            let alike = spread.cells.iter_mut();
            alike
                .filter(|tree| **tree == table.cells[cell])
                .for_each(|tree| *tree = changed.clone());
        }
        _ => {
            for tree in &mut spread.cells {
                let replaced = tree.with_all(old, new);
                if replaced.is_legal() {
                    *tree = Rc::new(replaced);
                }
            }
            // where others could change and this one, which has the node twice, could not
            if spread.cells[cell] == table.cells[cell] {
                spread.cells[cell] = Rc::new(changed);
            }
        }
    }
    spread
}

/// The node with such a change, if it has what changes.
fn apply(change: Change, node: &Tree, random: &mut Random, layers: usize) -> Option<Tree> {
    let mut new = node.clone();
    match (change, node.kind) {
        (Change::Timeout, HOLD_TAP) => new.words[0] = other_word(random, node.words[0]),
        (Change::Code, KEY_CODE) => new.words[0] = legal(random).into(),
        (Change::ListedCode | Change::CodesExchanged | Change::CodeMore | Change::CodeLess, _) => {
            change_codes(change, &mut new, random)?;
        }
        (
            Change::ActionsExchanged | Change::ActionMore | Change::ActionLess | Change::LastAction,
            ACTIONS,
        ) => change_actions(change, &mut new, random)?,
        (Change::LayerNumber, LAYER | DEFAULT_LAYER) => {
            new.words[0] = match random.once_in(2) {
                true => other_word(random, node.words[0]),
                false => layer(random, layers),
            };
        }
        (Change::LayerKind, LAYER) => new.kind = DEFAULT_LAYER,
        (Change::LayerKind, DEFAULT_LAYER) => new.kind = LAYER,
        (Change::HoldAndTap, HOLD_TAP) => new.children.swap(0, 1),
        (Change::Undecided, HOLD_TAP) => new = (*node.children[random.below(2)]).clone(),
        _ => return to_other_kind(change, node, random),
    }
    Some(new)
}

/// A word by 1 more or less, with another high byte, or any.
fn other_word(random: &mut Random, old: u16) -> u16 {
    match random.below(4) {
        0 => old.wrapping_add(1),
        1 => old.wrapping_sub(1),
        2 => old ^ (256 << random.below(8)),
        _ => word(random),
    }
}

fn change_codes(change: Change, new: &mut Tree, random: &mut Random) -> Option<()> {
    let codes = &mut new.words;
    if new.kind != CODES || (codes.is_empty() && change != Change::CodeMore) {
        return None;
    }
    match change {
        Change::ListedCode => {
            let at = random.place(0, codes.len());
            codes[at] = legal(random).into();
        }
        Change::CodesExchanged => exchange(codes, random),
        Change::CodeMore => {
            let at = random.place(0, codes.len() + 1);
            // often one that the list has, so that only its number tells
            let code = match codes.is_empty() || random.once_in(2) {
                true => legal(random).into(),
                false => random.pick(codes),
            };
            codes.insert(at, code);
        }
        _ => drop(codes.remove(random.place(0, codes.len()))),
    }
    Some(())
}

fn exchange<T>(items: &mut [T], random: &mut Random) {
    let [one, other] = [(); 2].map(|_| random.place(0, items.len()));
    items.swap(one, other);
}

fn change_actions(change: Change, new: &mut Tree, random: &mut Random) -> Option<()> {
    let actions = &mut new.children;
    if actions.is_empty() && change != Change::ActionMore {
        return None;
    }
    match change {
        Change::ActionsExchanged => exchange(actions, random),
        Change::ActionMore => {
            let at = random.place(0, actions.len() + 1);
            let action = match actions.is_empty() || random.once_in(2) {
                true => Rc::new(plain(random)),
                false => actions[random.below(actions.len())].clone(),
            };
            actions.insert(at, action);
        }
        Change::ActionLess => drop(actions.remove(random.place(0, actions.len()))),
        _ => *actions.last_mut()? = Rc::new(plain(random)),
    }
    Some(())
}

/// A light tree.
fn plain(random: &mut Random) -> Tree {
    match random.below(4) {
        0 => Tree::leaf(NOOP, &[]),
        1 => Tree::leaf(TRANS, &[]),
        2 => Tree::leaf(LAYER, &[word(random)]),
        _ => Tree::leaf(KEY_CODE, &[legal(random).into()]),
    }
}

/// The changes that say nearly the same with another kind.
fn to_other_kind(change: Change, node: &Tree, random: &mut Random) -> Option<Tree> {
    let whole = || Rc::new(node.clone());
    let key = |&code: &u16| Rc::new(Tree::leaf(KEY_CODE, &[code]));
    Some(match (change, node.kind) {
        (Change::Wrapped, ACTIONS) if node.children.len() == 1 && random.once_in(2) => {
            (*node.children[0]).clone()
        }
        (Change::Wrapped, _) => Tree::actions(vec![whole()]),
        (Change::CodeAsList, KEY_CODE) => Tree::leaf(CODES, &node.words),
        (Change::CodeAsList, CODES) if node.words.len() == 1 => Tree::leaf(KEY_CODE, &node.words),
        (Change::CodesAsActions, CODES) => Tree::actions(node.words.iter().map(key).collect()),
        (Change::CodesAsActions, ACTIONS) => Tree::leaf(CODES, &codes_of(node)?),
        (Change::Flattened, ACTIONS) => flattened(node),
        (Change::NoOpAsCode, NOOP) => Tree::leaf(KEY_CODE, &[0]),
        (Change::NoOpAsCode, KEY_CODE) if node.words == [0] => Tree::leaf(NOOP, &[]),
        (Change::Nothings, NOOP | TRANS | CODES | ACTIONS)
            if node.words.is_empty() && node.children.is_empty() =>
        {
            Tree::leaf(random.pick(&[NOOP, TRANS, CODES, ACTIONS]), &[])
        }
        _ => return None,
    })
}

/// The codes of a MultipleActions of KeyCodes alone.
fn codes_of(node: &Tree) -> Option<Vec<u16>> {
    let code = |child: &Rc<Tree>| (child.kind == KEY_CODE).then(|| child.words[0]);
    node.children.iter().map(code).collect()
}

/// The actions with those of the lists among them in their place.
fn flattened(node: &Tree) -> Tree {
    let parts = node.children.iter().map(|child| match child.kind {
        ACTIONS => child.children.clone(),
        _ => vec![child.clone()],
    });
    Tree::actions(parts.flatten().collect())
}

#[cfg(test)]
mod tests {
    use super::*;
    use crate::generate::grow::{accepted, Reach};

    #[test]
    fn each_change_is_made_and_shows() {
        let mut random = Random::new(7);
        let mut times = [0; CHANGES.len()];
        let (mut one, mut several, mut deepest) = (0, 0, 0);
        for at in 0..40_000 {
            let table = Table::of(&accepted(&mut random, Reach::Small));
            let change = CHANGES[at % CHANGES.len()];
            let Some(other) = changed(&table, &mut random, change) else {
                continue;
            };
            let listed = table.differing(&other);
            assert!(!listed.is_empty(), "{change:?}: {table:?}");
            assert!(other.cells.iter().all(|cell| cell.is_legal()), "{change:?}");
            times[change as usize] += 1;
            match listed.len() {
                3 => one += 1,
                _ => several += 1,
            }
            let at = (0..table.cells.len()).find(|&at| table.cells[at] != other.cells[at]);
            let at = at.expect("a cell differs");
            deepest = deepest.max(first_difference(&table.cells[at], &other.cells[at]));
        }
        let rare = CHANGES.iter().zip(times).filter(|(_, times)| *times < 100);
        assert_eq!(rare.count(), 0, "{times:?}");
        assert!(one > 5_000 && several > 5_000, "{one} {several}");
        assert!(deepest > 30, "{deepest}");
    }

    /// How far down two trees begin to differ.
    fn first_difference(one: &Tree, other: &Tree) -> usize {
        let same = (one.kind, &one.words, one.children.len())
            == (other.kind, &other.words, other.children.len());
        let pairs = one.children.iter().zip(&other.children);
        let deeper = pairs.filter(|(one, other)| one != other);
        match same {
            true => {
                let depths = deeper.map(|(one, other)| 1 + first_difference(one, other));
                depths.min().unwrap_or(0)
            }
            false => 0,
        }
    }
}
