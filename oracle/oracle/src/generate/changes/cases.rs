//! The sorts of pairs that scripts of `compare` lines are made of: how often each comes up, and the two images.
//!
//! Assumes: what a pair is answered is the paper's to say; what it was made for is counted beside it.

use super::deep::{changed, CHANGES};
use super::lay::laid;
use super::nudge::nudged;
use super::sizes::{other_sizes, with_sizes};
use super::trees::{Table, Tree};
use crate::generate::damage::damage;
use crate::generate::draft::{Draft, MOST_COLUMNS, MOST_LAYERS, MOST_ROWS};
use crate::generate::grow::{accepted, Reach};
use crate::generate::image::random_image;
use crate::generate::layout::tables::lively;
use crate::generate::rooms::short;
use crate::generate::spoil;
use crate::random::Random;
use std::rc::Rc;

/// What a pair was made for.
#[derive(Clone, Copy, Debug, PartialEq)]
pub enum Sort {
    /// The same trees, laid out anew.
    Renumbered,
    /// The same table but for one thing that does not count.
    Nudged,
    /// The same trees, laid out anew, and the same calls over both.
    Traced,
    /// The same trees but for one change in one node, laid out anew.
    Changed,
    /// Two tables of equal sizes.
    Unrelated,
    /// Two tables of unequal sizes.
    Unequal,
    /// One image or both refused, by all pairings of refusals in turn.
    Refused,
    /// A buffer that is too short.
    Short,
    /// Any two images.
    Any,
}

/// How many of a thousand pairs are of each sort.
pub const SHARES: [(Sort, usize); 9] = [
    (Sort::Renumbered, 200),
    (Sort::Nudged, 60),
    (Sort::Traced, 110),
    (Sort::Changed, 280),
    (Sort::Unrelated, 80),
    (Sort::Unequal, 80),
    (Sort::Refused, 120),
    (Sort::Short, 50),
    (Sort::Any, 20),
];

/// The pairings of an accepted image and of each refusal, without that of two accepted ones.
const PAIRINGS: usize = 99;

pub struct Pair {
    pub images: [Vec<u8>; 2],
    pub room: usize,
    /// The cells that are to be listed, by the generator's own trees, where a list is to be the answer.
    pub foretold: Option<Vec<u8>>,
}

impl Pair {
    /// A pair of which nothing is foretold.
    fn new(images: [Vec<u8>; 2], room: usize) -> Self {
        Pair {
            images,
            room,
            foretold: None,
        }
    }
}

/// The next pair of a sort; `made` is the number of pairs so far.
pub fn pair(random: &mut Random, reach: Reach, sort: Sort, made: usize) -> Pair {
    match sort {
        Sort::Renumbered | Sort::Traced => {
            let drafts = renumbered(random, reach, sort == Sort::Traced);
            with_room(drafts, random)
        }
        Sort::Nudged => {
            let draft = base(random, reach);
            let other = nudged(&draft, random);
            with_room(turned(random, draft, other), random)
        }
        Sort::Changed => with_room(changed_once(random, reach), random),
        Sort::Unrelated => {
            let draft = base(random, reach);
            let other = with_sizes(base(random, reach), sizes(&draft), random);
            with_room([draft, other], random)
        }
        Sort::Unequal => unequal(random, reach),
        Sort::Refused => refused(random, reach, made % PAIRINGS + 1),
        Sort::Short => without_room(random, reach),
        Sort::Any => {
            let images = [(); 2].map(|_| random_image(random, reach));
            Pair::new(images, random.pick(&[0, 5, 6, 48, 3_072]))
        }
    }
}

fn sizes(draft: &Draft) -> [usize; 3] {
    [draft.layers, draft.rows, draft.columns]
}

/// An accepted table. Now and then one with as many cells as there can be.
fn base(random: &mut Random, reach: Reach) -> Draft {
    let draft = match random.once_in(4) {
        true => lively(random),
        false => accepted(random, reach),
    };
    match reach == Reach::Any && random.once_in(250) {
        true => with_sizes(draft, [MOST_LAYERS, MOST_ROWS, MOST_COLUMNS], random),
        false => draft,
    }
}

/// Trees that are laid out where no cell reaches them.
fn strays(random: &mut Random) -> Vec<Rc<Tree>> {
    Table::of(&accepted(random, Reach::Small)).cells
}

/// The two in this order or the other.
fn turned(random: &mut Random, one: Draft, other: Draft) -> [Draft; 2] {
    match random.once_in(2) {
        true => [one, other],
        false => [other, one],
    }
}

/// The same trees twice, laid out anew once or both times; lively ones if calls are to come.
fn renumbered(random: &mut Random, reach: Reach, traced: bool) -> [Draft; 2] {
    loop {
        let draft = match traced {
            true => lively(random),
            false => base(random, reach),
        };
        let table = Table::of(&draft);
        let strays = strays(random);
        let other = laid(&table, &strays, random, reach);
        let again = match random.once_in(3) {
            true => laid(&table, &strays, random, reach),
            false => Some(draft),
        };
        if let (Some(one), Some(other)) = (again, other) {
            return turned(random, one, other);
        }
    }
}

/// Trees, and the same with one change: laid out each in its own way, or both alike, so that little else differs.
fn changed_once(random: &mut Random, reach: Reach) -> [Draft; 2] {
    let change = random.pick(&CHANGES);
    loop {
        let table = Table::of(&base(random, reach));
        let Some(other) = changed(&table, random, change) else {
            continue;
        };
        let strays = strays(random);
        let seed = random.below(usize::MAX) as u64;
        let next = if random.once_in(3) { seed } else { !seed };
        let one = laid(&table, &strays, &mut Random::new(seed), reach);
        let other = laid(&other, &strays, &mut Random::new(next), reach);
        if let (Some(one), Some(other)) = (one, other) {
            return turned(random, one, other);
        }
    }
}

/// Two tables of unequal sizes, as often as not with the same records.
fn unequal(random: &mut Random, reach: Reach) -> Pair {
    let draft = base(random, reach);
    let others = match random.once_in(2) {
        true => draft.clone(),
        false => base(random, reach),
    };
    let wanted = other_sizes(random, sizes(&draft));
    let other = with_sizes(others, wanted, random);
    let room = any_room(random, 3 * draft.cells.len());
    Pair::new([draft.bytes(), other.bytes()], room)
}

/// Images of which the pairing's digits say the refusals, 0 for none; of equal sizes or not.
fn refused(random: &mut Random, reach: Reach, pairing: usize) -> Pair {
    let common = random.once_in(2).then(|| sizes(&base(random, reach)));
    let numbers = [pairing / 10, pairing % 10];
    let mut length = 3;
    let images = numbers.map(|number| {
        let mut draft = base(random, reach);
        if let Some(sizes) = common {
            draft = with_sizes(draft, sizes, random);
        }
        length = 3 * draft.cells.len();
        match number {
            0 => draft.bytes(),
            1..=3 => spoil::refused(random, reach, &[number as u8]),
            _ => {
                damage(&mut draft, random, number as u8);
                draft.bytes()
            }
        }
    });
    Pair::new(images, any_room(random, length))
}

/// Equal or changed tables, and a buffer that is too short, if only for those cells that are not listed.
fn without_room(random: &mut Random, reach: Reach) -> Pair {
    let drafts = match random.once_in(2) {
        true => renumbered(random, reach, false),
        false => changed_once(random, reach),
    };
    let room = short(random, 3 * drafts[0].cells.len());
    Pair::new(drafts.map(|draft| draft.bytes()), room)
}

/// Two tables of equal sizes, and a buffer for all their cells.
fn with_room(drafts: [Draft; 2], random: &mut Random) -> Pair {
    let [one, other] = [&drafts[0], &drafts[1]].map(Table::of);
    Pair {
        room: roomy(random, 3 * one.cells.len()),
        foretold: Some(one.differing(&other)),
        images: drafts.map(|draft| draft.bytes()),
    }
}

/// A buffer's length that is enough or not, by chance.
fn any_room(random: &mut Random, length: usize) -> usize {
    match random.once_in(2) {
        true => short(random, length),
        false => roomy(random, length),
    }
}

/// A buffer's length that is enough: just so, mostly. Long ones are rare, since the port looks at every byte.
fn roomy(random: &mut Random, length: usize) -> usize {
    match random.below(40) {
        0 => 65_535,
        1 => random.among(length, 65_535),
        2..=7 => length + 1,
        8..=11 => random.among(length, 2 * length),
        _ => length,
    }
}
