//! A table with one thing changed that is in no cell's tree: a record or an entry that none reaches, the first entry of
//! an empty list, a cell or a list that is led to a copy.
//!
//! Assumes: the table is accepted, and stays so.

use super::trees::{ACTIONS, CODES, HOLD_TAP};
use crate::generate::draft::{Draft, MOST_ENTRIES, MOST_RECORDS};
use crate::generate::fields::word;
use crate::random::Random;

/// The ways, in which all are tried from one on until a table has what it takes.
const WAYS: [fn(&mut Draft, &mut Random) -> Option<()>; 7] = [
    move_empty_list,
    change_free_entry,
    add_entry,
    change_stray_record,
    add_record,
    copy_cells_record,
    copy_list,
];

/// The table with such a thing changed; itself, if there is none.
pub fn nudged(draft: &Draft, random: &mut Random) -> Draft {
    let mut nudged = draft.clone();
    let from = random.below(WAYS.len());
    let mut ways = WAYS.iter().cycle().skip(from).take(WAYS.len());
    ways.find(|way| way(&mut nudged, random).is_some());
    nudged
}

/// One of the places that fit, if there is one.
fn some_of(places: impl Iterator<Item = usize>, random: &mut Random) -> Option<usize> {
    let places: Vec<usize> = places.collect();
    (!places.is_empty()).then(|| random.pick(&places))
}

fn stretch([_, first, count, _]: [u16; 4]) -> std::ops::Range<usize> {
    usize::from(first)..usize::from(first) + usize::from(count)
}

fn has_list(record: &[u16; 4]) -> bool {
    matches!(record[0], CODES | ACTIONS)
}

/// Which records cells reach.
fn reached(draft: &Draft) -> Vec<bool> {
    let mut reached = vec![false; draft.records.len()];
    for &cell in &draft.cells {
        reached[usize::from(cell)] = true;
    }
    for place in (0..draft.records.len()).rev() {
        let record = draft.records[place];
        let named = match record[0] {
            ACTIONS if reached[place] => &draft.list[stretch(record)],
            HOLD_TAP if reached[place] => &record[2..],
            _ => &[],
        };
        for &below in named {
            reached[usize::from(below)] = true;
        }
    }
    reached
}

fn move_empty_list(draft: &mut Draft, random: &mut Random) -> Option<()> {
    let empty = |record: &[u16; 4]| has_list(record) && record[2] == 0;
    let places = (0..draft.records.len()).filter(|&place| empty(&draft.records[place]));
    let place = some_of(places, random)?;
    let old = usize::from(draft.records[place][1]);
    let first = some_of((0..=draft.list.len()).filter(|&at| at != old), random)?;
    draft.records[place][1] = first as u16;
    Some(())
}

fn change_free_entry(draft: &mut Draft, random: &mut Random) -> Option<()> {
    let lists = draft.records.iter().filter(|record| has_list(record));
    let lists: Vec<_> = lists.map(|&record| stretch(record)).collect();
    let is_free = |at: &usize| !lists.iter().any(|list| list.contains(at));
    let at = some_of((0..draft.list.len()).filter(is_free), random)?;
    draft.list[at] = word(random);
    Some(())
}

fn add_entry(draft: &mut Draft, random: &mut Random) -> Option<()> {
    let fits = draft.list.len() < MOST_ENTRIES;
    fits.then(|| draft.list.push(word(random)))
}

/// Puts a plain record in the place of one that no cell reaches: whatever names it weighs no more than before.
fn change_stray_record(draft: &mut Draft, random: &mut Random) -> Option<()> {
    let reached = reached(draft);
    let place = some_of((0..reached.len()).filter(|&at| !reached[at]), random)?;
    draft.records[place] = random.pick(&[[0; 4], [1, 0, 0, 0], [2, 4, 0, 0], [5, 1, 0, 0]]);
    Some(())
}

fn add_record(draft: &mut Draft, random: &mut Random) -> Option<()> {
    let record = draft.records[random.below(draft.records.len())];
    let fits = draft.records.len() < MOST_RECORDS;
    fits.then(|| _ = draft.push(record, None))
}

fn copy_cells_record(draft: &mut Draft, random: &mut Random) -> Option<()> {
    let cell = random.below(draft.cells.len());
    let record = draft.records[usize::from(draft.cells[cell])];
    let fits = draft.records.len() < MOST_RECORDS;
    fits.then(|| draft.cells[cell] = draft.push(record, None))
}

fn copy_list(draft: &mut Draft, random: &mut Random) -> Option<()> {
    let room = MOST_ENTRIES - draft.list.len();
    let fits = |record: &[u16; 4]| has_list(record) && (1..=room).contains(&stretch(*record).len());
    let places = (0..draft.records.len()).filter(|&place| fits(&draft.records[place]));
    let place = some_of(places, random)?;
    let first = draft.list.len() as u16;
    draft.list.extend_from_within(stretch(draft.records[place]));
    draft.records[place][1] = first;
    Some(())
}

#[cfg(test)]
mod tests {
    use super::super::trees::Table;
    use super::*;
    use crate::generate::grow::{accepted, Reach};
    use crate::paper::image::check;

    #[test]
    fn each_way_is_taken_and_leaves_the_trees() {
        let mut random = Random::new(9);
        let mut times = [0; WAYS.len()];
        for at in 0..20_000 {
            let draft = accepted(&mut random, Reach::Small);
            let mut other = draft.clone();
            let way = at % WAYS.len();
            if WAYS[way](&mut other, &mut random).is_some() {
                times[way] += usize::from(draft.bytes() != other.bytes());
                assert!(check(&other.bytes()).is_ok(), "{way}: {:?}", draft.bytes());
                assert_eq!(Table::of(&other), Table::of(&draft), "{way}");
            }
        }
        assert!(times.iter().all(|&times| times > 400), "{times:?}");
    }

    #[test]
    fn tables_are_seldom_left_as_they_were() {
        let mut random = Random::new(10);
        let drafts = (0..2_000).map(|_| accepted(&mut random, Reach::Small));
        let drafts: Vec<Draft> = drafts.collect();
        let same = drafts
            .iter()
            .filter(|draft| nudged(draft, &mut random).bytes() == draft.bytes());
        assert!(same.count() < 100);
    }
}
