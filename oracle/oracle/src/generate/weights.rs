//! Records of a wanted weight, by each way to a weight: codes, entries, nesting, a chain, a hold-tap, and a
//! hold-tap at the end of a MultipleActions.
//!
//! Assumes: the draft has room (`Draft::has_room`) and the weight is 4 to 65; up to 64 every record is legal,
//! and with 65 only the last one is too heavy.

use super::draft::{Draft, NOOP};
use super::fields::timeout;
use crate::random::Random;

/// Adds records, the last of them with this weight.
pub fn push(draft: &mut Draft, random: &mut Random, weight: usize) -> u16 {
    match random.below(6) {
        0 => draft.push_codes(random, weight - 1),
        1 => by_entries(draft, random, weight, &[]),
        2 => by_nesting(draft, random, weight),
        3 => by_chain(draft, random, weight),
        4 => by_hold_tap(draft, random, weight),
        _ => by_open_end(draft, random, weight),
    }
}

/// A record of weight 1.
fn light(draft: &mut Draft, random: &mut Random) -> u16 {
    let all = draft.nameable(draft.records.len(), false, 1);
    if all.is_empty() {
        return draft.push_plain(NOOP);
    }
    random.pick(&all)
}

/// A MultipleActions that names many light records, then these.
fn by_entries(draft: &mut Draft, random: &mut Random, weight: usize, last: &[u16]) -> u16 {
    let rest: usize = last.iter().map(|&record| weight_of(draft, record)).sum();
    let mut named: Vec<u16> = (1 + rest..weight).map(|_| light(draft, random)).collect();
    named.extend(last);
    draft.push_actions(random, &named)
}

/// A MultipleActions that names some heavier record as often as the weight allows, or not quite as often.
fn by_nesting(draft: &mut Draft, random: &mut Random, weight: usize) -> u16 {
    let part = random.among(2, weight / 2);
    let inner = if random.once_in(2) {
        draft.push_codes(random, part - 1)
    } else {
        by_entries(draft, random, part, &[])
    };
    let most = (weight - 1) / part;
    let times = random.among(1, most);
    let mut named = vec![inner; times];
    named.extend((1 + times * part..weight).map(|_| light(draft, random)));
    random.shuffle(&mut named);
    draft.push_actions(random, &named)
}

/// MultipleActions of one entry, each naming the one before.
fn by_chain(draft: &mut Draft, random: &mut Random, weight: usize) -> u16 {
    let mut last = light(draft, random);
    for _ in 1..weight {
        last = draft.push_actions(random, &[last]);
    }
    last
}

fn by_hold_tap(draft: &mut Draft, random: &mut Random, weight: usize) -> u16 {
    let hold = random.among(1, weight - 2);
    let mut closed = |weight: usize| match weight {
        1 => light(draft, random),
        _ => draft.push_codes(random, weight - 1),
    };
    let (hold, tap) = (closed(hold), closed(weight - 1 - hold));
    let timeout = timeout(random);
    draft.push_hold_tap(timeout, hold, tap)
}

fn by_open_end(draft: &mut Draft, random: &mut Random, weight: usize) -> u16 {
    let part = random.among(3, weight - 1);
    let mut open = by_hold_tap(draft, random, part);
    if part + 2 < weight && random.once_in(2) {
        open = draft.push_actions(random, &[open]);
    }
    by_entries(draft, random, weight, &[open])
}

fn weight_of(draft: &Draft, record: u16) -> usize {
    draft.shape(record).map_or(0, |shape| shape.weight)
}

#[cfg(test)]
mod tests {
    use super::*;
    use crate::paper::image::{check, Refusal};

    #[test]
    fn weights_are_met_exactly() {
        for seed in 0..2_000 {
            let mut random = Random::new(seed);
            let mut draft = Draft::new(1, 1, 1);
            let last = push(&mut draft, &mut random, 64);
            assert_eq!(weight_of(&draft, last), 64);
            assert!(check(&draft.bytes()).is_ok());
            let last = push(&mut draft, &mut random, 65);
            let refusal = Refusal {
                number: 9,
                place: last.into(),
            };
            assert_eq!(check(&draft.bytes()).unwrap_err(), refusal);
        }
    }

    #[test]
    fn all_lower_weights_are_legal() {
        let mut random = Random::new(2);
        for weight in 4..=64 {
            for _ in 0..30 {
                let mut draft = Draft::new(1, 1, 1);
                let last = push(&mut draft, &mut random, weight);
                assert_eq!(weight_of(&draft, last), weight);
                assert!(check(&draft.bytes()).is_ok());
            }
        }
    }
}
