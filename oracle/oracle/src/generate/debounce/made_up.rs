//! Debouncers that are set as they stand: legal ones that no run of scans need come to, and ones illegal for
//! each cause of State alone and for two at once; and calls on them in which later checks would refuse too, so
//! that the order of the checks shows.
//!
//! Assumes: a cause is what is aimed at; whether the state is illegal in truth is counted by the pen.

use super::pen::{Pen, FULL_SPACE};
use super::{pictures, refusals};
use crate::paper::debounce::{laid, Debouncer, EVENT, PLACES};
use crate::random::Random;

/// The causes of State, each a way to make a legal debouncer illegal.
#[derive(Clone, Copy, Debug, PartialEq)]
pub enum Cause {
    Rows,
    Columns,
    /// Both sizes, with a product that would fit or wrap around to one that does.
    Product,
    Bounce,
    Since,
    AcceptedDigit,
    CandidateDigit,
    AcceptedUnused,
    CandidateUnused,
}

pub const CAUSES: [Cause; 9] = [
    Cause::Rows,
    Cause::Columns,
    Cause::Product,
    Cause::Bounce,
    Cause::Since,
    Cause::AcceptedDigit,
    Cause::CandidateDigit,
    Cause::AcceptedUnused,
    Cause::CandidateUnused,
];

/// Sets a debouncer and makes some calls on it.
pub fn run(pen: &mut Pen, shape: (u16, u16)) {
    let mut debouncer = legal(&mut pen.random, shape);
    let causes = match pen.random.below(6) {
        0 | 1 => 0,
        2..=4 => 1,
        _ => 2,
    };
    for _ in 0..causes {
        let cause = pen.random.pick(&CAUSES);
        spoil(&mut debouncer, &mut pen.random, cause);
    }
    let whole = pen.random.once_in(10);
    pen.set(debouncer, whole);
    for _ in 0..pen.random.among(2, 5) {
        call(pen);
    }
}

/// A debouncer that is legal, with any values that are.
pub fn legal(random: &mut Random, shape: (u16, u16)) -> Debouncer {
    let (rows, columns) = shape;
    let nb_bounce = match random.below(4) {
        0 => random.pick(&[65_534, 65_533, 32_768, 255, 256]),
        1 => random.below(65_535) as u16,
        _ => random.among(0, 5) as u16,
    };
    let since = match random.below(4) {
        0 => 0,
        1 => random.among(0, nb_bounce.into()) as u16,
        2 => nb_bounce.saturating_sub(1),
        _ => nb_bounce,
    };
    let accepted = pictures::any(random, usize::from(rows * columns));
    let candidate = match random.below(4) {
        0 => accepted.clone(),
        _ => pictures::changed(random, &accepted),
    };
    Debouncer {
        rows,
        columns,
        nb_bounce,
        since,
        accepted: laid(&accepted).expect("a legal picture has its places"),
        candidate: laid(&candidate).expect("a legal picture has its places"),
    }
}

pub fn spoil(debouncer: &mut Debouncer, random: &mut Random, cause: Cause) {
    match cause {
        Cause::Rows => debouncer.rows = refusals::size(random, &[0, 9, 10, 16]),
        Cause::Columns => debouncer.columns = refusals::size(random, &[0, 17, 32]),
        Cause::Product => {
            let sizes = [
                (16, 8),
                (1, 128),
                (128, 1),
                (256, 256),
                (4_096, 16),
                (65_535, 65_535),
            ];
            (debouncer.rows, debouncer.columns) = random.pick(&sizes);
        }
        Cause::Bounce => debouncer.nb_bounce = 65_535,
        Cause::Since => {
            debouncer.nb_bounce = debouncer.nb_bounce.min(65_534);
            debouncer.since = match random.below(3) {
                0 => 65_535,
                1 => random.among(usize::from(debouncer.nb_bounce) + 1, 65_535) as u16,
                _ => debouncer.nb_bounce + 1,
            };
        }
        Cause::AcceptedDigit | Cause::AcceptedUnused => {
            let (at, digit) = wrong_place(debouncer, random, cause == Cause::AcceptedUnused);
            debouncer.accepted[at] = digit;
        }
        Cause::CandidateDigit | Cause::CandidateUnused => {
            let (at, digit) = wrong_place(debouncer, random, cause == Cause::CandidateUnused);
            debouncer.candidate[at] = digit;
        }
    }
}

/// A place of a picture, used or not, and a digit that may not stand there.
fn wrong_place(debouncer: &mut Debouncer, random: &mut Random, unused: bool) -> (usize, u8) {
    if !unused {
        let switches = debouncer.switches().clamp(1, PLACES);
        return (random.place(0, switches), random.among(2, 9) as u8);
    }
    if debouncer.switches() >= PLACES {
        (debouncer.rows, debouncer.columns) = (random.among(1, 7) as u16, 16);
        let used = debouncer.switches();
        debouncer.accepted[used..].fill(0);
        debouncer.candidate[used..].fill(0);
    }
    let at = random.place(debouncer.switches(), PLACES);
    (at, random.pick(&[1, 1, 2, 9]))
}

/// A call with a good scan or a bad one, with room or without.
fn call(pen: &mut Pen) {
    let switches = pen.beside.debouncer.switches().min(PLACES);
    let scan = match pen.random.below(5) {
        0 => refusals::scan(pen),
        1 => pen.beside.debouncer.accepted[..switches].to_vec(),
        2 => pictures::any(&mut pen.random, switches),
        _ => pen.beside.debouncer.candidate[..switches].to_vec(),
    };
    match pen.random.below(8) {
        0 => pen.picture(),
        1 | 2 => pen.update(&scan),
        3 => {
            let room = EVENT * pen.beside.debouncer.switches();
            let room = pen.random.pick(&[0, room.saturating_sub(1), room]);
            pen.space(room.min(65_535));
            pen.scan(&scan);
            pen.space(FULL_SPACE);
        }
        _ => pen.scan(&scan),
    }
}

#[cfg(test)]
mod tests {
    use super::*;

    #[test]
    fn each_cause_makes_an_illegal_state() {
        let mut random = Random::new(2);
        for shape in [(1, 1), (3, 5), (8, 16)] {
            for cause in CAUSES {
                for _ in 0..200 {
                    let mut debouncer = legal(&mut random, shape);
                    assert!(debouncer.is_legal(), "{debouncer:?}");
                    spoil(&mut debouncer, &mut random, cause);
                    assert!(!debouncer.is_legal(), "{cause:?}: {debouncer:?}");
                }
            }
        }
    }
}
