//! What a matrix does to a debouncer: keys that settle, bounce, return, and change their minds.
//!
//! Assumes: the debouncer is legal, so a scan of the right length is taken.

use super::pen::Pen;
use super::pictures::changed;
use super::refusals;

/// Above this no run of scans reaches `nb_bounce` but the long ones that are made for it.
const MOST_REACHED: usize = 30;

/// Some scans of one debouncer that was made.
pub fn run(pen: &mut Pen, scans: usize) {
    let end = pen.counts.scans + scans;
    while pen.counts.scans < end {
        step(pen);
    }
}

/// How many scans make a change, or a few where that is out of reach.
fn enough(pen: &Pen) -> usize {
    let needed = usize::from(pen.beside.debouncer.nb_bounce) + 1;
    if needed > MOST_REACHED {
        3
    } else {
        needed
    }
}

fn step(pen: &mut Pen) {
    let enough = enough(pen);
    let now = accepted(pen);
    let other = changed(&mut pen.random, &now);
    let part = pen.random.among(1, enough);
    match pen.random.below(10) {
        // settles, and stays or goes back
        0..=2 => {
            take_times(pen, &other, enough);
            let after = if pen.random.once_in(2) { other } else { now };
            take_times(pen, &after, 1);
        }
        // returns before it counts, once or for good
        3 | 4 => {
            take_times(pen, &other, enough - 1);
            take_times(pen, &now, 1);
            take_times(pen, &other, part);
        }
        // another candidate midway
        5 | 6 => {
            let third = changed(&mut pen.random, &other);
            take_times(pen, &other, part);
            take_times(pen, &third, enough);
        }
        7 => bounce(pen, &[now, other]),
        8 => {
            let third = changed(&mut pen.random, &now);
            bounce(pen, &[now, other, third]);
        }
        _ => take_times(pen, &now, part),
    }
}

/// The accepted picture's switches.
fn accepted(pen: &Pen) -> Vec<u8> {
    pen.beside.debouncer.accepted[..pen.beside.debouncer.switches()].to_vec()
}

fn bounce(pen: &mut Pen, pictures: &[Vec<u8>]) {
    for _ in 0..pen.random.among(2, 8) {
        let at = pen.random.below(pictures.len());
        take(pen, &pictures[at]);
    }
}

fn take_times(pen: &mut Pen, picture: &[u8], times: usize) {
    for _ in 0..times {
        take(pen, picture);
    }
}

/// Takes a scan, with events or without, now and then among other calls.
fn take(pen: &mut Pen, picture: &[u8]) {
    if pen.random.once_in(25) {
        refusals::call(pen);
    }
    match pen.random.once_in(4) {
        true => pen.update(picture),
        false => pen.scan(picture),
    }
    if pen.random.once_in(30) {
        pen.picture();
    }
}
