//! Calls that are to be refused: scans of a wrong length or with other digits, event buffers that are too
//! short, and makings that give no debouncer.
//!
//! Assumes: what is refused in truth is counted by the pen; an aim may be missed (a scan of 128 switches is
//! right for one shape).

use super::pen::{Pen, FULL_SPACE};
use super::pictures;
use crate::paper::debounce::EVENT;
use crate::random::Random;

/// A call or two that are refused for Scan or Room, and the room as it was.
pub fn call(pen: &mut Pen) {
    match pen.random.below(3) {
        0 => cramped(pen),
        _ => bad_scan(pen),
    }
}

fn bad_scan(pen: &mut Pen) {
    let scan = scan(pen);
    match pen.random.once_in(3) {
        true => pen.update(&scan),
        false => pen.scan(&scan),
    }
}

/// Scans, right and wrong ones, over a buffer that has just enough room, or too little.
fn cramped(pen: &mut Pen) {
    let needed = EVENT * pen.beside.debouncer.switches();
    let room = match pen.random.below(6) {
        0 => 0,
        1 => needed,
        2 => needed.saturating_sub(EVENT),
        3 => pen.random.below(needed.clamp(1, 65_536)),
        _ => needed.saturating_sub(1),
    };
    pen.space(room.min(65_535));
    let right = pictures::any(&mut pen.random, pen.beside.debouncer.switches().min(128));
    match pen.random.below(3) {
        0 => bad_scan(pen),
        1 => pen.update(&right),
        _ => (),
    }
    pen.scan(&right);
    pen.space(FULL_SPACE);
}

/// A scan that the debouncer, as it stands, is to refuse.
pub fn scan(pen: &mut Pen) -> Vec<u8> {
    // the sizes of a debouncer that was set may be any
    let switches = pen.beside.debouncer.switches().min(200);
    let random = &mut pen.random;
    let length = match random.below(9) {
        0 => 0,
        1 => switches.saturating_sub(1),
        2 => switches + 1,
        3 => 128,
        4 => random.pick(&[200, 129, 256, switches + 256]),
        _ => switches,
    };
    let mut scan = pictures::any(random, length);
    if length > 0 && (length == switches || random.once_in(4)) {
        let at = match random.below(3) {
            0 => 0,
            1 => length - 1,
            _ => random.below(length),
        };
        scan[at] = random.among(2, 9) as u8;
    }
    scan
}

/// A making that is refused, and what is done with the debouncer that it gives.
pub fn making(pen: &mut Pen, shape: (u16, u16)) {
    let (mut shape, mut nb_bounce) = (shape, pen.random.pick(&[0, 2, 65_534]));
    let switches = usize::from(shape.0 * shape.1);
    let mut start = pictures::any(&mut pen.random, switches);
    for _ in 0..pen.random.among(1, 2) {
        match pen.random.below(4) {
            0 => shape.0 = size(&mut pen.random, &[0, 9, 10, 17]),
            1 => shape.1 = size(&mut pen.random, &[0, 17, 18]),
            2 => nb_bounce = 65_535,
            _ => start = bad_start(&mut pen.random, switches),
        }
    }
    pen.make(shape, nb_bounce, &start);
    for _ in 0..pen.random.among(0, 3) {
        let length = if pen.random.once_in(4) { switches } else { 1 };
        let scan = pictures::any(&mut pen.random, length);
        pen.scan(&scan);
    }
}

/// An illegal size.
pub fn size(random: &mut Random, near: &[u16]) -> u16 {
    match random.below(3) {
        0 => random.pick(&[128, 255, 256, 257, 4_096, 32_768, 65_535]),
        _ => random.pick(near),
    }
}

fn bad_start(random: &mut Random, switches: usize) -> Vec<u8> {
    let length = match random.below(4) {
        0 => random.pick(&[0, switches - 1, switches + 1]),
        1 => random.pick(&[128, 129, 200]),
        _ => switches,
    };
    let mut start = pictures::any(random, length);
    if length == switches {
        let at = random.below(length);
        start[at] = random.among(2, 9) as u8;
    }
    start
}
