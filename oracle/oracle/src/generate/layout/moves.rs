//! What hands do to a keyboard, and what they could do: strokes, bursts, ties, keys held under other keys'
//! waits, keys pressed twice, and coordinates that are no keys.
//!
//! Assumes: the image was accepted; else every call is refused and a trace would not end.

use super::pen::Pen;
use crate::paper::layout::{Coord, HOLD_TAP};

/// Ticks that a trace is ready to wait for a hold-tap.
const PATIENCE: u16 = 12;

/// Some calls over the image at hand.
pub fn trace(pen: &mut Pen, calls: usize) {
    let end = pen.counts.calls + calls;
    while pen.counts.calls < end {
        step(pen);
    }
}

fn step(pen: &mut Pen) {
    match pen.random.below(100) {
        0..=17 => {
            press_some(pen);
            some_ticks(pen, 2);
        }
        18..=35 => {
            release_some(pen);
            some_ticks(pen, 2);
        }
        36..=47 => stroke(pen),
        48..=51 => burst(pen),
        52..=54 => stuffed(pen),
        55 | 56 => last_moment(pen),
        57..=59 => some_ticks(pen, 6),
        60..=63 => settle(pen),
        64..=71 => live_tie(pen),
        72..=81 => behind(pen),
        82..=85 => press_again(pen),
        86..=88 => outside(pen),
        89..=90 => press_many(pen),
        91..=95 => release_all(pen),
        96 => cramped(pen),
        _ => {
            pen.keycodes();
        }
    }
}

fn sizes(pen: &Pen) -> (usize, usize) {
    let table = pen.table().expect("an accepted image");
    (table.rows, table.columns)
}

fn some_key(pen: &mut Pen) -> Coord {
    let (rows, columns) = sizes(pen);
    let random = &mut pen.random;
    (random.below(rows) as u8, random.below(columns) as u8)
}

/// A key that is a hold-tap on the default layer, and its timeout; any key if there is none.
fn hold_tap_key(pen: &mut Pen) -> (Coord, u16) {
    let (rows, columns) = sizes(pen);
    let first = usize::from(pen.sizes().0) * rows * columns;
    let table = pen.table().expect("an accepted image");
    let mut found = Vec::new();
    for at in 0..rows * columns {
        let record = usize::from(table.cells[first + at]);
        if let [HOLD_TAP, timeout, _, _] = table.records[record] {
            found.push((((at / columns) as u8, (at % columns) as u8), timeout));
        }
    }
    match found.is_empty() {
        true => (some_key(pen), 0),
        false => pen.random.pick(&found),
    }
}

fn press_some(pen: &mut Pen) {
    let at = some_key(pen);
    pen.press(at);
}

/// Releases a key that is down; now and then one that is not.
fn release_some(pen: &mut Pen) {
    let down: Vec<Coord> = pen.beside.down.iter().copied().collect();
    let at = match down.is_empty() || pen.random.once_in(20) {
        true => some_key(pen),
        false => pen.random.pick(&down),
    };
    pen.release(at);
}

fn some_ticks(pen: &mut Pen, most: usize) {
    let count = pen.random.among(0, most);
    pen.ticks(count);
}

fn stroke(pen: &mut Pen) {
    let at = some_key(pen);
    pen.press(at);
    some_ticks(pen, 5);
    pen.release(at);
    some_ticks(pen, 3);
}

/// More events than the queue has places, with hardly a tick between them.
fn burst(pen: &mut Pen) {
    if pen.random.once_in(2) {
        let (at, _) = hold_tap_key(pen);
        pen.press(at);
        pen.tick();
    }
    for _ in 0..pen.random.among(12, 40) {
        match pen.random.below(20) {
            0 => {
                pen.tick();
            }
            1..=10 => press_some(pen),
            _ => release_some(pen),
        }
    }
}

/// A wait under which the queue fills and runs over with hold-taps, released and not.
fn stuffed(pen: &mut Pen) {
    settle(pen);
    let keys = [(); 3].map(|_| hold_tap_key(pen).0);
    pen.press(keys[0]);
    pen.tick();
    for _ in 0..pen.random.among(5, 12) {
        if pen.random.once_in(2) {
            pen.press(keys[1]);
        }
        pen.press(keys[2]);
        if !pen.random.once_in(4) {
            pen.release(keys[2]);
        }
        if pen.random.once_in(6) {
            pen.tick();
        }
    }
}

/// A hold-tap whose release is the event that pushes its press out of the queue, under another's wait.
fn last_moment(pen: &mut Pen) {
    settle(pen);
    let keys = [(); 2].map(|_| hold_tap_key(pen).0);
    pen.press(keys[0]);
    pen.tick();
    pen.press(keys[1]);
    some_ticks(pen, 4);
    for _ in 0..15 {
        press_some(pen);
    }
    pen.release(keys[1]);
}

/// Ticks until all is done, if that is soon.
fn settle(pen: &mut Pen) {
    for _ in 0..40 {
        if pen.waiting().is_none() && pen.sizes().2 == 0 {
            break;
        }
        pen.tick();
    }
}

/// Releases a waiting key at the tick that would make it hold, just before, or just after.
fn live_tie(pen: &mut Pen) {
    if pen.waiting().is_none() {
        let (at, _) = hold_tap_key(pen);
        pen.press(at);
        pen.tick();
    }
    if let Some(waiting) = pen.waiting() {
        if waiting.left <= PATIENCE {
            let ticks = (usize::from(waiting.left) + pen.random.below(3)).saturating_sub(1);
            pen.ticks(ticks);
        }
        pen.release(waiting.at);
    }
}

/// A hold-tap pressed and released behind another's wait, its timeout apart, or one less or more.
fn behind(pen: &mut Pen) {
    let (first, _) = hold_tap_key(pen);
    pen.press(first);
    pen.tick();
    let (second, timeout) = hold_tap_key(pen);
    pen.press(second);
    let apart = timeout.min(PATIENCE);
    let apart = (usize::from(apart) + pen.random.below(3)).saturating_sub(1);
    pen.ticks(apart);
    pen.release(second);
    if pen.random.once_in(2) {
        pen.release(first);
    }
    settle(pen);
}

fn press_again(pen: &mut Pen) {
    let down: Vec<Coord> = pen.beside.down.iter().copied().collect();
    if !down.is_empty() {
        let at = pen.random.pick(&down);
        pen.press(at);
        some_ticks(pen, 3);
    }
}

fn outside(pen: &mut Pen) {
    let (rows, columns) = sizes(pen);
    let (rows, columns) = (rows as u8, columns as u8);
    let at = match pen.random.below(6) {
        0 => (rows, 0),
        1 => (0, columns),
        2 => (rows - 1, columns),
        3 => (rows, columns - 1),
        4 => (255, 255),
        _ => (pen.random.below(256) as u8, pen.random.below(256) as u8),
    };
    pen.press(at);
    some_ticks(pen, 2);
    if pen.random.once_in(2) {
        pen.release(at);
    }
}

/// Keys that are pressed and stay down, until the states have no place.
fn press_many(pen: &mut Pen) {
    let few = [some_key(pen), some_key(pen)];
    for _ in 0..pen.random.among(5, 40) {
        let at = match pen.random.once_in(3) {
            true => some_key(pen),
            false => pen.random.pick(&few),
        };
        pen.press(at);
        some_ticks(pen, 2);
    }
}

fn release_all(pen: &mut Pen) {
    let down: Vec<Coord> = pen.beside.down.iter().copied().collect();
    for at in down {
        pen.release(at);
        some_ticks(pen, 1);
    }
}

/// Calls over a code buffer that is too short, just long enough, or longer.
fn cramped(pen: &mut Pen) {
    let room = pen
        .random
        .pick(&[0, 1, 32, 62, 63, 63, 64, 65, 256, 65_535]);
    pen.room(room);
    for _ in 0..pen.random.among(1, 3) {
        match pen.random.below(3) {
            0 => press_some(pen),
            1 => {
                pen.keycodes();
            }
            _ => {
                pen.tick();
            }
        }
    }
    pen.full_room();
}
