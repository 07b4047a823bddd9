//! Scripts over layouts that are set as they stand: legal ones, and ones illegal for each cause of State alone
//! and for two at once, over images and rooms that are refused too, so that the order of the checks shows.
//!
//! Assumes: whether a layout is legal in truth is counted by its first call.

mod causes;
mod legal;

use super::grow::Reach;
use super::kind::Kind;
use super::layout::pen::Pen;
use super::layout::{tables, trace};
use super::spoil;
use crate::paper::image::{check, Z};
use crate::paper::layout::{Event, Layout, Queued, State, Waiting};
use crate::paper::state::{Held, NO_EVENT, NO_STATE};
use crate::paper::STATE;
use crate::random::Random;
use crate::script::Script;
use causes::{Cause, CAUSES};

/// A made-up layout is worth some calls: this part of a comparison's size are run.
const SHARE: usize = 20;

pub struct States {
    pen: Pen,
    wanted: usize,
    counts: Counts,
}

/// How many layouts were set, and what was aimed at.
#[derive(Default)]
struct Counts {
    legal: usize,
    illegal: usize,
    /// Over a refused image, or without room.
    hidden: usize,
    /// By cause alone, and with any second one.
    alone: [usize; CAUSES.len()],
    paired: [usize; CAUSES.len()],
    /// Layouts that calls had led to, of which one part was set.
    changed: usize,
}

impl Counts {
    fn all(&self) -> usize {
        self.legal + self.illegal + self.hidden
    }

    fn aim(&mut self, causes: &[Cause]) {
        let times = match causes.len() {
            1 => &mut self.alone,
            _ => &mut self.paired,
        };
        for cause in causes {
            times[*cause as usize] += 1;
        }
    }

    fn causes(&self) -> String {
        let times = self.alone.iter().zip(&self.paired);
        let causes = CAUSES.iter().zip(times);
        let parts: Vec<String> = causes
            .map(|(cause, (alone, paired))| format!("{cause:?} {alone} + {paired}"))
            .collect();
        parts.join(", ")
    }
}

impl States {
    pub fn new(n: usize, seed: u64) -> Self {
        States {
            pen: Pen::new(seed),
            wanted: n / SHARE,
            counts: Counts::default(),
        }
    }
}

impl Kind for States {
    fn next(&mut self) -> Option<Script> {
        while self.counts.all() < self.wanted && !self.pen.is_full() {
            run_one(&mut self.pen, &mut self.counts);
        }
        self.pen.script().if_any()
    }

    fn summary(&self, differences: usize) -> String {
        let counts = &self.counts;
        format!(
            "{} layouts set, {differences} differences ({} legal, {} illegal, {} under a refused image or room; \
             {} of them changed in one part after a trace; causes alone + with a second: {}), with {} calls \
             that were not refused ({})",
            counts.all(),
            counts.legal,
            counts.illegal,
            counts.hidden,
            counts.changed,
            counts.causes(),
            self.pen.counts.calls,
            self.pen.counts,
        )
    }
}

/// Layouts over small tables.
pub fn sample(count: usize, seed: u64) -> Script {
    let mut pen = Pen::new(seed);
    let mut counts = Counts::default();
    while pen.lines() < count {
        run_one(&mut pen, &mut counts);
    }
    pen.sample(count)
}

fn run_one(pen: &mut Pen, counts: &mut Counts) {
    match pen.random.once_in(12) {
        true => run_to_stop(pen, counts),
        false => run(pen, counts),
    }
}

/// Sets a layout, over an image and with a room that may be refused, and makes some calls on it.
fn run(pen: &mut Pen, counts: &mut Counts) {
    let image = match pen.random.once_in(4) {
        true => Z.to_vec(),
        false => tables::lively(&mut pen.random).bytes(),
    };
    pen.image(&image);
    if pen.random.once_in(4) {
        let calls = pen.random.among(10, 40);
        trace(pen, calls);
        change_one_part(pen);
        counts.changed += 1;
    } else {
        make_up(pen, counts, &image);
    }
    let cramped = pen.random.once_in(6);
    if cramped {
        let room = pen.random.pick(&[0, 1, 32, 63, 63, 64, 65, 65_535]);
        pen.room(room);
    }
    match call(pen) {
        0 => counts.legal += 1,
        STATE => counts.illegal += 1,
        _ => counts.hidden += 1,
    }
    if cramped {
        pen.full_room();
    }
    for _ in 0..pen.random.among(1, 7) {
        call(pen);
    }
}

/// Sets a layout whose ages are about to stop, and lets that happen.
fn run_to_stop(pen: &mut Pen, counts: &mut Counts) {
    let image = tables::lively(&mut pen.random).bytes();
    let table = check(&image).expect("the tables are accepted");
    if let Some(held) = legal::about_to_stop(&mut pen.random, &table) {
        pen.image(&image);
        set(pen, &held);
        pen.ticks(11);
        counts.legal += 1;
    }
}

/// Sets a whole layout over the image, or over one that is refused.
fn make_up(pen: &mut Pen, counts: &mut Counts, image: &[u8]) {
    let table = check(image).expect("the tables are accepted");
    let mut held = legal::layout(&mut pen.random, &table);
    let count = pen.random.pick(&[0, 0, 0, 1, 1, 1, 1, 2, 2]);
    let causes: Vec<Cause> = (0..count).map(|_| pen.random.pick(&CAUSES)).collect();
    for &cause in &causes {
        causes::spoil(&mut held, &mut pen.random, &table, cause);
    }
    counts.aim(&causes);
    if pen.random.once_in(8) {
        let number = pen.random.among(1, 9) as u8;
        let refused = spoil::refused(&mut pen.random, Reach::Small, &[number]);
        pen.image(&refused);
    }
    set(pen, &held);
}

/// Sets what a layout has other than a fresh one.
fn set(pen: &mut Pen, held: &Held) {
    let fresh = Held::of(&Layout::default());
    if held.default != fresh.default {
        pen.set_default(held.default);
    }
    for (place, &state) in held.states.iter().enumerate() {
        if state != NO_STATE {
            pen.set_state(place, state);
        }
    }
    for (place, &queued) in held.queue.iter().enumerate().rev() {
        if queued != NO_EVENT {
            pen.set_queued(place, queued);
        }
    }
    if held.waiting.is_some() || pen.random.once_in(20) {
        pen.set_waiting(held.waiting);
    }
    pen.set_counts(held.state_count, held.queue_count);
}

/// Sets one part of a layout that calls have led to.
fn change_one_part(pen: &mut Pen) {
    let table = pen.table().expect("an accepted image");
    let (layers, records) = (table.layers(), table.records.len());
    let (_, states, queued) = pen.sizes();
    let random = &mut pen.random;
    let near = |random: &mut Random, count: usize| (count + random.below(3)).saturating_sub(1);
    match random.below(6) {
        0 => {
            let layer = random.among(0, layers);
            pen.set_default(layer as u16);
        }
        1 => pen.set_waiting(None),
        2 => {
            let (at, left) = ((0, 0), random.among(0, 3) as u16);
            let record = random.among(0, records) as u16;
            pen.set_waiting(Some(Waiting { at, left, record }));
        }
        3 => {
            let place = near(random, states).min(63);
            let code = random.pick(&[0, 4, 0xA4, 0xA5]);
            pen.set_state(place, State::Key { code, at: (0, 0) });
        }
        4 => {
            let place = near(random, queued).min(15);
            let age = random.pick(&[0, 1, 5, 65_535]);
            let event = random.pick(&[Event::Press((0, 0)), Event::Release((0, 0))]);
            pen.set_queued(place, Queued { event, age });
        }
        _ => {
            let counts = (near(random, states) as u16, near(random, queued) as u16);
            pen.set_counts(counts.0, counts.1);
        }
    }
}

/// A call, aimed at what waits if something does; 0 or the refusal's number.
fn call(pen: &mut Pen) -> u8 {
    let waits = pen.waiting().map(|waiting| waiting.at);
    let (rows, columns) = pen
        .table()
        .map_or((1, 1), |table| (table.rows, table.columns));
    let at = (
        pen.random.below(rows) as u8,
        pen.random.below(columns) as u8,
    );
    match (pen.random.below(10), waits) {
        (0, _) => pen.keycodes(),
        (1, Some(at)) => pen.release(at),
        (1 | 2, _) => pen.press(at),
        (3 | 4, _) => pen.release(at),
        _ => pen.tick(),
    }
}

#[cfg(test)]
mod tests {
    use super::*;
    use crate::answers::both::MARK;
    use crate::answers::replay::answers;
    use crate::generate::kind::all;

    const N: usize = 60_000;

    #[test]
    fn every_cause_and_every_refusal_occurs() {
        let mut states = States::new(N, 1);
        let scripts = all(&mut states);
        let counts = &states.counts;
        assert_eq!(counts.all(), N / SHARE);
        assert!(counts.legal > 500 && counts.illegal > 500 && counts.hidden > 100);
        assert!(counts.changed > 500);
        for times in [&counts.alone, &counts.paired] {
            assert!(times.iter().all(|&often| often > 20), "{}", counts.causes());
        }
        for number in [1, 2, 3, 4, 5, 6, 7, 8, 9, 12, 13] {
            assert!(states.pen.counts.refused.of(number) > 20, "{number}");
        }
        let all: Vec<String> = scripts.iter().flat_map(answers).collect();
        let bad = |answer: &&String| answer.starts_with(MARK) || answer.starts_with('?');
        assert_eq!(all.iter().find(bad), None);
    }
}
