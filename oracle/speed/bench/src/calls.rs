//! The calls of the layout that are counted: what comes before each, and the call itself.
//!
//! Assumes: a script is an image and three bytes a call, as `rust.rs` and the port's `pace` read it.

use super::case::{Call, Case, TICK};
use super::tables;

fn press(key: [u8; 2]) -> Call {
    [1, key[0], key[1]]
}

fn release(key: [u8; 2]) -> Call {
    [0, key[0], key[1]]
}

/// A table, and keys of it: a hold-tap with its timeout, and others that are codes.
pub struct Keys {
    part: &'static str,
    image: Vec<u8>,
    hold_tap: [u8; 2],
    timeout: usize,
    plain: Vec<[u8; 2]>,
}

impl Keys {
    pub fn of_z() -> Keys {
        Keys {
            part: "layout on Z",
            image: tables::z(),
            hold_tap: [0, 0],
            timeout: 3,
            plain: vec![[0, 1]],
        }
    }

    pub fn of_ordinary() -> Keys {
        Keys {
            part: "layout on ordinary",
            image: tables::ordinary(),
            hold_tap: [3, 9],
            timeout: 200,
            plain: (0..12).map(|column| [0, column]).collect(),
        }
    }

    fn script(&self, calls: &[Call]) -> Vec<u8> {
        [&[0], &self.image[..], &calls.concat()].concat()
    }

    fn case(&self, name: &str, before: Vec<Call>, last: Call) -> Case {
        Case::new(self.part, name, self.script(&before), &last)
    }

    fn grown(
        &self,
        part: &'static str,
        name: &str,
        size: usize,
        before: Vec<Call>,
        last: Call,
    ) -> Case {
        Case::new(part, name, self.script(&before), &last).sized(size)
    }

    /// The calls by how many states there are, and how many events are queued.
    pub fn growth(&self) -> Vec<Case> {
        let (tap, plain) = (self.hold_tap, self.plain[0]);
        let mut cases = Vec::new();
        for size in [0, 8, 16, 32, 48, 64] {
            cases.push(self.grown("states", "idle tick", size, self.held(size), TICK));
        }
        for size in [0, 8, 16, 32, 48, 63] {
            let before = [self.held(size), vec![press(plain)]].concat();
            cases.push(self.grown("states", "tick that acts on a press", size, before, TICK));
        }
        for size in [0, 4, 8, 12, 15] {
            cases.push(self.grown("queue", "event", size, self.presses(size), press(plain)));
        }
        for size in [0, 4, 8, 12, 16] {
            let before = [vec![press(tap), TICK], self.presses(size)].concat();
            cases.push(self.grown("queue", "tick while a hold-tap waits", size, before, TICK));
        }
        cases
    }

    fn presses(&self, count: usize) -> Vec<Call> {
        let keys = self.plain.iter().cycle();
        keys.take(count).map(|&key| press(key)).collect()
    }

    /// So many states.
    fn held(&self, count: usize) -> Vec<Call> {
        let presses = self.presses(count);
        presses.into_iter().flat_map(|call| [call, TICK]).collect()
    }

    pub fn cases(&self) -> Vec<Case> {
        let (tap, plain) = (self.hold_tap, self.plain[0]);
        let waiting = vec![press(tap), TICK];
        let then = |mut before: Vec<Call>, more: &[Call]| {
            before.extend(more);
            before
        };
        vec![
            self.case("idle tick, nothing held", vec![], TICK),
            self.case("idle tick, 6 states held", self.held(6), TICK),
            self.case("idle tick, 64 states held", self.held(64), TICK),
            self.case(
                "tick while a hold-tap waits, nothing queued",
                waiting.clone(),
                TICK,
            ),
            self.case(
                "tick while a hold-tap waits, 8 queued",
                then(waiting.clone(), &self.presses(8)),
                TICK,
            ),
            self.case(
                "tick that acts on a press, nothing held",
                vec![press(plain)],
                TICK,
            ),
            self.case(
                "tick that acts on a press, 6 states held",
                then(self.held(6), &[press(plain)]),
                TICK,
            ),
            self.case(
                "tick that acts on a release, 6 states held",
                then(self.held(6), &[release(plain)]),
                TICK,
            ),
            self.case("tick that begins a hold-tap", vec![press(tap)], TICK),
            // the press is a tick old when it begins, so the last of `timeout` ticks decides
            self.case(
                "tick that decides a hold",
                then(vec![press(tap)], &vec![TICK; self.timeout - 1]),
                TICK,
            ),
            self.case("event, nothing queued", vec![], press(plain)),
            self.case("event, 8 queued", self.presses(8), press(plain)),
            self.case("event that releases what waits: tap", waiting, release(tap)),
            self.case(
                "event with 16 queued: the oldest is acted on",
                self.presses(16),
                press(plain),
            ),
        ]
    }
}
