//! The bench cases of document 01 for the layout and its "easy errors", as lines and what they answer.
//!
//! Assumes: the answers stand in document 01, or follow from its steps by hand. No state is dropped in them; those in
//! which one is stand in `drops/cases.rs`.

use super::super::draft::{Draft, NOOP};
use crate::paper::image::Z;
use crate::random::Random;
use crate::words::to_hex;

/// What a call answers that did nothing, but for its count.
pub const NOTHING: &str = "codes - | acted - | decided -";

/// Lines, each with its answer.
pub struct Case(pub Vec<(String, String)>);

impl Case {
    pub fn over(image: &[u8]) -> Self {
        let line = format!("image {}", to_hex(image));
        Case(vec![(line, "accepted".to_string())])
    }

    /// A line that is given so many times, and its answer; no state is dropped.
    pub fn with(self, line: &str, times: usize, answer: &str) -> Self {
        let answer = format!("{answer} | dropped 0");
        (0..times).fold(self, |case, _| case.answered(line, &answer))
    }

    /// A line and its whole answer.
    pub fn answered(mut self, line: &str, answer: &str) -> Self {
        self.0.push((line.to_string(), answer.to_string()));
        self
    }
}

pub fn z_with_timeout(timeout: u8) -> [u8; 52] {
    let mut image = Z;
    image[46] = timeout;
    image
}

/// One layer with two hold-taps, of timeouts 10 and 3.
fn two_hold_taps() -> Vec<u8> {
    let mut draft = Draft::new(1, 1, 2);
    draft.push_plain([2, 4, 0, 0]);
    draft.push_plain([2, 5, 0, 0]);
    let ten = draft.push_hold_tap(10, 0, 1);
    let three = draft.push_hold_tap(3, 0, 1);
    draft.cells = vec![ten, three];
    draft.bytes()
}

/// Two layers: a key that is 4 on the first and has a Trans in a list with 5 on the second, a Trans under a
/// key 6, and two keys that hold the second.
fn two_layers() -> Vec<u8> {
    let mut draft = Draft::new(2, 1, 4);
    let [_, trans] = [NOOP, [1, 0, 0, 0]].map(|record| draft.push_plain(record));
    let [four, five, six] = [4, 5, 6].map(|code| draft.push_plain([2, code, 0, 0]));
    let up = draft.push_plain([5, 1, 0, 0]);
    let list = draft.push_actions(&mut Random::new(0), &[trans, five]);
    draft.cells = vec![four, six, up, up, list, trans, up, up];
    draft.bytes()
}

pub fn cases() -> Vec<Case> {
    let mut cases = vec![
        third_tick(),
        tap_before_a_tick(),
        panel(),
        seventeenth(),
        quiet_after_33(),
    ];
    cases.extend([behind(3, "05", "tap"), behind(4, "04", "hold")]);
    cases.extend([trans(), past_the_table()]);
    cases.extend(
        [(51, "refused 3 0"), (15, "refused 1 0")].map(|(length, answer)| {
            let image = format!("image {}", to_hex(&Z[..length]));
            let case = Case(vec![(image, answer.to_string())]);
            ["t", "k", "p 0 0", "r 0 0"]
                .iter()
                .fold(case, |case, line| case.answered(line, answer))
        }),
    );
    cases
}

fn third_tick() -> Case {
    Case::over(&Z)
        .with("p 0 0", 1, NOTHING)
        .with("t", 1, "codes - | acted p 0 0 | decided -")
        .with("t", 1, NOTHING)
        .with("t", 1, "codes e0 | acted - | decided hold 0 0")
        // the live tie: it is hold already
        .with("r 0 0", 1, "codes e0 | acted - | decided -")
        .with("t", 1, "codes - | acted r 0 0 | decided -")
}

fn tap_before_a_tick() -> Case {
    Case::over(&Z)
        .with("p 0 0", 1, NOTHING)
        .with("r 0 0", 1, NOTHING)
        .with("t", 1, "codes 2c | acted p 0 0 | decided tap 0 0")
        .with("t", 1, "codes - | acted r 0 0 | decided -")
        .with("t", 1, NOTHING)
}

fn panel() -> Case {
    Case::over(&Z)
        .with("p 0 0", 1, NOTHING)
        .with("t", 1, "codes - | acted p 0 0 | decided -")
        .with("t", 1, NOTHING)
        .with("r 0 0", 1, "codes 2c | acted - | decided tap 0 0")
        .with("t", 1, "codes - | acted r 0 0 | decided -")
}

fn seventeenth() -> Case {
    Case::over(&Z)
        .with("p 0 1", 16, NOTHING)
        .with("p 0 1", 1, "codes 2c | acted p 0 1 | decided -")
        .with("k", 1, "codes 2c | acted - | decided -")
}

/// The first press leaves the queue at once and waits one tick; each of the sixteen others takes two.
fn quiet_after_33() -> Case {
    let mut case = Case::over(&z_with_timeout(1))
        .with("p 0 0", 16, NOTHING)
        .with("p 0 0", 1, "codes - | acted p 0 0 | decided -");
    let codes = |held: usize| match held {
        0 => "-".to_string(),
        _ => "e0".repeat(held),
    };
    for held in 1..=17 {
        let hold = format!("codes {} | acted - | decided hold 0 0", codes(held));
        case = case.with("t", 1, &hold);
        if held < 17 {
            let begin = format!("codes {} | acted p 0 0 | decided -", codes(held));
            case = case.with("t", 1, &begin);
        }
    }
    let quiet = format!("codes {} | acted - | decided -", codes(17));
    case.with("t", 10, &quiet)
}

/// A press and release so many ticks apart at timeout 3, queued behind the wait of another key.
fn behind(apart: usize, code: &str, way: &str) -> Case {
    let second = format!("codes 04{code} | acted p 0 1 | decided {way} 0 1");
    Case::over(&two_hold_taps())
        .with("p 0 0", 1, NOTHING)
        .with("t", 1, "codes - | acted p 0 0 | decided -")
        .with("p 0 1", 1, NOTHING)
        .with("t", apart, NOTHING)
        .with("r 0 1", 1, NOTHING)
        .with("t", 8 - apart, NOTHING)
        .with("t", 1, "codes 04 | acted - | decided hold 0 0")
        .with("t", 1, &second)
        .with("t", 1, "codes 04 | acted r 0 1 | decided -")
}

/// Trans in a cell takes the default layer's; in a list it is nothing.
fn trans() -> Case {
    Case::over(&two_layers())
        .with("p 0 2", 1, NOTHING)
        .with("t", 1, "codes - | acted p 0 2 | decided -")
        .with("p 0 1", 1, NOTHING)
        .with("t", 1, "codes 06 | acted p 0 1 | decided -")
        .with("p 0 0", 1, "codes 06 | acted - | decided -")
        .with("t", 1, "codes 0605 | acted p 0 0 | decided -")
}

/// The second layer held twice is no layer, and not the default one either.
fn past_the_table() -> Case {
    Case::over(&two_layers())
        .with("p 0 2", 1, NOTHING)
        .with("p 0 3", 1, NOTHING)
        .with("p 0 0", 1, NOTHING)
        .with("t", 1, "codes - | acted p 0 2 | decided -")
        .with("t", 1, "codes - | acted p 0 3 | decided -")
        .with("t", 1, "codes - | acted p 0 0 | decided -")
        .with("p 1 0", 1, NOTHING)
        .with("t", 1, "codes - | acted p 1 0 | decided -")
}

/// Holds the oracle to the answers of cases.
#[cfg(test)]
pub fn check(cases: Vec<Case>) {
    for (number, Case(lines)) in cases.into_iter().enumerate() {
        let (lines, wanted): (Vec<String>, Vec<String>) = lines.into_iter().unzip();
        let lines = lines.into_iter().map(String::into_bytes);
        let script = crate::script::Script::new(lines.collect());
        let got = crate::answers::replay::answers(&script);
        assert_eq!(got, wanted, "case {number}");
    }
}

#[cfg(test)]
mod tests {
    use super::*;

    #[test]
    fn cases_answer_as_they_should() {
        check(cases());
    }
}
