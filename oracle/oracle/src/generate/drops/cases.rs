//! Cases in which the 64 states fill up and one, or many, have no place, as lines and what they answer.
//!
//! Assumes: the answers follow from the steps of document 01 and from document 02, W-202, by hand.

use super::super::draft::{Draft, NOOP};
use super::super::layout::bench::{Case, NOTHING};
use crate::random::Random;

/// Keys of one row: a key code 04; 63 codes 05, the most that a record can have; a hold-tap whose hold has 61 codes
/// 06, the most that a hold can have; a layer; a list of the key code, the layer and two codes 08; a hold-tap that has
/// this list both ways; and a list of the two codes and that hold-tap.
fn table() -> Vec<u8> {
    let random = &mut Random::new(0);
    let mut draft = Draft::new(1, 1, 7);
    let nothing = draft.push_plain(NOOP);
    let four = draft.push_plain([2, 4, 0, 0]);
    let layer = draft.push_plain([5, 0, 0, 0]);
    let mut codes = |draft: &mut Draft, code: u16, count: usize| {
        let first = draft.enter(random, &vec![code; count]);
        draft.push_old_codes(first, count)
    };
    let most = codes(&mut draft, 5, 63);
    let held = codes(&mut draft, 6, 61);
    let pair = codes(&mut draft, 8, 2);
    let list = draft.push_actions(random, &[four, layer, pair]);
    let heavy = draft.push_hold_tap(2, held, nothing);
    let listed = draft.push_hold_tap(2, list, list);
    let open = draft.push_actions(random, &[pair, listed]);
    draft.cells = vec![four, most, heavy, layer, list, listed, open];
    draft.bytes()
}

/// A fresh layout that has come to hold 63 states.
fn with_63() -> Case {
    let pressed = format!("{} | acted p 0 1 | decided -", codes(63, ""));
    Case::over(&table())
        .with("p 0 1", 1, NOTHING)
        .with("t", 1, &pressed)
}

fn with_64() -> Case {
    let (before, after) = (codes(63, ""), codes(63, "04"));
    with_63()
        .with("p 0 0", 1, &format!("{before} | acted - | decided -"))
        .with("t", 1, &format!("{after} | acted p 0 0 | decided -"))
}

/// The answer's codes: so many of the first list, and these.
fn codes(count: usize, more: &str) -> String {
    format!("codes {}{more}", "05".repeat(count))
}

/// A key that is pressed, and the tick that acts on it, with 63 codes of the first list and these before and after.
fn struck(case: Case, at: &str, [before, after]: [&str; 2], dropped: usize) -> Case {
    let before = format!("{} | acted - | decided -", codes(63, before));
    let after = codes(63, after);
    case.with(&format!("p {at}"), 1, &before).answered(
        "t",
        &format!("{after} | acted p {at} | decided - | dropped {dropped}"),
    )
}

pub fn cases() -> Vec<Case> {
    vec![
        the_65th(),
        layer(),
        most_in_a_tick(),
        most_in_an_event(),
        some_of_a_list(),
        two_fit(),
        by_time(),
        by_release(),
        by_a_queued_release(),
        press_and_decision(),
        refused(),
    ]
}

/// The 64th has a place, the 65th has none, and so again when a release has made room; no other call tells a count.
fn the_65th() -> Case {
    let full = codes(63, "04");
    let idle = format!("{full} | acted - | decided -");
    let case = struck(with_64(), "0 0", ["04", "04"], 1)
        .with("k", 1, &idle)
        .with("t", 1, &idle);
    let case = struck(case, "0 0", ["04", "04"], 1);
    let released = format!("{} | acted r 0 0 | decided -", codes(63, ""));
    let case = case.with("r 0 0", 1, &idle).with("t", 1, &released);
    let case = struck(case, "0 0", ["", "04"], 0);
    struck(case, "0 0", ["04", "04"], 1)
}

/// A layer is a state as a code is.
fn layer() -> Case {
    let case = struck(with_63(), "0 3", ["", ""], 0);
    let case = struck(case, "0 3", ["", ""], 1);
    struck(case, "0 0", ["", ""], 1)
}

fn most_in_a_tick() -> Case {
    let case = struck(with_63(), "0 1", ["", "05"], 62);
    struck(case, "0 1", ["05", "05"], 63)
}

/// The seventeenth event makes a hold of 61 states and acts on a press of 63.
fn most_in_an_event() -> Case {
    let full = codes(63, "04");
    let waits = format!("{full} | acted p 0 2 | decided -");
    let idle = format!("{full} | acted - | decided -");
    let dropped = format!("{full} | acted p 0 1 | decided hold 0 2 | dropped 124");
    with_64()
        .with("p 0 2", 1, &idle)
        .with("t", 1, &waits)
        .with("p 0 1", 16, &idle)
        .answered("p 0 0", &dropped)
}

/// One place for four states: the list's first has it.
fn some_of_a_list() -> Case {
    let case = struck(with_63(), "0 4", ["", "04"], 3);
    struck(case, "0 4", ["04", "04"], 4)
}

/// Two states have the last two places, and the four of the decision behind them have none.
fn two_fit() -> Case {
    let held = |count: usize| format!("codes {}", "06".repeat(count));
    let idle = |codes: &str| format!("{codes} | acted - | decided -");
    let (hold, full) = (held(61), held(61) + "04");
    Case::over(&table())
        .with("p 0 2", 1, NOTHING)
        .with("t", 1, "codes - | acted p 0 2 | decided -")
        .with("t", 1, &format!("{hold} | acted - | decided hold 0 2"))
        .with("p 0 0", 1, &idle(&hold))
        .with("t", 1, &format!("{full} | acted p 0 0 | decided -"))
        // 62 are held
        .with("p 0 6", 1, &idle(&full))
        .with("t", 1, &format!("{full}0808 | acted p 0 6 | decided -"))
        .answered(
            "t",
            &format!("{full}0808 | acted - | decided hold 0 6 | dropped 4"),
        )
}

/// A press of the hold-tap with the lists, when 63 are held, and its wait.
fn waiting() -> Case {
    struck(with_63(), "0 5", ["", ""], 0)
}

fn by_time() -> Case {
    let held = format!(
        "{} | acted - | decided hold 0 5 | dropped 3",
        codes(63, "04")
    );
    waiting().answered("t", &held)
}

fn by_release() -> Case {
    let released = format!("{} | acted r 0 5 | decided -", codes(63, ""));
    let tapped = codes(63, "04");
    waiting()
        .answered(
            "r 0 5",
            &format!("{tapped} | acted - | decided tap 0 5 | dropped 3"),
        )
        .with("t", 1, &released)
}

/// Tap, and hold where a tick more than the timeout lies between press and release.
fn by_a_queued_release() -> Case {
    let (before, after) = (codes(63, ""), codes(63, "04"));
    let idle = format!("{before} | acted - | decided -");
    let other = format!("{before} | acted r 0 3 | decided -");
    let decided = |way: &str| format!("{after} | acted p 0 5 | decided {way} 0 5 | dropped 3");
    with_63()
        .with("p 0 5", 1, &idle)
        .with("r 0 5", 1, &idle)
        .answered("t", &decided("tap"))
        .with("t", 1, &format!("{before} | acted r 0 5 | decided -"))
        .with("r 0 3", 3, &idle)
        .with("p 0 5", 1, &idle)
        .with("t", 3, &other)
        .with("r 0 5", 1, &idle)
        .answered("t", &decided("hold"))
}

/// A list drops one of its two codes, and the hold-tap at its end, decided at once, four states more.
fn press_and_decision() -> Case {
    let idle = format!("{} | acted - | decided -", codes(63, ""));
    let decided = format!(
        "{} | acted p 0 6 | decided tap 0 6 | dropped 5",
        codes(63, "08")
    );
    with_63()
        .with("p 0 6", 1, &idle)
        .with("r 0 6", 1, &idle)
        .answered("t", &decided)
}

/// A refused call drops nothing and tells no count; the same call tells it when there is room.
fn refused() -> Case {
    let full = codes(63, "04");
    with_64()
        .with("p 0 4", 1, &format!("{full} | acted - | decided -"))
        .answered("room 63", "room 63")
        .answered("t", "refused 12 0")
        .answered("k", "refused 12 0")
        .answered("room 64", "room 64")
        .answered(
            "t",
            &format!("{full} | acted p 0 4 | decided - | dropped 4"),
        )
}

#[cfg(test)]
mod tests {
    use super::super::super::layout::bench::check;
    use super::*;

    #[test]
    fn cases_answer_as_they_should() {
        check(cases());
    }
}
