//! What calls dropped: through what, with how many states held before, and how many at the most; and the calls that
//! just did not.
//!
//! Assumes: the marks are those of one call that was not refused. The first record that is run behind a press or a
//! decision is the one in which the others stand, and a dropped state is of the record that was run last. Only the last
//! entry of a list may be a hold-tap, so what comes behind a decision is the decision's, up to the next event acted on.

use crate::paper::calls::Call;
use crate::paper::image::Parts;
use crate::paper::layout::{By, Mark, State, ACTIONS, CODES, MOST_STATES};
use std::collections::BTreeSet;
use std::fmt;

/// What is known of a call. But for the last four, it has dropped a state.
#[derive(Clone, Copy, Debug, PartialEq, Eq, PartialOrd, Ord)]
pub enum Case {
    InTick,
    InEvent,
    /// A code of a MultipleKeyCodes.
    Codes,
    /// In a MultipleActions, whatever it names.
    Actions,
    /// A code of a MultipleKeyCodes that a MultipleActions names.
    Both,
    /// Of a record that a press or a decision runs by itself.
    Single,
    Layer,
    ByTime,
    ByRelease,
    TapByQueue,
    HoldByQueue,
    BySeventeenth,
    /// By a press, and nothing was decided.
    Undecided,
    /// By a decision and by the press that was acted on behind it.
    DecidedAndPressed,
    /// By a press and by the decision of the hold-tap at its end.
    PressedAndDecided,
    DecidedTwice,
    With62,
    With63,
    With64,
    WithFewer,
    Fit62,
    Filled62,
    Fit63,
    /// A full layout has fewer states.
    RoomAgain,
}

/// The cases in their order, and how the closing line names them.
const NAMES: [(Case, &str); 24] = [
    (Case::InTick, "in a tick"),
    (Case::InEvent, "in an event"),
    (Case::Codes, "through MultipleKeyCodes"),
    (Case::Actions, "through MultipleActions"),
    (Case::Both, "through both in one action"),
    (Case::Single, "through neither"),
    (Case::Layer, "a layer among them"),
    (Case::ByTime, "hold by time"),
    (Case::ByRelease, "tap by a release"),
    (Case::TapByQueue, "tap by a queued release"),
    (Case::HoldByQueue, "hold by a queued release"),
    (Case::BySeventeenth, "hold by a 17th event"),
    (Case::Undecided, "a press with no decision"),
    (
        Case::DecidedAndPressed,
        "a decision and the press behind it",
    ),
    (Case::PressedAndDecided, "a press and its decision"),
    (Case::DecidedTwice, "two decisions"),
    (Case::With62, "with 62 held before"),
    (Case::With63, "with 63"),
    (Case::With64, "with 64"),
    (Case::WithFewer, "with fewer"),
    (Case::Fit62, "added and dropped none with 62 held"),
    (Case::Filled62, "of these two states"),
    (Case::Fit63, "with 63 held"),
    (Case::RoomAgain, "a full layout got room"),
];

/// How often each case came up, and the largest counts.
#[derive(Default)]
pub struct Dropped {
    /// Calls with a count above 0.
    pub calls: usize,
    /// The held layers among the states that were dropped.
    pub layers: usize,
    pub most_in_tick: usize,
    pub most_in_event: usize,
    times: [usize; NAMES.len()],
}

impl Dropped {
    /// Counts a call over a table, with so many states held before and after it.
    pub fn add_call(&mut self, table: &Parts, call: Call, held: (usize, usize), marks: &[Mark]) {
        let mut watch = Watch::new(table);
        marks.iter().for_each(|mark| watch.take(mark));
        if watch.dropped > 0 {
            self.add_largest(call, watch.dropped);
            self.calls += 1;
            self.layers += watch.layers;
            watch.close(held.0);
        } else {
            watch.cases.extend(fitting(held));
        }
        for case in watch.cases {
            self.times[case as usize] += 1;
        }
    }

    fn add_largest(&mut self, call: Call, dropped: usize) {
        let (case, most) = match call {
            Call::Tick => (Case::InTick, &mut self.most_in_tick),
            _ => (Case::InEvent, &mut self.most_in_event),
        };
        *most = dropped.max(*most);
        self.times[case as usize] += 1;
    }

    /// The cases that came up less often than so many times.
    #[cfg(test)]
    pub fn rarer_than(&self, times: usize) -> Vec<&'static str> {
        let rare = NAMES.iter().filter(|(case, _)| self.of(*case) < times);
        rare.map(|(_, name)| *name).collect()
    }

    pub fn of(&self, case: Case) -> usize {
        self.times[case as usize]
    }
}

impl fmt::Display for Dropped {
    fn fmt(&self, f: &mut fmt::Formatter) -> fmt::Result {
        write!(f, "calls that dropped a state: {}", self.calls)?;
        for (case, name) in NAMES {
            write!(f, ", {name}: {}", self.of(case))?;
        }
        write!(f, "; layers dropped: {}, ", self.layers)?;
        write!(f, "largest count in a tick: {}, ", self.most_in_tick)?;
        write!(f, "in an event: {}", self.most_in_event)
    }
}

/// What a call that dropped nothing was near to.
fn fitting((before, after): (usize, usize)) -> Vec<Case> {
    match (before, after) {
        (62, 63) => vec![Case::Fit62],
        (62, 64) => vec![Case::Fit62, Case::Filled62],
        (63, 64) => vec![Case::Fit63],
        (MOST_STATES, after) if after < MOST_STATES => vec![Case::RoomAgain],
        _ => vec![],
    }
}

/// The marks of a call, one after the other.
struct Watch<'a> {
    table: &'a Parts,
    /// The kind of the record that a press or a decision runs, when it is known.
    outer: Option<u16>,
    /// The kind of the record that was run last.
    inner: u16,
    /// What decided the hold-tap whose action runs; none for a press.
    by: Option<Case>,
    decisions: usize,
    dropped: usize,
    layers: usize,
    /// Whether a press has dropped a state, and which decisions have.
    pressed: bool,
    decided: BTreeSet<usize>,
    cases: BTreeSet<Case>,
}

impl<'a> Watch<'a> {
    fn new(table: &'a Parts) -> Self {
        Watch {
            table,
            outer: None,
            inner: 0,
            by: None,
            decisions: 0,
            dropped: 0,
            layers: 0,
            pressed: false,
            decided: BTreeSet::new(),
            cases: BTreeSet::new(),
        }
    }

    fn take(&mut self, mark: &Mark) {
        match *mark {
            Mark::Acted(_) => (self.by, self.outer) = (None, None),
            Mark::Decided { tap, by, .. } => {
                self.decisions += 1;
                (self.by, self.outer) = (Some(decision(tap, by)), None);
            }
            Mark::Ran(record) => {
                self.inner = self.table.records[usize::from(record)][0];
                self.outer.get_or_insert(self.inner);
            }
            Mark::Dropped(state) => self.drop_state(state),
            Mark::PushedOut | Mark::Pressed(_) | Mark::Begun { .. } | Mark::Stopped => (),
        }
    }

    fn drop_state(&mut self, state: State) {
        self.dropped += 1;
        if matches!(state, State::Layer { .. }) {
            self.layers += 1;
            self.cases.insert(Case::Layer);
        }
        let lists: &[Case] = match (self.inner == CODES, self.outer == Some(ACTIONS)) {
            (true, true) => &[Case::Codes, Case::Actions, Case::Both],
            (true, false) => &[Case::Codes],
            (false, true) => &[Case::Actions],
            (false, false) => &[Case::Single],
        };
        self.cases.extend(lists);
        match self.by {
            Some(by) => {
                self.cases.insert(by);
                self.decided.insert(self.decisions);
                if self.pressed {
                    self.cases.insert(Case::PressedAndDecided);
                }
            }
            None => {
                self.pressed = true;
                if !self.decided.is_empty() {
                    self.cases.insert(Case::DecidedAndPressed);
                }
            }
        }
    }

    /// What shows when all marks of a call that dropped a state are taken.
    fn close(&mut self, before: usize) {
        self.cases.insert(match before {
            62 => Case::With62,
            63 => Case::With63,
            MOST_STATES => Case::With64,
            _ => Case::WithFewer,
        });
        if self.decisions == 0 {
            self.cases.insert(Case::Undecided);
        }
        if self.decided.len() == 2 {
            self.cases.insert(Case::DecidedTwice);
        }
    }
}

fn decision(tap: bool, by: By) -> Case {
    match (by, tap) {
        (By::Queue, true) => Case::TapByQueue,
        (By::Queue, false) => Case::HoldByQueue,
        (By::Release, _) => Case::ByRelease,
        (By::Time, _) => Case::ByTime,
        (By::Seventeenth, _) => Case::BySeventeenth,
    }
}

#[cfg(test)]
mod tests {
    use super::*;
    use crate::paper::image::{check, Z};
    use crate::paper::layout::{Event, MOST_STATES};

    #[test]
    fn names_stand_in_the_order_of_the_cases() {
        for (place, (case, _)) in NAMES.iter().enumerate() {
            assert_eq!(*case as usize, place);
        }
    }

    /// What is counted of a call over Z with so many states held before it.
    fn counted(before: usize, marks: &[Mark]) -> (Dropped, Vec<Case>) {
        let table = check(&Z).expect("Z is accepted");
        let mut dropped = Dropped::default();
        dropped.add_call(&table, Call::Tick, (before, MOST_STATES), marks);
        let cases = NAMES.iter().map(|(case, _)| *case);
        let cases = cases.filter(|case| dropped.of(*case) > 0).collect();
        (dropped, cases)
    }

    #[test]
    fn what_was_dropped_is_told_apart() {
        let at = (0, 0);
        let key = Mark::Dropped(State::Key { code: 4, at });
        let layer = Mark::Dropped(State::Layer { number: 0, at });
        let acted = Mark::Acted(Event::Press(at));
        let (one, cases) = counted(64, &[acted, Mark::Ran(1), key]);
        assert_eq!((one.calls, one.layers, one.most_in_tick), (1, 0, 1));
        let single = [Case::InTick, Case::Single, Case::Undecided, Case::With64];
        assert_eq!(cases, single);
        let decided = |tap, by| Mark::Decided { at, tap, by };
        let hold = decided(false, By::Seventeenth);
        let marks = [hold, Mark::Ran(2), layer, acted, Mark::Ran(1), key];
        let (two, cases) = counted(63, &marks);
        assert_eq!((two.calls, two.layers, two.most_in_tick), (1, 1, 2));
        assert!(cases.contains(&Case::BySeventeenth) && cases.contains(&Case::DecidedAndPressed));
        assert!(cases.contains(&Case::With63) && !cases.contains(&Case::Undecided));
        let tap = decided(true, By::Queue);
        let (_, cases) = counted(
            62,
            &[hold, Mark::Ran(2), key, acted, tap, Mark::Ran(1), key],
        );
        assert!(cases.contains(&Case::TapByQueue) && cases.contains(&Case::DecidedTwice));
        assert!(!cases.contains(&Case::DecidedAndPressed));
    }

    #[test]
    fn what_just_fits_is_told_apart() {
        let cases = |before| counted(before, &[Mark::Ran(1)]).1;
        assert_eq!(cases(63), [Case::Fit63]);
        assert_eq!(cases(62), [Case::Fit62, Case::Filled62]);
        assert_eq!((cases(64), cases(61)), (vec![], vec![]));
    }
}
