//! When the Rust panics over a table with open actions where the image's rules forbid them: said here before each
//! call, and held to the Rust by a search over small tables.
//!
//! An action is open if it is a HoldTap or a MultipleActions with an open entry. The three causes:
//! - `Early`, an assertion: an open action that is not the last of a MultipleActions runs while no release of its key
//!   is queued, so that the next entry begins while it waits;
//! - `Seventeenth`, the same assertion: a hold-tap waits whose hold is open, a seventeenth event comes that is not the
//!   release of its key, and the oldest event is a press;
//! - `Aged`, a subtraction below zero: a press is acted on whose release is queued with an age above 0, and the hold or
//!   the tap that this release decides for is open.
//!
//! Assumes: one layer, so that a key has one action.

use super::trees::{self, hold_tap, list, row, Call};
use crate::paper::image::check;
use crate::random::Random;
use keyberon::action::Action;
use keyberon::key_code::KeyCode;
use keyberon::layout::{Event, Layers};
use std::collections::VecDeque;

const QUEUE: usize = 16;

#[derive(Clone, Copy, Debug, PartialEq)]
pub enum Cause {
    Early,
    Seventeenth,
    Aged,
}

impl Cause {
    fn message(self) -> &'static str {
        match self {
            Cause::Early | Cause::Seventeenth => "assertion failed: self.waiting.is_none()",
            Cause::Aged => "attempt to subtract with overflow",
        }
    }
}

fn is_open(action: &Action) -> bool {
    match *action {
        Action::HoldTap { .. } => true,
        Action::MultipleActions(actions) => actions.iter().any(is_open),
        _ => false,
    }
}

/// Whether an action that is not the last of its list is open.
fn opens_early(action: &Action) -> bool {
    let Action::MultipleActions([front @ .., last]) = *action else {
        return false;
    };
    front.iter().any(is_open) || opens_early(last)
}

/// Whether a release that came so many ticks behind the press decides for an open action.
fn decides_for_open(action: &Action, apart: u16) -> bool {
    match *action {
        Action::HoldTap { timeout, hold, tap } => {
            is_open(if timeout >= apart { tap } else { hold })
        }
        Action::MultipleActions(actions) => actions.iter().any(|one| decides_for_open(one, apart)),
        _ => false,
    }
}

/// What is known of a layout: its queue with the ages, and what waits.
struct Watch {
    keys: &'static [Action],
    queue: VecDeque<(Event, u16)>,
    waiting: Option<Waiting>,
}

struct Waiting {
    at: (u8, u8),
    left: u16,
    hold: &'static Action,
}

impl Watch {
    fn new(keys: &'static [Action]) -> Self {
        Watch {
            keys,
            queue: VecDeque::new(),
            waiting: None,
        }
    }

    /// The cause of the panic that a call ends in, if it ends in one.
    fn take(&mut self, call: Call) -> Option<Cause> {
        match call {
            Some(event) => self.event(event),
            None => self.tick(),
        }
    }

    fn event(&mut self, event: Event) -> Option<Cause> {
        self.queue.push_back((event, 0));
        if self.queue.len() > QUEUE {
            let (oldest, age) = self.queue.pop_front().expect("a full queue");
            if let Some(Waiting { at, hold, .. }) = self.waiting.take() {
                let is_press = matches!(oldest, Event::Press(..));
                if event != Event::Release(at.0, at.1) {
                    if opens_early(hold) {
                        return Some(Cause::Early);
                    }
                    if is_open(hold) && is_press {
                        return Some(Cause::Seventeenth);
                    }
                    self.wait_on(hold, at, 0);
                }
            }
            if let Some(cause) = self.act(oldest, age) {
                return Some(cause);
            }
        }
        let waiting = self.waiting.as_ref();
        if waiting.is_some_and(|waiting| event == Event::Release(waiting.at.0, waiting.at.1)) {
            self.waiting = None; // tap, and so is all that the tap begins
        }
        None
    }

    fn tick(&mut self) -> Option<Cause> {
        for (_, age) in &mut self.queue {
            *age = age.saturating_add(1);
        }
        let Some(mut waiting) = self.waiting.take() else {
            let (oldest, age) = self.queue.pop_front()?;
            return self.act(oldest, age);
        };
        waiting.left = waiting.left.saturating_sub(1);
        if waiting.left > 0 {
            self.waiting = Some(waiting);
            return None;
        }
        if opens_early(waiting.hold) {
            return Some(Cause::Early);
        }
        self.wait_on(waiting.hold, waiting.at, 0);
        None
    }

    fn act(&mut self, event: Event, age: u16) -> Option<Cause> {
        let Event::Press(0, column) = event else {
            return None;
        };
        let action = self.keys.get(usize::from(column))?;
        let release = Event::Release(0, column);
        let queued = self.queue.iter().find(|(queued, _)| *queued == release);
        match queued {
            Some(&(_, since)) => {
                (since > 0 && decides_for_open(action, age - since)).then_some(Cause::Aged)
            }
            None if opens_early(action) => Some(Cause::Early),
            None => {
                self.wait_on(action, (0, column), age);
                None
            }
        }
    }

    /// Runs an action none of whose lists opens early, with no release of its key queued.
    fn wait_on(&mut self, action: &'static Action, at: (u8, u8), delay: u16) {
        match *action {
            Action::HoldTap { timeout, hold, .. } => {
                let left = timeout.saturating_sub(delay);
                self.waiting = Some(Waiting { at, left, hold });
            }
            Action::MultipleActions([.., last]) => self.wait_on(last, at, delay),
            _ => (),
        }
    }
}

/// The call, from 1, that ends in a panic, and why.
fn foretell(keys: &'static [Action], calls: &[Call]) -> Option<(usize, Cause)> {
    let mut watch = Watch::new(keys);
    let mut numbered = (1..).zip(calls);
    numbered.find_map(|(number, &call)| Some((number, watch.take(call)?)))
}

/// What a search saw.
#[derive(Default)]
pub struct Seen {
    accepted: usize,
    refused: usize,
    /// Accepted tables with a run that ended in a panic, and refused ones without.
    accepted_panicked: usize,
    refused_ran: usize,
    runs: usize,
    /// Panics that came as foretold, by cause.
    panics: [usize; 3],
    /// The first run in which the Rust did not do what was foretold.
    wrong: Option<String>,
}

impl Seen {
    /// What was seen, in words.
    pub fn told(&self) -> Vec<String> {
        let [early, seventeenth, aged] = self.panics;
        let (runs, accepted, refused) = (self.runs, self.accepted, self.refused);
        let all = early + seventeenth + aged;
        let outcome = match &self.wrong {
            None => format!("{all} panics, each foretold, and no other"),
            Some(wrong) => format!("not as foretold: {wrong}"),
        };
        let (panicked, ran) = (self.accepted_panicked, self.refused_ran);
        vec![
            format!("{runs} runs on {} tables: {outcome}", accepted + refused),
            format!("by an entry behind an open one: {early}"),
            format!("by a seventeenth event: {seventeenth}"),
            format!("by a queued release: {aged}"),
            format!("tables that are accepted here: {accepted}, {panicked} of them with a panic"),
            format!("tables that are refused here: {refused}, {ran} of them without a panic"),
        ]
    }

    /// All runs on a table of two keys.
    fn of_table(&mut self, keys: &'static [Action], random: &mut Random) {
        let layers = row(keys);
        let before: usize = self.panics.iter().sum();
        self.run_small(keys, layers);
        self.run_long(keys, layers, random);
        let panicked = self.panics.iter().sum::<usize>() > before;
        let verdict = check(&trees::image_of(layers)).map_err(|refusal| refusal.number);
        let accepted = verdict.is_ok();
        assert!(
            accepted || verdict.is_err_and(|number| number == 8),
            "{keys:?}"
        );
        self.accepted += usize::from(accepted);
        self.refused += usize::from(!accepted);
        self.accepted_panicked += usize::from(accepted && panicked);
        self.refused_ran += usize::from(!accepted && !panicked);
    }

    /// Runs calls on the Rust, and holds what came to what is foretold.
    fn run(&mut self, keys: &'static [Action], layers: Layers, calls: &[Call]) {
        self.runs += 1;
        let foretold = foretell(keys, calls);
        let wanted = foretold.map(|(call, cause)| (call, cause.message().to_string()));
        let came = trees::run(layers, calls).err();
        if came != wanted {
            let told = || format!("{keys:?} {calls:?}: {came:?}, not {foretold:?}");
            self.wrong.get_or_insert_with(told);
        } else if let Some((_, cause)) = foretold {
            self.panics[cause as usize] += 1;
        }
    }

    /// Every beginning of up to two calls, then nothing or events that about fill a queue, then every end of up to two
    /// calls; one end alone where a panic is foretold before it.
    fn run_small(&mut self, keys: &'static [Action], layers: Layers) {
        let mut middles = vec![vec![]];
        for filler in [Event::Press(0, 1), Event::Release(0, 1)] {
            let about = [QUEUE - 2, QUEUE - 1, QUEUE];
            middles.extend(about.map(|count| vec![Some(filler); count]));
        }
        let ends = sequences(2);
        for start in sequences(2) {
            for middle in &middles {
                let foretold = foretell(keys, &[&start, middle].map(Vec::as_slice).concat());
                let tried = if foretold.is_some() { 1 } else { ends.len() };
                for end in &ends[..tried] {
                    let calls = [&start, middle, end].map(Vec::as_slice).concat();
                    self.run(keys, layers, &calls);
                }
            }
        }
    }

    /// Long runs, some with few ticks, so that the queue runs over, and some with many.
    fn run_long(&mut self, keys: &'static [Action], layers: Layers, random: &mut Random) {
        for _ in 0..250 {
            let ticks = random.below(12);
            let calls: Vec<Call> = (0..60)
                .map(|_| match random.below(8 + ticks) {
                    at @ 0..8 => Some(EVENTS[at]),
                    _ => None,
                })
                .collect();
            self.run(keys, layers, &calls);
        }
    }
}

/// The events of long runs: of the key that is tried more often, and of a key that the table has not.
const EVENTS: [Event; 8] = [
    Event::Press(0, 0),
    Event::Release(0, 0),
    Event::Press(0, 0),
    Event::Release(0, 0),
    Event::Press(0, 1),
    Event::Release(0, 1),
    Event::Press(7, 7),
    Event::Release(7, 7),
];

/// Every sequence of at most so many calls: events of two keys, and ticks.
fn sequences(most: usize) -> Vec<Vec<Call>> {
    let mut all = vec![vec![]];
    let mut from = 0;
    for _ in 0..most {
        let to = all.len();
        for at in from..to {
            for call in EVENTS[2..6].iter().copied().map(Some).chain([None]) {
                all.push([all[at].as_slice(), &[call]].concat());
            }
        }
        from = to;
    }
    all
}

/// Every action made of a key code in at most two steps, each a HoldTap or a list of one or two; and with each open one of
/// them those that a third step makes of it and the key code.
fn small_actions(outer: u16, inner: u16) -> Vec<Action> {
    let made = |timeout: u16, from: &[Action]| {
        let mut actions = from.to_vec();
        for &one in from {
            actions.push(list(&[one]));
            for &other in from {
                actions.push(list(&[one, other]));
                actions.push(hold_tap(timeout, one, other));
            }
        }
        actions
    };
    let code = Action::KeyCode(KeyCode::A);
    let mut all = made(outer, &made(inner, &[code]));
    for open in all.clone().into_iter().filter(is_open) {
        for (one, other) in [(open, code), (code, open)] {
            all.push(list(&[one, other]));
            all.push(hold_tap(outer, one, other));
        }
    }
    let mut different: Vec<Action> = Vec::new();
    for action in all {
        if !different.contains(&action) {
            different.push(action);
        }
    }
    different
}

/// The search, over small actions with several timeouts.
pub fn search() -> Seen {
    let mut seen = Seen::default();
    let mut random = Random::new(1);
    for (outer, inner) in [(2, 1), (0, 3)] {
        for action in small_actions(outer, inner) {
            let keys = trees::kept(vec![action, Action::KeyCode(KeyCode::B)]);
            seen.of_table(keys, &mut random);
        }
    }
    seen
}

#[cfg(test)]
mod tests {
    use super::*;

    fn keys(action: Action) -> &'static [Action] {
        trees::kept(vec![action, Action::KeyCode(KeyCode::B)])
    }

    /// A hold-tap with a hold-tap in its hold or in its tap.
    fn nested(in_hold: bool) -> &'static [Action] {
        let code = Action::KeyCode(KeyCode::A);
        let inner = hold_tap(2, code, code);
        keys(match in_hold {
            true => hold_tap(2, inner, code),
            false => hold_tap(2, code, inner),
        })
    }

    #[test]
    fn each_cause_is_foretold_and_what_is_none_is_not() {
        let code = Action::KeyCode(KeyCode::A);
        let early = keys(list(&[hold_tap(2, code, code), code]));
        for (keys, calls, cause) in [
            (early, "p 0 0, t", Some((2, Cause::Early))),
            (early, "p 0 0, r 0 0, t", None),
            (
                nested(true),
                "p 0 0, t, 17 p 0 1",
                Some((19, Cause::Seventeenth)),
            ),
            (nested(true), "p 0 0, t, 16 p 0 1", None),
            (nested(true), "p 0 0, t, r 0 1, 16 p 0 1", None),
            (nested(true), "p 0 0, t, 16 p 0 1, r 0 0", None),
            (nested(true), "p 0 0, 9 t", None),
            (
                nested(true),
                "4 p 0 1, p 0 0, 3 t, r 0 0, 2 t",
                Some((11, Cause::Aged)),
            ),
            (nested(false), "p 0 0, r 0 0, t", Some((3, Cause::Aged))),
            (nested(false), "p 0 0, 15 p 0 1, r 0 0", None),
            (nested(false), "p 0 0, t, r 0 0, 17 p 0 1", None),
        ] {
            assert_eq!(foretell(keys, &trees::calls(calls)), cause, "{calls}");
        }
    }

    #[test]
    fn what_was_not_foretold_is_noticed() {
        let calls = trees::calls("p 0 0, r 0 0, t");
        let mut seen = Seen::default();
        seen.run(nested(false), row(nested(false)), &calls);
        assert_eq!((seen.panics, &seen.wrong), ([0, 0, 1], &None));
        seen.run(nested(false), row(nested(true)), &calls);
        assert!(seen.wrong.is_some());
        let mut seen = Seen::default();
        seen.run(nested(true), row(nested(false)), &calls);
        assert!(seen.wrong.is_some() && seen.told()[0].contains("not as foretold"));
    }
}
