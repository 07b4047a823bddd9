//! A layout as it stands, with all its places and counts, and State of document 01, "Refusal numbers": which
//! of these are legal over a table.
//!
//! Assumes: nothing of the values; the table was accepted.
//! Read so: only a key's code can be illegal, a layer's number is any; coordinates are any; a place is zero if
//! it is the key code 0 at (0,0), or the release of (0,0) aged 0; the first queued place is the oldest event's.

use super::image::Parts;
use super::layout::{Event, Layout, Queued, State, Waiting, HOLD_TAP, MOST_QUEUED, MOST_STATES};
use super::report::is_legal as is_legal_code;

/// A state's place that is not used.
pub const NO_STATE: State = State::Key {
    code: 0,
    at: (0, 0),
};

/// A queued event's place that is not used.
pub const NO_EVENT: Queued = Queued {
    event: Event::Release((0, 0)),
    age: 0,
};

#[derive(Clone, Debug, PartialEq)]
pub struct Held {
    pub default: u16,
    pub state_count: u16,
    pub states: [State; MOST_STATES],
    pub waiting: Option<Waiting>,
    pub queue_count: u16,
    pub queue: [Queued; MOST_QUEUED],
}

impl Held {
    /// A layout laid into its places, the unused ones zero.
    pub fn of(layout: &Layout) -> Self {
        let mut held = Held {
            default: layout.default,
            state_count: layout.states.len() as u16,
            states: [NO_STATE; MOST_STATES],
            waiting: layout.waiting,
            queue_count: layout.queue.len() as u16,
            queue: [NO_EVENT; MOST_QUEUED],
        };
        for (place, state) in held.states.iter_mut().zip(&layout.states) {
            *place = *state;
        }
        for (place, queued) in held.queue.iter_mut().zip(&layout.queue) {
            *place = *queued;
        }
        held
    }

    /// The layout, if it is legal over a table.
    pub fn layout(&self, table: &Parts) -> Option<Layout> {
        let (states, no_states) = split(&self.states, self.state_count)?;
        let (queue, no_queue) = split(&self.queue, self.queue_count)?;
        let legal = states.iter().all(has_legal_code)
            && usize::from(self.default) < table.layers()
            && queue.windows(2).all(|two| two[1].age <= two[0].age)
            && self.waiting.is_none_or(|waiting| may_wait(&waiting, table))
            && no_states.iter().all(|state| *state == NO_STATE)
            && no_queue.iter().all(|queued| *queued == NO_EVENT);
        legal.then(|| Layout {
            default: self.default,
            states: states.to_vec(),
            waiting: self.waiting,
            queue: queue.iter().copied().collect(),
        })
    }
}

/// The used places and the unused ones; nothing if more are used than there are.
fn split<T>(places: &[T], count: u16) -> Option<(&[T], &[T])> {
    places.split_at_checked(count.into())
}

fn has_legal_code(state: &State) -> bool {
    match *state {
        State::Key { code, .. } => is_legal_code(code.into()),
        State::Layer { .. } => true,
    }
}

fn may_wait(waiting: &Waiting, table: &Parts) -> bool {
    match table.records.get(usize::from(waiting.record)) {
        Some(&[HOLD_TAP, timeout, _, _]) => waiting.left <= timeout,
        _ => false,
    }
}

#[cfg(test)]
mod tests {
    use super::*;
    use crate::paper::image::{check, Z};

    /// Whether a fresh layout over Z is legal after a change.
    fn legal_with(change: impl FnOnce(&mut Held)) -> bool {
        let mut held = Held::of(&Layout::default());
        change(&mut held);
        held.layout(&check(&Z).expect("Z is accepted")).is_some()
    }

    fn key(code: u8) -> State {
        State::Key { code, at: (9, 9) }
    }

    fn queued(event: Event, age: u16) -> Queued {
        Queued { event, age }
    }

    fn wait(left: u16, record: u16) -> Option<Waiting> {
        let at = (200, 0);
        Some(Waiting { at, left, record })
    }

    #[test]
    fn counts_are_within_the_places() {
        assert!(legal_with(|_| ()));
        assert!(legal_with(|h| (h.state_count, h.queue_count) = (64, 16)));
        assert!(!legal_with(|h| h.state_count = 65));
        assert!(!legal_with(|h| h.queue_count = 17));
        assert!(!legal_with(|h| h.state_count = 65_535));
    }

    #[test]
    fn codes_of_keys_are_legal() {
        let with = |state: State| legal_with(|h| (h.state_count, h.states[0]) = (1, state));
        assert!(with(key(0xA4)) && with(key(0xFB)) && with(key(0)));
        assert!(!with(key(0xA5)) && !with(key(0xDF)) && !with(key(0xFC)));
        let at = (255, 255);
        assert!(with(State::Layer { number: 65_535, at }));
    }

    #[test]
    fn the_default_layer_is_in_the_table() {
        assert!(!legal_with(|h| h.default = 1) && !legal_with(|h| h.default = 65_535));
    }

    #[test]
    fn ages_do_not_grow_along_the_queue() {
        let with = |ages: [u16; 3]| {
            legal_with(|h| {
                h.queue_count = 3;
                for (place, age) in ages.into_iter().enumerate() {
                    h.queue[place] = queued(Event::Press((1, 1)), age);
                }
            })
        };
        assert!(with([65_535, 65_535, 0]) && with([2, 1, 1]));
        assert!(!with([0, 1, 0]) && !with([3, 1, 2]) && !with([65_534, 65_535, 0]));
    }

    #[test]
    fn what_waits_is_a_hold_tap_with_at_most_its_timeout_left() {
        let with = |waiting| legal_with(|h| h.waiting = waiting);
        assert!(with(wait(3, 3)) && with(wait(0, 3)) && with(None));
        assert!(!with(wait(4, 3)) && !with(wait(0, 2)) && !with(wait(0, 4)));
        assert!(!with(wait(0, 65_535)));
    }

    #[test]
    fn unused_places_are_zero() {
        assert!(!legal_with(|h| h.states[0] = key(0)));
        assert!(!legal_with(|h| h.states[63] = State::Key {
            code: 4,
            at: (0, 0)
        }));
        let layer = State::Layer {
            number: 0,
            at: (0, 0),
        };
        assert!(!legal_with(|h| h.states[5] = layer));
        assert!(!legal_with(|h| h.queue[0] = queued(Event::Press((0, 0)), 0)));
        assert!(!legal_with(
            |h| h.queue[15] = queued(Event::Release((0, 1)), 0)
        ));
        assert!(!legal_with(
            |h| h.queue[15] = queued(Event::Release((0, 0)), 1)
        ));
        assert!(legal_with(
            |h| (h.states[7], h.queue[7]) = (NO_STATE, NO_EVENT)
        ));
    }

    #[test]
    fn a_layout_comes_back_from_its_places() {
        let mut layout = Layout {
            waiting: wait(2, 3),
            ..Layout::default()
        };
        layout.states.push(key(4));
        layout.queue.push_back(queued(Event::Press((0, 0)), 7));
        let table = check(&Z).expect("Z is accepted");
        assert_eq!(Held::of(&layout).layout(&table), Some(layout));
    }
}
