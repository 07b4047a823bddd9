//! The layout by document 01, "Layout": its steps over lists, with a mark for everything that happens, a state for
//! which there was no place included (document 02, W-202).
//!
//! Assumes: the table was accepted and the layout is legal over it (`state.rs`). So a record's children are
//! lower and closed where they must be, nothing waits when an action runs, and no queued event is older than
//! the one in front of it.
//! Read so: a layer sum is not cut to 16 bits; decisions stand in the order in which they were made.

use super::image::Parts;
use std::collections::VecDeque;

pub const MOST_STATES: usize = 64;
pub const MOST_QUEUED: usize = 16;
pub const OLDEST: u16 = 65_535;

/// The kinds of records that are looked at by name.
pub const TRANS: u16 = 1;
pub const CODES: u16 = 3;
pub const ACTIONS: u16 = 4;
pub const HOLD_TAP: u16 = 7;

/// Row and column.
pub type Coord = (u8, u8);

#[derive(Clone, Copy, Debug, PartialEq)]
pub enum Event {
    Release(Coord),
    Press(Coord),
}

#[derive(Clone, Copy, Debug, PartialEq)]
pub enum State {
    Key { code: u8, at: Coord },
    Layer { number: u16, at: Coord },
}

impl State {
    pub fn at(&self) -> Coord {
        match *self {
            State::Key { at, .. } | State::Layer { at, .. } => at,
        }
    }
}

#[derive(Clone, Copy, Debug, PartialEq)]
pub struct Queued {
    pub event: Event,
    pub age: u16,
}

/// A hold-tap that is not decided: its record, and the ticks it has left.
#[derive(Clone, Copy, Debug, PartialEq)]
pub struct Waiting {
    pub at: Coord,
    pub left: u16,
    pub record: u16,
}

#[derive(Clone, Debug, Default, PartialEq)]
pub struct Layout {
    pub default: u16,
    pub states: Vec<State>,
    pub waiting: Option<Waiting>,
    pub queue: VecDeque<Queued>,
}

/// What made a hold-tap tap or hold.
#[derive(Clone, Copy, Debug, PartialEq)]
pub enum By {
    /// A release that was queued when it began.
    Queue,
    Release,
    Time,
    /// An event for which the queue had no place.
    Seventeenth,
}

/// What a press found in the table.
#[derive(Clone, Copy, Debug, PartialEq)]
pub enum Found {
    Cell,
    /// Coordinates that the table has not.
    Outside,
    /// A layer that the table has not.
    NoLayer,
    /// Trans, on another layer than the default, so the default layer's cell; and what is known of the layout.
    Through {
        held: bool,
        default: u16,
    },
}

/// What happens in a step, in order.
#[derive(Clone, Copy, Debug, PartialEq)]
pub enum Mark {
    /// The oldest event left a full queue.
    PushedOut,
    Acted(Event),
    Pressed(Found),
    Begun {
        at: Coord,
        timeout: u16,
    },
    Decided {
        at: Coord,
        tap: bool,
        by: By,
    },
    /// A record is run: by a press or a decision, or out of a list.
    Ran(u16),
    /// A state for which there was no place, of the record that was run last.
    Dropped(State),
    /// An age that stayed as it was.
    Stopped,
}

impl Layout {
    /// The key codes in state order.
    pub fn codes(&self) -> Vec<u8> {
        let code = |state: &State| match *state {
            State::Key { code, .. } => Some(code),
            State::Layer { .. } => None,
        };
        self.states.iter().filter_map(code).collect()
    }

    pub fn event(&mut self, table: &Parts, event: Event) -> Vec<Mark> {
        let mut step = Step::new(self, table);
        step.event(event);
        step.marks
    }

    pub fn tick(&mut self, table: &Parts) -> Vec<Mark> {
        let mut step = Step::new(self, table);
        step.tick();
        step.marks
    }
}

/// A step under way.
struct Step<'a> {
    layout: &'a mut Layout,
    table: &'a Parts,
    marks: Vec<Mark>,
}

impl<'a> Step<'a> {
    fn new(layout: &'a mut Layout, table: &'a Parts) -> Self {
        Step {
            layout,
            table,
            marks: Vec::new(),
        }
    }

    fn event(&mut self, event: Event) {
        self.layout.queue.push_back(Queued { event, age: 0 });
        if self.layout.queue.len() > MOST_QUEUED {
            let oldest = self.layout.queue.pop_front();
            self.marks.push(Mark::PushedOut);
            self.decide(false, By::Seventeenth);
            self.act(oldest.expect("a full queue has an oldest event"));
        }
        let waiting = self.layout.waiting;
        if waiting.is_some_and(|waiting| event == Event::Release(waiting.at)) {
            self.decide(true, By::Release);
        }
    }

    fn tick(&mut self) {
        for queued in &mut self.layout.queue {
            if queued.age == OLDEST {
                self.marks.push(Mark::Stopped);
            }
            queued.age = queued.age.saturating_add(1);
        }
        if let Some(waiting) = &mut self.layout.waiting {
            waiting.left = waiting.left.saturating_sub(1);
            if waiting.left == 0 {
                self.decide(false, By::Time);
            }
        } else if let Some(oldest) = self.layout.queue.pop_front() {
            self.act(oldest);
        }
    }

    /// Acts on an event that has left the queue.
    fn act(&mut self, Queued { event, age }: Queued) {
        self.marks.push(Mark::Acted(event));
        match event {
            Event::Release(at) => self.layout.states.retain(|state| state.at() != at),
            Event::Press(at) => {
                let (found, record) = self.look_up(at);
                self.marks.push(Mark::Pressed(found));
                if let Some(record) = record {
                    self.run(record, at, age);
                }
            }
        }
    }

    /// The sum of the held Layer numbers, if one is held.
    fn held_layer(&self) -> Option<usize> {
        let number = |state: &State| match *state {
            State::Layer { number, .. } => Some(usize::from(number)),
            State::Key { .. } => None,
        };
        let mut numbers = self.layout.states.iter().filter_map(number);
        let first = numbers.next()?;
        Some(first + numbers.sum::<usize>())
    }

    /// What a press finds: the record that it runs, if any.
    fn look_up(&self, at: Coord) -> (Found, Option<u16>) {
        let (row, column) = (usize::from(at.0), usize::from(at.1));
        let (rows, columns) = (self.table.rows, self.table.columns);
        if row >= rows || column >= columns {
            return (Found::Outside, None);
        }
        let default = usize::from(self.layout.default);
        let held = self.held_layer();
        let layer = held.unwrap_or(default);
        if layer >= self.table.layers() {
            return (Found::NoLayer, None);
        }
        let cell = |layer: usize| self.table.cells[(layer * rows + row) * columns + column];
        let record = cell(layer);
        if layer == default || self.kind(record) != TRANS {
            return (Found::Cell, Some(record));
        }
        let through = Found::Through {
            held: held.is_some(),
            default: self.layout.default,
        };
        // a Trans there runs as the nothing that it is
        (through, Some(cell(default)))
    }

    fn kind(&self, record: u16) -> u16 {
        self.table.records[usize::from(record)][0]
    }

    fn run(&mut self, record: u16, at: Coord, delay: u16) {
        let table = self.table;
        let [kind, a, _, _] = table.records[usize::from(record)];
        self.marks.push(Mark::Ran(record));
        match kind {
            2 => self.push_code(a, at),
            CODES => {
                for &code in table.entries(record.into()) {
                    self.push_code(code, at);
                }
            }
            ACTIONS => {
                for &named in table.entries(record.into()) {
                    self.run(named, at, delay);
                }
            }
            5 => self.push(State::Layer { number: a, at }),
            6 => {
                if usize::from(a) < table.layers() {
                    self.layout.default = a;
                }
            }
            HOLD_TAP => self.begin(record, at, delay),
            // NoOp and Trans
            _ => (),
        }
    }

    fn push_code(&mut self, code: u16, at: Coord) {
        let code = u8::try_from(code).expect("an accepted table has legal codes");
        self.push(State::Key { code, at });
    }

    fn push(&mut self, state: State) {
        if self.layout.states.len() < MOST_STATES {
            self.layout.states.push(state);
        } else {
            self.marks.push(Mark::Dropped(state));
        }
    }

    /// Begins a hold-tap; the first release of its key that is queued decides it at once.
    fn begin(&mut self, record: u16, at: Coord, delay: u16) {
        let [_, timeout, _, _] = self.table.records[usize::from(record)];
        let left = timeout.saturating_sub(delay);
        self.marks.push(Mark::Begun { at, timeout });
        assert_eq!(self.layout.waiting, None, "the open rule");
        self.layout.waiting = Some(Waiting { at, left, record });
        let mut releases = self.layout.queue.iter();
        let first = releases.find(|queued| queued.event == Event::Release(at));
        if let Some(Queued { age, .. }) = first {
            let apart = delay.checked_sub(*age).expect("a legal queue");
            self.decide(timeout >= apart, By::Queue);
        }
    }

    /// Makes a waiting hold-tap tap or hold; nothing if none waits.
    fn decide(&mut self, tap: bool, by: By) {
        let Some(Waiting { at, record, .. }) = self.layout.waiting.take() else {
            return;
        };
        self.marks.push(Mark::Decided { at, tap, by });
        let [_, _, hold, tapped] = self.table.records[usize::from(record)];
        self.run(if tap { tapped } else { hold }, at, 0);
    }
}

#[cfg(test)]
mod tests {
    use super::*;
    use crate::paper::image::{check, Z};

    /// The layout after a press of (0,0) that was queued with these ages, over Z with this timeout.
    fn pressed_at(timeout: u16, age: u16, release: Option<u16>) -> (Layout, Vec<Mark>) {
        let mut image = Z;
        image[46..48].copy_from_slice(&timeout.to_le_bytes());
        let table = check(&image).expect("Z is accepted");
        let mut layout = Layout::default();
        let press = Event::Press((0, 0));
        layout.queue.push_back(Queued { event: press, age });
        let release = release.map(|age| Queued {
            event: Event::Release((0, 0)),
            age,
        });
        layout.queue.extend(release);
        let marks = layout.tick(&table);
        (layout, marks)
    }

    #[test]
    fn a_wait_is_shorter_by_the_delay() {
        let left = |timeout, age| pressed_at(timeout, age, None).0.waiting.unwrap().left;
        assert_eq!(
            (left(3, 0), left(3, 1), left(3, 2), left(3, 9)),
            (2, 1, 0, 0)
        );
        assert_eq!((left(65_535, 0), left(65_535, 65_535)), (65_534, 0));
    }

    #[test]
    fn a_queued_release_decides_by_how_far_apart_they_came() {
        let tap = |timeout, age, release| {
            let (layout, marks) = pressed_at(timeout, age, Some(release));
            let decided = marks.iter().find_map(|mark| match *mark {
                Mark::Decided { tap, by, .. } => Some((tap, by)),
                _ => None,
            });
            let (tap, by) = decided.expect("a decision");
            assert_eq!(
                (by, layout.waiting, layout.queue.len()),
                (By::Queue, None, 1)
            );
            assert_eq!(layout.codes(), [if tap { 0x2C } else { 0xE0 }]);
            tap
        };
        assert!(tap(3, 3, 0) && tap(3, 9, 6) && tap(0, 5, 5) && tap(3, 2, 1));
        assert!(!tap(3, 4, 0) && !tap(3, 9, 5) && !tap(0, 5, 4));
        // both ages have stopped, so they came together as far as anybody knows
        assert!(tap(0, 65_535, 65_535));
    }

    #[test]
    fn a_layer_sum_is_not_cut() {
        let table = check(&Z).expect("Z is accepted");
        let mut layout = Layout::default();
        let layers = [65_535, 1].map(|number| State::Layer { number, at: (3, 3) });
        layout.states.extend(layers);
        layout.event(&table, Event::Press((0, 1)));
        let marks = layout.tick(&table);
        assert!(marks.contains(&Mark::Pressed(Found::NoLayer)));
        assert_eq!(layout.codes(), []);
    }
}
