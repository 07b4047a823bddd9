//! The calls `event`, `tick` and `keycodes` by document 01: the checks in their order (image, State, Room) and
//! the steps of the layout.
//!
//! Assumes: nothing of the image, the layout and the room; a refused call leaves all of them as they were.

use super::image::{self, Parts, Refusal};
use super::layout::{Event, Layout, Mark, MOST_STATES};
use super::state::Held;
use super::{ROOM, STATE};
use std::fmt;

#[derive(Clone, Copy, Debug, PartialEq)]
pub enum Call {
    Event(Event),
    Tick,
    Keycodes,
}

impl fmt::Display for Call {
    /// As a script has it.
    fn fmt(&self, f: &mut fmt::Formatter) -> fmt::Result {
        match self {
            Call::Event(Event::Press((i, j))) => write!(f, "p {i} {j}"),
            Call::Event(Event::Release((i, j))) => write!(f, "r {i} {j}"),
            Call::Tick => write!(f, "t"),
            Call::Keycodes => write!(f, "k"),
        }
    }
}

/// What calls are given: an image, a layout and the length of the code buffer.
pub struct Given {
    pub image: Result<Parts, Refusal>,
    layout: Layout,
    /// The layout as it stands, from when a part of it was set until it is found to be legal.
    held: Option<Held>,
    pub room: usize,
}

impl Default for Given {
    /// Before the first image an empty one stands.
    fn default() -> Self {
        Given {
            image: image::check(&[]),
            layout: Layout::default(),
            held: None,
            room: MOST_STATES,
        }
    }
}

impl Given {
    /// Brings an image, with a fresh layout.
    pub fn bring(&mut self, bytes: &[u8]) {
        self.image = image::check(bytes);
        self.layout = Layout::default();
        self.held = None;
    }

    /// Changes the layout as it stands.
    pub fn set(&mut self, change: impl FnOnce(&mut Held)) {
        let layout = &self.layout;
        change(self.held.get_or_insert_with(|| Held::of(layout)));
    }

    /// The layout after the last call that was not refused.
    pub fn layout(&self) -> &Layout {
        &self.layout
    }

    /// How many states the next call finds, as set or as calls have left them.
    pub fn state_count(&self) -> usize {
        let set = self.held.as_ref().map(|held| held.state_count.into());
        set.unwrap_or(self.layout.states.len())
    }

    /// What happens in a call; the codes are then those of the layout.
    pub fn call(&mut self, call: Call) -> Result<Vec<Mark>, Refusal> {
        let table = self.image.as_ref().map_err(|refusal| *refusal)?;
        if let Some(held) = &self.held {
            self.layout = held.layout(table).ok_or(Refusal::whole(STATE))?;
            self.held = None;
        }
        if self.room < MOST_STATES {
            return Err(Refusal::whole(ROOM));
        }
        Ok(match call {
            Call::Event(event) => self.layout.event(table, event),
            Call::Tick => self.layout.tick(table),
            Call::Keycodes => Vec::new(),
        })
    }
}

#[cfg(test)]
mod tests {
    use super::*;
    use crate::paper::image::Z;

    #[test]
    fn image_comes_before_state_and_state_before_room() {
        let mut given = Given::default();
        given.room = 63;
        given.set(|held| held.default = 1);
        for call in [
            Call::Tick,
            Call::Keycodes,
            Call::Event(Event::Press((0, 0))),
        ] {
            given.image = image::check(&Z[..51]);
            assert_eq!(given.call(call), Err(Refusal::whole(3)));
            given.image = image::check(&Z);
            assert_eq!(given.call(call), Err(Refusal::whole(13)));
        }
        given.set(|held| held.default = 0);
        assert_eq!(given.call(Call::Tick), Err(Refusal::whole(12)));
        given.room = 64;
        assert_eq!(given.call(Call::Tick), Ok(vec![]));
    }

    #[test]
    fn a_refused_call_changes_nothing() {
        let mut given = Given::default();
        given.bring(&Z);
        given.call(Call::Event(Event::Press((0, 1)))).expect("Z");
        let before = given.layout().clone();
        given.room = 0;
        assert!(given.call(Call::Tick).is_err());
        assert_eq!(*given.layout(), before);
        given.set(|held| held.state_count = 65);
        assert!(given.call(Call::Tick).is_err());
        given.set(|held| held.state_count = 0);
        given.room = 64;
        given.call(Call::Keycodes).expect("legal again");
        assert_eq!(*given.layout(), before);
    }
}
