//! The lines over keyberon's layout: `image`, `p`, `r`, `t`, `k`, `room`, and those that set a part of the
//! layout as it stands.
//!
//! Assumes: what is refused, the acted-on event, the decisions and the number of dropped states are the paper's to
//! say, since the Rust has no images and tells codes alone. From an accepted image on the Rust runs beside the
//! paper, until a line sets a part: the Rust's fields are private, so the paper goes on alone. The paper is held to
//! the Rust's codes, and its number of dropped states to what the Rust's vector handed back in the call, which the
//! Rust does not look at.

use super::both::agreed;
use super::Adapter;
use crate::paper::calls::{Call, Given};
use crate::paper::layout::{Coord, Event, Mark, Queued, State, Waiting, MOST_QUEUED, MOST_STATES};
use crate::paper::marks::dropped;
use crate::paper::state::Held;
use crate::table::Tabled;
use crate::{key_code, words};
use keyberon::layout as rust;
use std::fmt::Write;

/// What calls are given, and the Rust's layout while it can follow.
#[derive(Default)]
pub struct Keys {
    paper: Given,
    rust: Option<Tabled>,
}

impl Adapter for Keys {
    fn answer(&mut self, command: &[u8], rest: &[&[u8]]) -> Option<String> {
        let call = match (command, rest) {
            (b"image", [bytes]) => return Some(self.bring(&words::hex(bytes)?)),
            (b"room", [length]) => {
                self.paper.room = words::number(length)?.into();
                return Some(words::line(command, rest));
            }
            (b"p" | b"r", [i, j]) => Call::Event(event(command, i, j)?),
            (b"t", []) => Call::Tick,
            (b"k", []) => Call::Keycodes,
            _ => {
                let part = Part::read(command, rest)?;
                self.paper.set(|held| part.set(held));
                self.rust = None;
                return Some(words::line(command, rest));
            }
        };
        Some(self.call(call))
    }
}

impl Keys {
    fn bring(&mut self, bytes: &[u8]) -> String {
        self.paper.bring(bytes);
        match &self.paper.image {
            Ok(parts) => {
                self.rust = Some(Tabled::new(parts));
                "accepted".to_string()
            }
            Err(refusal) => {
                self.rust = None;
                refusal.to_string()
            }
        }
    }

    fn call(&mut self, call: Call) -> String {
        let marks = match self.paper.call(call) {
            Ok(marks) => marks,
            Err(refusal) => return refusal.to_string(),
        };
        let mut answer = codes_text(&self.paper.layout().codes());
        if let Some(layout) = &mut self.rust {
            let paper = with_dropped(&answer, dropped(&marks));
            let rust = layout.answer(|layout| rust_told(layout, call));
            if rust != paper {
                answer = agreed(rust, paper);
            }
        }
        push_marks(&mut answer, &marks);
        answer
    }
}

pub fn codes_text(codes: &[u8]) -> String {
    format!("codes {}", words::to_hex(codes))
}

/// What the paper is held to.
fn with_dropped(codes: &str, count: usize) -> String {
    format!("{codes} and {count} dropped")
}

/// The Rust's codes after a call, and how many states found no place in it.
fn rust_told(layout: &mut rust::Layout, call: Call) -> String {
    heapless::take_handed_back();
    let codes = rust_codes(layout, call);
    with_dropped(&codes, heapless::take_handed_back())
}

pub fn rust_codes(layout: &mut rust::Layout, call: Call) -> String {
    codes_text(&match call {
        Call::Event(Event::Press((i, j))) => {
            key_code::bytes(layout.event(rust::Event::Press(i, j)))
        }
        Call::Event(Event::Release((i, j))) => {
            key_code::bytes(layout.event(rust::Event::Release(i, j)))
        }
        Call::Tick => key_code::bytes(layout.tick()),
        Call::Keycodes => key_code::bytes(layout.keycodes()),
    })
}

/// Adds the event acted on, the decisions made and the number of dropped states to an answer.
fn push_marks(answer: &mut String, marks: &[Mark]) {
    let acted = marks.iter().find_map(|mark| match *mark {
        Mark::Acted(Event::Press(at)) => Some(("p", at)),
        Mark::Acted(Event::Release(at)) => Some(("r", at)),
        _ => None,
    });
    let decided = marks.iter().filter_map(|mark| match *mark {
        Mark::Decided { at, tap: true, .. } => Some(("tap", at)),
        Mark::Decided { at, tap: false, .. } => Some(("hold", at)),
        _ => None,
    });
    push_part(answer, " | acted ", acted.into_iter());
    push_part(answer, " | decided ", decided);
    write!(answer, " | dropped {}", dropped(marks)).expect("a string takes any text");
}

fn push_part(answer: &mut String, name: &str, words: impl Iterator<Item = (&'static str, Coord)>) {
    answer.push_str(name);
    let mut count = 0;
    for (word, (i, j)) in words {
        let comma = if count > 0 { ", " } else { "" };
        write!(answer, "{comma}{word} {i} {j}").expect("a string takes any text");
        count += 1;
    }
    if count == 0 {
        answer.push('-');
    }
}

/// The event of a line or of a queued place: `p` or `r`, and coordinates.
fn event(way: &[u8], i: &[u8], j: &[u8]) -> Option<Event> {
    let at = coord(i, j)?;
    match way {
        b"p" => Some(Event::Press(at)),
        b"r" => Some(Event::Release(at)),
        _ => None,
    }
}

fn coord(i: &[u8], j: &[u8]) -> Option<Coord> {
    Some((words::byte(i)?, words::byte(j)?))
}

/// A part of the layout that a line sets.
enum Part {
    Default(u16),
    Counts(u16, u16),
    State(usize, State),
    Queue(usize, Queued),
    Waiting(Option<Waiting>),
}

impl Part {
    fn read(command: &[u8], rest: &[&[u8]]) -> Option<Self> {
        let number = |word: &[u8]| words::number(word);
        Some(match (command, rest) {
            (b"default", [layer]) => Part::Default(number(layer)?),
            (b"counts", [states, queued]) => Part::Counts(number(states)?, number(queued)?),
            (b"state", [place, b"key", code, i, j]) => {
                let (code, at) = (words::byte(code)?, coord(i, j)?);
                Part::State(below(place, MOST_STATES)?, State::Key { code, at })
            }
            (b"state", [place, b"layer", layer, i, j]) => {
                let (number, at) = (number(layer)?, coord(i, j)?);
                Part::State(below(place, MOST_STATES)?, State::Layer { number, at })
            }
            (b"queue", [place, way, i, j, age]) => {
                let (event, age) = (event(way, i, j)?, number(age)?);
                Part::Queue(below(place, MOST_QUEUED)?, Queued { event, age })
            }
            (b"wait", [i, j, left, record]) => Part::Waiting(Some(Waiting {
                at: coord(i, j)?,
                left: number(left)?,
                record: number(record)?,
            })),
            (b"idle", []) => Part::Waiting(None),
            _ => return None,
        })
    }

    fn set(self, held: &mut Held) {
        match self {
            Part::Default(layer) => held.default = layer,
            Part::Counts(states, queued) => {
                held.state_count = states;
                held.queue_count = queued;
            }
            Part::State(place, state) => held.states[place] = state,
            Part::Queue(place, queued) => held.queue[place] = queued,
            Part::Waiting(waiting) => held.waiting = waiting,
        }
    }
}

/// A place's number, which is below so many.
fn below(word: &[u8], places: usize) -> Option<usize> {
    let place = usize::from(words::number(word)?);
    (place < places).then_some(place)
}

#[cfg(test)]
mod tests {
    use super::super::answers;
    use super::*;
    use crate::paper::image::Z;

    const NOTHING: &str = "codes - | acted - | decided - | dropped 0";

    fn with_z() -> Keys {
        let mut keys = Keys::default();
        assert_eq!(keys.bring(&Z), "accepted");
        keys
    }

    #[test]
    fn without_an_image_calls_are_refused() {
        let mut keys = Keys::default();
        assert_eq!(answers(&mut keys, &["t", "p 0 0", "k"]), ["refused 1 0"; 3]);
        assert_eq!(answers(&mut keys, &["image 00", "t"]), ["refused 1 0"; 2]);
        assert_eq!(
            answers(&mut keys, &["default 9", "t"]),
            ["default 9", "refused 1 0"]
        );
        assert_eq!(
            answers(&mut keys, &["room 0", "r 0 0"]),
            ["room 0", "refused 1 0"]
        );
    }

    #[test]
    fn acted_on_events_and_decisions_are_told() {
        let mut keys = with_z();
        let got = answers(&mut keys, &["p 0 0", "p 0 1", "t", "r 0 0", "t", "t", "k"]);
        let wanted = [
            NOTHING,
            NOTHING,
            "codes - | acted p 0 0 | decided - | dropped 0",
            "codes 2c | acted - | decided tap 0 0 | dropped 0",
            "codes 2c2c | acted p 0 1 | decided - | dropped 0",
            "codes 2c | acted r 0 0 | decided - | dropped 0",
            "codes 2c | acted - | decided - | dropped 0",
        ];
        assert_eq!(got, wanted);
    }

    #[test]
    fn two_decisions_stand_in_their_order() {
        let mut keys = with_z();
        answers(&mut keys, &["p 0 0", "t"]);
        answers(&mut keys, &["p 0 0"; 15]);
        let got = answers(&mut keys, &["p 0 1", "r 0 0"]);
        let hold = "codes e0 | acted p 0 0 | decided hold 0 0 | dropped 0";
        assert_eq!(
            got,
            [
                NOTHING,
                "codes e02c | acted p 0 0 | decided hold 0 0, tap 0 0 | dropped 0"
            ]
        );
        let mut keys = with_z();
        answers(&mut keys, &["p 0 0", "t"]);
        answers(&mut keys, &["p 0 0"; 16]);
        assert_eq!(answers(&mut keys, &["p 0 1"]), [hold]);
    }

    #[test]
    fn parts_are_set_and_the_paper_goes_on() {
        let mut keys = with_z();
        let lines = [
            "counts 2 2",
            "state 0 key 4 9 9",
            "state 1 layer 0 9 9",
            "queue 0 p 0 0 65535",
            "queue 1 r 0 0 65535",
            "wait 7 7 1 3",
        ];
        assert_eq!(answers(&mut keys, &lines), lines);
        let got = answers(&mut keys, &["t", "t", "t", "t"]);
        let wanted = [
            "codes 04e0 | acted - | decided hold 7 7 | dropped 0",
            "codes 04e02c | acted p 0 0 | decided tap 0 0 | dropped 0",
            "codes 04e0 | acted r 0 0 | decided - | dropped 0",
            "codes 04e0 | acted - | decided - | dropped 0",
        ];
        assert_eq!(got, wanted);
        assert_eq!(answers(&mut keys, &["default 1", "k"])[1], "refused 13 0");
        assert_eq!(
            answers(&mut keys, &["default 0", "room 63", "k"])[2],
            "refused 12 0"
        );
        assert_eq!(answers(&mut keys, &["room 64", "k"])[1], wanted[3]);
    }

    #[test]
    fn a_refused_call_is_not_made_by_the_rust() {
        let mut keys = with_z();
        let got = answers(&mut keys, &["p 0 1", "room 0", "t", "room 64", "k"]);
        assert_eq!(
            (got[2].as_str(), got[4].as_str()),
            ("refused 12 0", NOTHING)
        );
        let got = answers(&mut keys, &["t"]);
        assert_eq!(got, ["codes 2c | acted p 0 1 | decided - | dropped 0"]);
    }

    #[test]
    fn lines_out_of_form_set_nothing() {
        for line in [
            "state 64 key 4 0 0",
            "queue 16 p 0 0 0",
            "queue 0 x 0 0 0",
            "state 0 key 256 0 0",
            "state 0 layer 65536 0 0",
            "state 0 none 0 0 0",
            "wait 0 0 0",
            "idle 0",
            "default",
            "counts 1",
            "room 65536",
            "p 256 0",
            "t 1",
        ] {
            let mut keys = with_z();
            assert_eq!(answers(&mut keys, &[line, "k"]), ["?", NOTHING], "{line}");
            assert!(keys.rust.is_some());
        }
    }

    #[test]
    fn a_difference_between_rust_and_paper_is_shown() {
        let mut keys = with_z();
        let event = Event::Press((0, 1));
        keys.paper
            .call(Call::Event(event))
            .expect("an accepted call");
        let got = answers(&mut keys, &["t"]);
        assert_eq!(
            got,
            ["! rust: codes - and 0 dropped; paper: codes 2c and 0 dropped | acted p 0 1 | decided - | dropped 0"]
        );
    }
}
