//! Tables as the Rust has them, calls on its layout, and the image that a table of trees would be here.
//!
//! Assumes: what is kept here is kept until the program ends, since the Rust asks for references that last for ever.

use super::entry::Asked;
use crate::guard::Guarded;
use crate::{key_code, words};
use keyberon::action::Action;
use keyberon::key_code::KeyCode;
use keyberon::layout::{Event, Layers, Layout};

pub fn kept<T>(items: Vec<T>) -> &'static [T] {
    Box::leak(items.into_boxed_slice())
}

/// A table of one layer and one row.
pub fn row(keys: &[Action]) -> Layers {
    let row = kept(keys.to_vec());
    kept(vec![kept(vec![row])])
}

pub fn list(actions: &[Action]) -> Action {
    Action::MultipleActions(kept(actions.to_vec()))
}

pub fn hold_tap(timeout: u16, hold: Action, tap: Action) -> Action {
    let named = kept(vec![hold, tap]);
    Action::HoldTap {
        timeout,
        hold: &named[0],
        tap: &named[1],
    }
}

/// A call on a layout: an event, or nothing for a tick.
pub type Call = Option<Event>;

/// Calls from text: `p I J`, `r I J` and `t`, parted by commas; a number before one repeats it.
pub fn calls(text: &str) -> Vec<Call> {
    let mut calls = Vec::new();
    for part in text.split(", ") {
        let mut words: Vec<&str> = part.split(' ').collect();
        let times = words[0].parse().ok();
        if times.is_some() {
            words.remove(0);
        }
        let number = |at: usize| words[at].parse().expect("a coordinate");
        let call = match words[0] {
            "p" => Some(Event::Press(number(1), number(2))),
            "r" => Some(Event::Release(number(1), number(2))),
            _ => None,
        };
        calls.extend(vec![call; times.unwrap_or(1)]);
    }
    calls
}

/// The codes after these calls on a fresh layout, or the panic's message and the call, from 1, at which it came.
pub fn run(layers: Layers, calls: &[Call]) -> Result<Vec<u8>, (usize, String)> {
    let mut done = 0;
    let mut codes_after = Vec::new();
    let mut layout = Guarded::new(Layout::new(layers));
    let ran = layout.attempt(|layout| {
        for call in calls {
            done += 1;
            match call {
                Some(event) => drop(layout.event(*event)),
                None => drop(layout.tick()),
            }
        }
        codes_after = key_code::bytes(layout.keycodes());
        String::new()
    });
    match ran {
        Ok(_) => Ok(codes_after),
        Err(message) => Err((done, message)),
    }
}

/// How many codes are shown.
const MOST_SHOWN: usize = 8;

/// Calls on the Rust and what came of them, in words.
pub fn told(layers: Layers, text: &str) -> String {
    match run(layers, &calls(text)) {
        Ok(codes) if codes.len() > MOST_SHOWN => {
            let first = words::to_hex(&codes[..MOST_SHOWN]);
            format!("{text}: codes {first}.., {} of them", codes.len())
        }
        Ok(codes) => format!("{text}: codes {}", words::to_hex(&codes)),
        Err((call, message)) => format!("{text}: panic at call {call}: {message}"),
    }
}

/// The table as an image, for `replay` to judge.
pub fn as_image(layers: Layers) -> Asked {
    let bytes = image_of(layers);
    Asked::image(format!("its image, {} bytes", bytes.len()), &bytes)
}

/// The image of trees, its rules kept or not: equal actions are one record, a record's children come before it, and
/// what a row lacks is NoOp.
pub fn image_of(layers: Layers) -> Vec<u8> {
    let rows = layers.iter().map(|layer| layer.len()).max().unwrap_or(0);
    let lengths = layers.iter().flat_map(|layer| layer.iter());
    let columns = lengths.map(|row| row.len()).max().unwrap_or(0);
    let mut image = Image::default();
    let mut cells = Vec::new();
    for layer in layers {
        for at in 0..rows * columns {
            let row = layer.get(at / columns);
            let action = row.and_then(|row| row.get(at % columns));
            cells.push(image.record(action.unwrap_or(&Action::NoOp)));
        }
    }
    let records_at = 16 + 2 * cells.len();
    let sizes = [layers.len(), rows, columns, image.records.len()];
    let offsets = [records_at, records_at + 8 * image.records.len()];
    let mut all = vec![1];
    all.extend(sizes.map(word));
    all.push(word(image.list.len()));
    all.extend(offsets.map(word));
    all.extend(cells);
    all.extend(image.records.iter().flatten());
    all.extend(image.list);
    all.iter().flat_map(|word| word.to_le_bytes()).collect()
}

fn word(number: usize) -> u16 {
    u16::try_from(number).expect("a word has 16 bits")
}

#[derive(Default)]
struct Image {
    records: Vec<[u16; 4]>,
    list: Vec<u16>,
}

impl Image {
    /// The number of an action's record.
    fn record(&mut self, action: &Action) -> u16 {
        let record = match *action {
            Action::NoOp => [0; 4],
            Action::Trans => [1, 0, 0, 0],
            Action::KeyCode(code) => [2, code as u16, 0, 0],
            Action::MultipleKeyCodes(codes) => {
                let codes = codes.iter().map(|&code: &KeyCode| code as u16).collect();
                self.listed(3, codes)
            }
            Action::MultipleActions(actions) => {
                let named = actions.iter().map(|action| self.record(action)).collect();
                self.listed(4, named)
            }
            Action::Layer(number) => [5, word(number), 0, 0],
            Action::DefaultLayer(number) => [6, word(number), 0, 0],
            Action::HoldTap { timeout, hold, tap } => {
                [7, timeout, self.record(hold), self.record(tap)]
            }
            _ => unreachable!("keyberon 0.1.1 has eight actions"),
        };
        let known = self.records.iter().position(|other| *other == record);
        word(known.unwrap_or_else(|| {
            self.records.push(record);
            self.records.len() - 1
        }))
    }

    /// A record over list entries, which are written once.
    fn listed(&mut self, kind: u16, entries: Vec<u16>) -> [u16; 4] {
        let count = entries.len();
        let mut stretches = self.list.windows(count.max(1));
        let first = stretches.position(|stretch| stretch == entries);
        let first = first.unwrap_or_else(|| {
            self.list.extend(entries);
            self.list.len() - count
        });
        [kind, word(first), word(count), 0]
    }
}

#[cfg(test)]
mod tests {
    use super::*;
    use crate::paper::image::{check, Z};

    const A: Action = Action::KeyCode(KeyCode::A);

    #[test]
    fn calls_are_read() {
        let press = Some(Event::Press(0, 1));
        assert_eq!(calls("2 p 0 1, t"), [press, press, None]);
        assert_eq!(calls("r 255 0"), [Some(Event::Release(255, 0))]);
    }

    #[test]
    fn trees_become_the_image_that_the_paper_has() {
        let (space, control) = (KeyCode::Space, KeyCode::LCtrl);
        let tap = Action::KeyCode(space);
        let key = hold_tap(3, Action::KeyCode(control), tap);
        let parts = check(&image_of(row(&[key, tap]))).expect("an accepted image");
        let z = check(&Z).expect("Z is accepted");
        assert_eq!((parts.rows, parts.columns), (z.rows, z.columns));
        assert_eq!(parts.records.len(), 3);
        let same = [list(&[A, A]), list(&[A, A]), list(&[]), A];
        let parts = check(&image_of(row(&same))).expect("an accepted image");
        assert_eq!(parts.records, [[2, 4, 0, 0], [4, 0, 2, 0], [4, 2, 0, 0]]);
        assert_eq!((parts.cells, parts.list), (vec![1, 1, 2, 0], vec![0, 0]));
    }
}
