//! An accepted image laid out as the trees that keyberon's layout takes, and the layout over them.
//!
//! Assumes: the image was accepted, or refused for Nested alone, so every record names lower ones and every
//! code is legal. The Rust asks for references that last for ever; here the trees last as long as the layout
//! that walks them and go with it, so that a script may bring any number of images.

use crate::guard::Guarded;
use crate::key_code;
use crate::paper::image::Parts;
use keyberon::action::Action;
use keyberon::key_code::KeyCode;
use keyberon::layout::{Layers, Layout};
use std::any::Any;
use std::rc::Rc;

/// A fresh layout over a table, and the table's trees.
pub struct Tabled {
    layout: Guarded<Layout>,
    /// Goes after the layout, since fields go in their order.
    _trees: Trees,
}

impl Tabled {
    pub fn new(parts: &Parts) -> Self {
        let mut trees = Trees::default();
        let layers = trees.layers(parts);
        Tabled {
            layout: Guarded::new(Layout::new(layers)),
            _trees: trees,
        }
    }

    /// The answer of a call on the layout. The call must keep nothing of the layout: what it yields is text,
    /// which holds no part of the trees.
    pub fn answer(&mut self, call: impl FnOnce(&mut Layout) -> String) -> String {
        self.layout.answer(call)
    }

    /// The same, with the message of a panic told.
    pub fn attempt(&mut self, call: impl FnOnce(&mut Layout) -> String) -> Result<String, String> {
        self.layout.attempt(call)
    }
}

/// The memory of the trees, piece by piece.
#[derive(Default)]
struct Trees(Vec<Rc<dyn Any>>);

impl Trees {
    fn layers(&mut self, parts: &Parts) -> Layers {
        let actions = self.actions(parts);
        let cells = parts.cells.iter().map(|&cell| actions[usize::from(cell)]);
        let cells: Vec<Action> = cells.collect();
        let mut layers = Vec::new();
        for layer in cells.chunks(parts.rows * parts.columns) {
            let rows = layer.chunks(parts.columns).enumerate();
            let rows: Vec<&'static [Action]> = rows
                .map(|(number, row)| self.keep(ragged(row, number + layers.len()).to_vec()))
                .collect();
            layers.push(self.keep(rows));
        }
        self.keep(layers)
    }

    /// The action of each record. A record's children come before it, so a copy of their actions serves.
    fn actions(&mut self, parts: &Parts) -> Vec<Action> {
        let mut done: Vec<Action> = Vec::with_capacity(parts.records.len());
        for &[kind, a, b, c] in &parts.records {
            let entries = |first: u16, count: u16| {
                let first = usize::from(first);
                parts.list[first..first + usize::from(count)].iter()
            };
            let named = |record: u16| done[usize::from(record)];
            let action = match kind {
                0 => Action::NoOp,
                1 => Action::Trans,
                2 => Action::KeyCode(code(a)),
                3 => Action::MultipleKeyCodes(self.keep(entries(a, b).map(|&word| code(word)))),
                4 => Action::MultipleActions(self.keep(entries(a, b).map(|&word| named(word)))),
                5 => Action::Layer(a.into()),
                6 => Action::DefaultLayer(a.into()),
                _ => Action::HoldTap {
                    timeout: a,
                    hold: &self.keep([named(b)])[0],
                    tap: &self.keep([named(c)])[0],
                },
            };
            done.push(action);
        }
        done
    }

    /// Keeps items, and hands out a reference that is good as long as these trees.
    fn keep<T: 'static>(&mut self, items: impl IntoIterator<Item = T>) -> &'static [T] {
        let items: Rc<Vec<T>> = Rc::new(items.into_iter().collect());
        let stretch: *const [T] = items.as_slice();
        self.0.push(items);
        // Safety: the items are neither moved nor changed until the trees go, which they do after the layout,
        // the only holder of the reference (see `Tabled`).
        unsafe { &*stretch }
    }
}

/// Every other row without the NoOps at its end: the Rust's layers may be ragged, and an image is filled up.
fn ragged(row: &[Action], number: usize) -> &[Action] {
    let is_kept = |action: &Action| !matches!(action, Action::NoOp);
    let kept = row.iter().rposition(is_kept).map_or(0, |last| last + 1);
    if number % 2 == 0 {
        row
    } else {
        &row[..kept]
    }
}

fn code(word: u16) -> KeyCode {
    let byte = u8::try_from(word).expect("an accepted image has legal codes");
    key_code::of_byte(byte).expect("an accepted image has legal codes")
}

#[cfg(test)]
mod tests {
    use super::*;
    use crate::generate::accepted_image;
    use crate::paper::image::check;
    use crate::random::Random;
    use keyberon::layout::Event;

    /// All keys pressed and released with ticks between, as text.
    fn walked(tabled: &mut Tabled, parts: &Parts) -> Vec<String> {
        let mut answers = Vec::new();
        for key in 0..parts.rows * parts.columns {
            let (row, column) = (key / parts.columns, key % parts.columns);
            let (row, column) = (row as u8, column as u8);
            for event in [Event::Press(row, column), Event::Release(row, column)] {
                answers.push(
                    tabled.answer(|layout| format!("{:?}", key_code::bytes(layout.event(event)))),
                );
                answers
                    .push(tabled.answer(|layout| format!("{:?}", key_code::bytes(layout.tick()))));
            }
        }
        answers
    }

    #[test]
    fn every_other_row_is_ragged() {
        let row = [Action::NoOp, Action::Trans, Action::NoOp, Action::NoOp];
        assert_eq!([ragged(&row, 0).len(), ragged(&row, 1).len()], [4, 2]);
        assert_eq!(ragged(&row[2..], 1).len(), 0);
    }

    #[test]
    fn tables_that_went_leave_the_others_alone() {
        let mut random = Random::new(6);
        let images: Vec<Parts> = (0..300)
            .map(|_| check(&accepted_image(&mut random)).expect("an accepted image"))
            .collect();
        let mut all: Vec<Tabled> = images.iter().map(Tabled::new).collect();
        let mut together: Vec<Vec<String>> = Vec::new();
        for parts in images.iter().rev() {
            let mut last = all.pop().expect("a layout for each image");
            together.push(walked(&mut last, parts));
        }
        together.reverse();
        let alone = images
            .iter()
            .map(|parts| walked(&mut Tabled::new(parts), parts));
        assert!(together.into_iter().eq(alone));
    }
}
