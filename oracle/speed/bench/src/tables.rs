//! The two tables that the layout is counted on, as images, and an image as the trees that keyberon takes.
//!
//! Assumes: images are those of this file, so they are accepted. The trees are never given back.

use keyberon::action::Action;
use keyberon::key_code::KeyCode;
use keyberon::layout::Layers;

const HEADER: usize = 16;

pub fn image(
    sizes: [usize; 3],
    cells: &[usize],
    records: &[[usize; 4]],
    list: &[usize],
) -> Vec<u8> {
    let records_at = HEADER + 2 * cells.len();
    let list_at = records_at + 8 * records.len();
    let [layers, rows, columns] = sizes;
    let counts = [1, layers, rows, columns, records.len(), list.len()];
    let header = [&counts[..], &[records_at, list_at]].concat();
    let words = header.iter().chain(cells);
    let words = words.chain(records.iter().flatten()).chain(list);
    words
        .flat_map(|&word| (word as u16).to_le_bytes())
        .collect()
}

/// Z of document 01.
pub fn z() -> Vec<u8> {
    let records = [[0; 4], [2, 0x2C, 0, 0], [2, 0xE0, 0, 0], [7, 3, 2, 1]];
    image([1, 1, 2], &[3, 1], &records, &[])
}

/// 4 layers of 4 by 12 cells, 60 records of all kinds. On the first layer the keys are codes from the first on,
/// then codes together, layers, lists of actions and hold-taps.
pub fn ordinary() -> Vec<u8> {
    let mut records = vec![[0; 4], [1, 0, 0, 0]];
    records.extend((0..38).map(|code| [2, 4 + code, 0, 0]));
    records.extend([[3, 0, 2, 0], [3, 2, 2, 0], [3, 4, 3, 0], [3, 7, 2, 0]]);
    records.extend([1, 2, 3].map(|layer| [5, layer, 0, 0]));
    records.extend([0, 1].map(|layer| [6, layer, 0, 0]));
    records.extend([0xE0, 0xE1].map(|code| [2, code, 0, 0]));
    records.extend([9, 11, 13].map(|first| [4, first, 2, 0]));
    let holds = [
        (200, 49, 2),
        (200, 50, 3),
        (200, 44, 4),
        (150, 45, 5),
        (150, 51, 6),
    ];
    records.extend(holds.map(|(timeout, hold, tap)| [7, timeout, hold, tap]));
    records.push([4, 15, 2, 0]);
    let codes = [0xE0, 6, 0xE1, 7, 0xE0, 0xE1, 8, 0xE2, 9];
    let named = [49, 2, 50, 3, 44, 49, 49, 54];
    let first = (0..48).map(|key| {
        if key < 38 {
            2 + key
        } else {
            40 + (key - 38) * 2
        }
    });
    let mut cells: Vec<usize> = first.collect();
    for layer in 1..4 {
        cells.extend((0..48).map(|key| match (key + layer) % 3 {
            0 => 2 + (key * 7 + layer) % 58,
            _ => 1,
        }));
    }
    image([4, 4, 12], &cells, &records, &[&codes[..], &named].concat())
}

fn word(image: &[u8], at: usize) -> usize {
    u16::from_le_bytes([image[at], image[at + 1]]).into()
}

/// The length of the image at the start of the bytes.
pub fn length(bytes: &[u8]) -> usize {
    word(bytes, 14) + 2 * word(bytes, 10)
}

fn keep<T>(items: impl Iterator<Item = T>) -> &'static [T] {
    Box::leak(items.collect())
}

pub fn code(word: usize) -> KeyCode {
    // Safety: the enum is stored as a byte, and the images have legal codes.
    unsafe { std::mem::transmute::<u8, KeyCode>(word as u8) }
}

pub fn layers(image: &[u8]) -> Layers {
    let actions = actions(image);
    let [layers, rows, columns] = [2, 4, 6].map(|at| word(image, at));
    let cell = |place: usize| actions[word(image, HEADER + 2 * place)];
    let row = |row: usize| keep((0..columns).map(|column| cell(row * columns + column)));
    keep((0..layers).map(|layer| keep((0..rows).map(|at| row(layer * rows + at)))))
}

/// The action of each record. A record's children come before it.
fn actions(image: &[u8]) -> Vec<Action> {
    let mut done: Vec<Action> = Vec::new();
    for record in 0..word(image, 8) {
        let at = word(image, 12) + 8 * record;
        let [kind, a, b, c] = [0, 2, 4, 6].map(|field| word(image, at + field));
        let entries = || (a..a + b).map(|entry| word(image, word(image, 14) + 2 * entry));
        let action = match kind {
            0 => Action::NoOp,
            1 => Action::Trans,
            2 => Action::KeyCode(code(a)),
            3 => Action::MultipleKeyCodes(keep(entries().map(code))),
            4 => Action::MultipleActions(keep(entries().map(|named| done[named]))),
            5 => Action::Layer(a),
            6 => Action::DefaultLayer(a),
            _ => Action::HoldTap {
                timeout: a as u16,
                hold: &keep([done[b]].into_iter())[0],
                tap: &keep([done[c]].into_iter())[0],
            },
        };
        done.push(action);
    }
    done
}
