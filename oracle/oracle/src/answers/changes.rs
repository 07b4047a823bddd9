//! The line `compare`: the cells in which two tables differ.
//!
//! Assumes: nothing of the bytes. The Rust has no images, so the paper answers.

use crate::paper::changes;
use crate::words;

/// The answer to such a line, or nothing if it cannot be read.
pub fn answer(rest: &[&[u8]]) -> Option<String> {
    let [first, second, room] = rest else {
        return None;
    };
    let (first, second) = (words::hex(first)?, words::hex(second)?);
    let room = words::number(room)?.into();
    Some(match changes::differing(&first, &second, room) {
        Ok(cells) => format!("cells {}", words::to_hex(&cells)),
        Err(refusal) => refusal.to_string(),
    })
}
