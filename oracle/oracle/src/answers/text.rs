//! The lines `write` and `print`: a table's image from its text, and its text from the image.
//!
//! Assumes: nothing of the bytes. The Rust has no images, so the paper answers.

use crate::paper::text;
use crate::words;

/// The answer to a line of these, or nothing if it cannot be read.
pub fn answer(command: &[u8], rest: &[&[u8]]) -> Option<String> {
    let [bytes, room] = rest else {
        return None;
    };
    let (bytes, room) = (words::hex(bytes)?, words::number(room)?.into());
    let (name, result) = match command {
        b"write" => ("image", text::write(&bytes, room)),
        b"print" => ("text", text::print(&bytes, room)),
        _ => return None,
    };
    Some(match result {
        Ok(bytes) => format!("{name} {}", words::to_hex(&bytes)),
        Err(refusal) => refusal.to_string(),
    })
}
