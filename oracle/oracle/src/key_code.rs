//! Key codes of the Rust: bytes as codes, codes as bytes, and their names.
//!
//! Assumes: document 01 gives the legal values, and the Rust's enum has a case for each of them and for no
//! other (the test below looks at the names).

use crate::paper::report;
use keyberon::key_code::KeyCode;
use std::fmt::Write;

/// The code of a byte, if it is legal.
pub fn of_byte(byte: u8) -> Option<KeyCode> {
    if !report::is_legal(byte.into()) {
        return None;
    }
    // Safety: the enum is stored as a byte and has a case for each legal value, so this names one of them.
    Some(unsafe { std::mem::transmute::<u8, KeyCode>(byte) })
}

/// The bytes of codes.
pub fn bytes(codes: impl Iterator<Item = KeyCode>) -> Vec<u8> {
    codes.map(|code| code as u8).collect()
}

/// Each legal code's name in the Rust and its value, a line each, in order of value.
pub fn names() -> String {
    let mut text = String::new();
    for byte in 0..=255 {
        if let Some(code) = of_byte(byte) {
            writeln!(text, "{code:?} 0x{byte:02X}").expect("a string takes any text");
        }
    }
    text
}

#[cfg(test)]
mod tests {
    use super::*;

    #[test]
    fn there_are_193_distinct_names() {
        let text = names();
        let names: std::collections::BTreeSet<&str> = text
            .lines()
            .filter_map(|line| line.split(' ').next())
            .collect();
        assert_eq!(text.lines().count(), 193);
        assert_eq!(names.len(), 193);
        assert!(names.contains("ExSel") && names.contains("MediaCalc"));
    }
}
