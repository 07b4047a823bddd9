//! The line `codes`: the report of a list of key codes.
//!
//! Assumes: nothing of the list; the Rust's enum cannot hold an illegal code, so the paper answers where there is
//! one.

use crate::guard::{caught, PANIC};
use crate::paper::report;
use crate::{key_code, words};
use keyberon::key_code::{KbHidReport, KeyCode};

/// The report of a list of codes. The Rust answers if it can hold all of them; with an illegal one among
/// them document 01's rules do.
pub fn report(list: &[u8]) -> String {
    let legal: Option<Vec<KeyCode>> = list.iter().map(|&byte| key_code::of_byte(byte)).collect();
    let Some(codes) = legal else {
        return words::to_hex(&report::of(list));
    };
    let collect = || words::to_hex(codes.into_iter().collect::<KbHidReport>().as_bytes());
    caught(collect).unwrap_or_else(|| PANIC.to_string())
}

#[cfg(test)]
mod tests {
    use super::*;
    use crate::generate::codes::legal_list;
    use crate::random::Random;

    #[test]
    fn the_paper_agrees_with_the_rust_on_legal_lists() {
        let mut random = Random::new(1);
        for _ in 0..20_000 {
            let list = legal_list(&mut random);
            assert_eq!(report(&list), words::to_hex(&report::of(&list)), "{list:?}");
        }
    }
}
