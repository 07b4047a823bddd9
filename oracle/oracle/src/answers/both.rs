//! Two answers to one line: the Rust's and the paper's. Where both can answer both do, so that the second
//! opinion is itself held to the Rust.
//!
//! Assumes: no answer begins with the mark, so a line with it is a fault of one of the two, never of the port.

/// Begins the answer to a line on which the two differ.
pub const MARK: &str = "!";

/// The answer that both give; where they differ, both.
pub fn agreed(rust: String, paper: String) -> String {
    if rust == paper {
        return rust;
    }
    format!("{MARK} rust: {rust}; paper: {paper}")
}

#[cfg(test)]
mod tests {
    use super::*;

    #[test]
    fn a_difference_shows_both() {
        let text = |text: &str| text.to_string();
        assert_eq!(agreed(text("codes -"), text("codes -")), "codes -");
        let differ = agreed(text("panic"), text("codes 04"));
        assert_eq!(differ, "! rust: panic; paper: codes 04");
    }
}
