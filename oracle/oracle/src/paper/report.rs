//! The report of a list of codes by document 01, "Report and keyboard".
//!
//! Assumes: nothing; any bytes are a list of codes, illegal ones too.

const MODIFIERS: std::ops::RangeInclusive<u8> = 0xE0..=0xE7;

/// The places of ordinary keys in a report.
const KEYS: std::ops::Range<usize> = 2..8;

/// Whether a word is a legal code (document 01, "The table image").
pub fn is_legal(word: u16) -> bool {
    matches!(word, 0x00..=0xA4 | 0xE0..=0xFB)
}

pub fn of(codes: &[u8]) -> [u8; 8] {
    codes
        .iter()
        .fold([0; 8], |report, &code| with(report, code))
}

fn with(mut report: [u8; 8], code: u8) -> [u8; 8] {
    if MODIFIERS.contains(&code) {
        report[0] |= 1 << (code - MODIFIERS.start());
        return report;
    }
    let free = report[KEYS].iter().position(|&byte| byte == 0);
    match (code, free) {
        (0, _) => (),
        (1..=3, _) => report[KEYS].fill(code),
        (_, Some(place)) => report[KEYS][place] = code,
        (_, None) => report[KEYS].fill(1),
    }
    report
}

#[cfg(test)]
mod tests {
    use super::*;

    #[test]
    fn bench_cases() {
        assert_eq!(of(&[4, 5, 6, 7, 8, 9]), [0, 0, 4, 5, 6, 7, 8, 9]);
        let more = [4, 5, 6, 7, 8, 9, 0x0A, 0xE1];
        assert_eq!(of(&more), [2, 0, 1, 1, 1, 1, 1, 1]);
        assert_eq!(of(&[4, 2]), [0, 0, 2, 2, 2, 2, 2, 2]);
        assert_eq!(of(&[4, 2, 5]), [0, 0, 1, 1, 1, 1, 1, 1]);
    }

    #[test]
    fn illegal_codes_fill_places() {
        assert_eq!(
            of(&[0xA5, 0, 0xFF, 0xDF]),
            [0, 0, 0xA5, 0xFF, 0xDF, 0, 0, 0]
        );
    }

    #[test]
    fn legal_codes_are_193() {
        assert_eq!((0..=u16::MAX).filter(|&word| is_legal(word)).count(), 193);
    }
}
