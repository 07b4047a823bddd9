//! The words of a script line: how they are parted and read, and how bytes are written. Both sides share
//! these rules, so everything here is strict: what is not exactly in form is not read at all.
//!
//! Assumes: a line comes without its newline.

/// The longest line that is read, in bytes: one with a text of 30,000 bytes in hex is.
pub const LONGEST: usize = 65_536;

/// The words of a line, parted by exactly one space; nothing for a line that is too long, empty, or has
/// an empty word. Bytes that no word may have are left to the readers below, which refuse them.
pub fn split(line: &[u8]) -> Option<Vec<&[u8]>> {
    if line.len() > LONGEST {
        return None;
    }
    let words: Vec<&[u8]> = line.split(|&byte| byte == b' ').collect();
    if words.iter().any(|word| word.is_empty()) {
        return None;
    }
    Some(words)
}

/// A line that was read, from its words, as it is given back. Words that were read are plain text.
pub fn line(command: &[u8], rest: &[&[u8]]) -> String {
    let words = [&[command], rest].concat();
    String::from_utf8_lossy(&words.join(&b' ')).into_owned()
}

/// Bytes in lower-case hex, two digits each; `-` for none.
pub fn hex(word: &[u8]) -> Option<Vec<u8>> {
    if word == b"-" {
        return Some(Vec::new());
    }
    if word.is_empty() || word.len() % 2 != 0 {
        return None;
    }
    word.chunks(2)
        .map(|pair| Some(hex_digit(pair[0])? << 4 | hex_digit(pair[1])?))
        .collect()
}

fn hex_digit(byte: u8) -> Option<u8> {
    match byte {
        b'0'..=b'9' => Some(byte - b'0'),
        b'a'..=b'f' => Some(byte - b'a' + 10),
        _ => None,
    }
}

/// A decimal number of one to five digits, at most 65,535.
pub fn number(word: &[u8]) -> Option<u16> {
    decimal(word, 5)?.try_into().ok()
}

/// A decimal number of one to three digits, at most 255: coordinates, report types and report ids.
pub fn byte(word: &[u8]) -> Option<u8> {
    decimal(word, 3)?.try_into().ok()
}

fn decimal(word: &[u8], longest: usize) -> Option<u32> {
    if word.is_empty() || word.len() > longest {
        return None;
    }
    let mut digits = word.iter().map(|&byte| decimal_digit(byte));
    digits.try_fold(0, |sum, digit| Some(sum * 10 + u32::from(digit?)))
}

/// A picture: a digit a switch, any digit; `-` for none.
pub fn picture(word: &[u8]) -> Option<Vec<u8>> {
    if word == b"-" {
        return Some(Vec::new());
    }
    word.iter().map(|&byte| decimal_digit(byte)).collect()
}

/// A picture written as `picture` reads it; its places hold digits.
pub fn to_digits(picture: &[u8]) -> String {
    if picture.is_empty() {
        return "-".to_string();
    }
    picture
        .iter()
        .map(|&place| (b'0' + place) as char)
        .collect()
}

fn decimal_digit(byte: u8) -> Option<u8> {
    byte.is_ascii_digit().then(|| byte - b'0')
}

/// Bytes written as `hex` reads them.
pub fn to_hex(bytes: &[u8]) -> String {
    const DIGITS: &[u8; 16] = b"0123456789abcdef";
    if bytes.is_empty() {
        return "-".to_string();
    }
    let mut text = String::with_capacity(2 * bytes.len());
    for byte in bytes {
        text.push(DIGITS[usize::from(byte >> 4)].into());
        text.push(DIGITS[usize::from(byte & 15)].into());
    }
    text
}

#[cfg(test)]
mod tests {
    use super::*;

    #[test]
    fn words_are_strict() {
        assert_eq!(split(b"p 0 1").map(|words| words.len()), Some(3));
        for line in [&b""[..], b" p", b"p ", b"p  0"] {
            assert_eq!(split(line), None);
        }
        assert!(split(&vec![b'x'; LONGEST]).is_some());
        assert!(split(&vec![b'x'; LONGEST + 1]).is_none());
    }

    #[test]
    fn hex_is_even_and_lower_case() {
        assert_eq!(hex(b"-"), Some(vec![]));
        assert_eq!(hex(b"04e1"), Some(vec![4, 0xe1]));
        for word in [&b""[..], b"0", b"04E1", b"4g", b"--", b"0x", b"04\r"] {
            assert_eq!(hex(word), None);
        }
        assert_eq!(to_hex(&[4, 0xe1]), "04e1");
        assert_eq!(to_hex(&[]), "-");
    }

    #[test]
    fn pictures_are_digits() {
        assert_eq!(picture(b"-"), Some(vec![]));
        assert_eq!(picture(b"0190"), Some(vec![0, 1, 9, 0]));
        for word in [&b"--"[..], b"01a", b"0-"] {
            assert_eq!(picture(word), None);
        }
        assert_eq!(to_digits(&[0, 1, 9, 0]), "0190");
        assert_eq!(to_digits(&[]), "-");
    }

    #[test]
    fn numbers_have_their_limits() {
        assert_eq!(number(b"65535"), Some(65_535));
        assert_eq!(number(b"00007"), Some(7));
        assert_eq!(byte(b"255"), Some(255));
        for word in [&b""[..], b"65536", b"000007", b"+7", b"-7", b"7a"] {
            assert_eq!(number(word), None);
        }
        for word in [&b"256"[..], b"0007", b"-"] {
            assert_eq!(byte(word), None);
        }
    }
}
