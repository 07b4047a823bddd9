//! What every comparison of texts opens with: short texts that stand at the rules' edges, Z and its text with all their
//! beginnings, the longest lines, and lines that cannot be read.
//!
//! Assumes nothing.

use super::sheet::Sheet;
use super::{line, Texts, ROOMY};
use crate::generate::grow::{accepted, Reach};
use crate::generate::page::miswritten;
use crate::paper::image::Z;
use crate::paper::text::Z_TEXT;
use crate::words::LONGEST;

/// How many lines with an odd byte come up, besides those below.
const UNREADABLE: usize = 300;

/// Lines that miss the form by little.
const MISWRITTEN: [&str; 32] = [
    "write",
    "write ",
    "write -",
    "write - ",
    "write 0",
    "write - 0 ",
    " write - 0",
    "write  - 0",
    "write -  0",
    "write - 0 0",
    "write - -",
    "write -- 0",
    "write - 65536",
    "write - 99999",
    "write - 000000",
    "write - +0",
    "write - 0x0",
    "write 3 0",
    "write 310 0",
    "write 0A 26",
    "write 0g 26",
    "write 26 0a",
    "Write - 0",
    "writes - 0",
    "print",
    "print -",
    "print - 65536",
    "print - 000000",
    "print 010 0",
    "print 0A 0",
    "print - 0 0",
    "text - 0",
];

/// Texts that every comparison opens with, and a buffer's length for each.
const OPENING: [(&str, usize); 36] = [
    ("", 0),
    ("", ROOMY),
    ("\n", ROOMY),
    ("\n\n\n", ROOMY),
    (" ", ROOMY),
    ("0", ROOMY),
    ("1 1 1 1 0\n0\n0 0 0 0\n", 26),
    ("1 1 1 1 0\n0\n0 0 0 0\n", 25),
    ("1 1 1 1 0\n0\n0 0 0 0\n", 0),
    ("1 1 1 1 0\n0\n0 0 0 0\n", ROOMY),
    ("1 1 1 1 0\n0\n0 0 0 0", 26),
    ("1 1 1 1 0\n0\n0 0 0 0\n\n", 26),
    ("1 1 1 1 0\n0\n0 0 0 0\n ", 26),
    ("1 1 1 1 0\n0\n0 0 0 0\n0", 26),
    ("1 1 1 1 0\r\n0\r\n0 0 0 0\r\n", 26),
    ("\u{feff}1 1 1 1 0\n0\n0 0 0 0\n", 26),
    ("01  01 001 1   0000\n000\n00 0  0 0\n", 26),
    ("1 1 1 1 1\n0\n5 65535 0 0\n65535\n", 28),
    ("1 1 1 1 1\n0\n5 65536 0 0\n65535\n", 28),
    ("1 1 1 1 1\n0\n5 65535 0 0\n65536\n", 28),
    ("1 1 1 1 0\n65535\n0 0 0 0\n", 0),
    ("65537 1 1 1 0\n0\n0 0 0 0\n", 26),
    ("0 0 0 0 0\n", 0),
    ("0 1 1 1 0\n0 0 0 0\n", 0),
    ("0 65535 65535 1 0\n0 0 0 0\n", ROOMY),
    ("65535 0 65535 1 0\n0 0 0 0\n", ROOMY),
    ("1 1 0 1 0\n\n0 0 0 0\n", 24),
    ("1 1 0 1 0\n \n0 0 0 0\n", 24),
    ("1 1 1 0 0\n0\n", 18),
    ("65535 65535 65535 65535 65535\n", ROOMY),
    ("65535 65535 65535 65535 65535", ROOMY),
    ("65535 65535 65535 65535 65535\n\n", ROOMY),
    ("65535 65535 0 65535 65535\n", ROOMY),
    ("65535 65535 0 65535 65535\n\n\n", ROOMY),
    ("256 256 0 0 0\n", ROOMY),
    ("256 256 0 1 0\n0 0 0 0\n", ROOMY),
];

/// Writes all of it.
pub fn write(texts: &mut Texts) {
    write_short(texts);
    write_beginnings(texts);
    write_longest(texts);
    write_unreadable(texts);
    // the last line of the script, which has no newline
    drop(texts.print(&Z, ROOMY));
}

/// The short texts, and Z both ways, with a byte more and less too.
pub fn write_short(texts: &mut Texts) {
    for (text, room) in OPENING {
        drop(texts.write(text.as_bytes(), room));
    }
    let text = Z_TEXT.as_bytes();
    for less in [0, 1] {
        drop(texts.print(&Z, text.len() - less));
        drop(texts.write(text, Z.len() - less));
    }
    for image in [&Z[..0], &Z[..15], &Z[..51], &[&Z[..], &[0]].concat()] {
        drop(texts.print(image, ROOMY));
    }
}

fn write_beginnings(texts: &mut Texts) {
    let text = Z_TEXT.as_bytes();
    for length in 0..text.len() {
        drop(texts.write(&text[..length], ROOMY));
    }
    for length in 0..Z.len() {
        drop(texts.print(&Z[..length], ROOMY));
    }
}

/// The longest lines that can be read, with a text that is accepted for all its zeros in front and with one of as many
/// lines as fit, and longer ones.
fn write_longest(texts: &mut Texts) {
    let least = b"1 1 1 1 0\n0\n0 0 0 0\n";
    let most = (LONGEST - "write  100".len()) / 2;
    let mut text = vec![b'0'; most - least.len()];
    text.extend(least);
    drop(texts.write(&text, 100));
    drop(texts.write(&text, 26));
    texts.other(line("write", &text, 1_000));
    text.insert(0, b'0');
    texts.other(line("write", &text, 100));
    texts.other(line("write", &text, 26));
    let mut rows = b"65535 1 0 0 0\n".to_vec();
    rows.resize(most, b'\n');
    drop(texts.write(&rows, 100));
    let mut image = Z.to_vec();
    image.resize(most, 0);
    drop(texts.print(&image, 100));
    texts.other(line("print", &image, 1_000));
}

fn write_unreadable(texts: &mut Texts) {
    for text in MISWRITTEN {
        texts.other(text);
    }
    for at in 0..UNREADABLE {
        let draft = accepted(&mut texts.random, Reach::Small);
        let line = match at % 2 {
            0 => {
                let text = Sheet::of(&draft, &mut texts.random, Reach::Small);
                line("write", &text.bytes(), draft.bytes().len())
            }
            _ => line("print", &draft.bytes(), ROOMY),
        };
        let line = miswritten(&mut texts.random, line);
        texts.other(line);
    }
}

#[cfg(test)]
mod tests {
    use super::*;
    use crate::generate::page::assert_unreadable;

    #[test]
    fn miswritten_lines_cannot_be_read() {
        assert_unreadable(&MISWRITTEN);
    }
}
