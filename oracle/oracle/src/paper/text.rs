//! A table image written from text, and printed back, by document 02, request W-201: a writer that judges the text
//! whole and then its image, and a printer that judges the image and then says it in text.
//!
//! Assumes: nothing of the bytes. Lines are asked for one at a time and the first that is not there ends it, so the
//! time grows with the text and not with the counts that stand in it.
//! Read so: a number may have any number of digits, its value decides; byte 32 alone parts numbers; a line of no
//! numbers is the empty line; a missing line has the number of the next one; an offset that does not fit its word is
//! Header, since no legal counts lead to one.

use super::image::{self, Parts, Refusal, HEADER};
use super::ROOM;

const TEXT: u8 = 15;

/// Image Z of document 01 in text.
pub const Z_TEXT: &str = "1 1 2 4 0\n3 1\n0 0 0 0\n2 44 0 0\n2 224 0 0\n7 3 2 1\n";

/// The image that a text says, if a buffer of this length holds it.
pub fn write(text: &[u8], room: usize) -> Result<Vec<u8>, Refusal> {
    let image = Table::read(text)?.image();
    let image = image.ok_or(Refusal::whole(HEADER))?;
    image::check(&image)?;
    fitting(image, room)
}

/// The text that says an image, if a buffer of this length holds it.
pub fn print(image: &[u8], room: usize) -> Result<Vec<u8>, Refusal> {
    let parts = image::check(image)?;
    fitting(text_of(&parts), room)
}

fn fitting(result: Vec<u8>, room: usize) -> Result<Vec<u8>, Refusal> {
    match result.len() <= room {
        true => Ok(result),
        false => Err(Refusal::whole(ROOM)),
    }
}

/// The numbers of a text whose lines fit: the counts L, R, C, A and E, and those of the other lines in their order.
struct Table {
    counts: [usize; 5],
    words: Vec<u16>,
}

impl Table {
    /// The numbers of a text, with the lines that its counts ask for, legal counts or not.
    fn read(text: &[u8]) -> Result<Self, Refusal> {
        let mut lines = Lines {
            rest: text,
            number: 0,
        };
        let first = lines.next(5)?;
        let counts: [usize; 5] = std::array::from_fn(|at| first[at].into());
        let [layers, rows, columns, records, entries] = counts;
        let mut words = Vec::new();
        for (count, numbers) in [(layers * rows, columns), (records, 4), (entries, 1)] {
            for _ in 0..count {
                words.extend(lines.next(numbers)?);
            }
        }
        lines.end()?;
        Ok(Table { counts, words })
    }

    /// The image, if its offsets fit their words.
    fn image(&self) -> Option<Vec<u8>> {
        let [layers, rows, columns, records, _] = self.counts;
        let records_offset = 16 + 2 * layers * rows * columns;
        let list_offset = records_offset + 8 * records;
        let header = [&[1], &self.counts[..], &[records_offset, list_offset]].concat();
        let header: Option<Vec<u16>> = (header.iter())
            .map(|&word| u16::try_from(word).ok())
            .collect();
        let words = header?.into_iter().chain(self.words.iter().copied());
        Some(words.flat_map(u16::to_le_bytes).collect())
    }
}

/// The lines of a text that are still to be read, and the number of the last one that was.
struct Lines<'a> {
    rest: &'a [u8],
    number: usize,
}

impl Lines<'_> {
    /// The numbers of the next line, of which there must be so many.
    fn next(&mut self, count: usize) -> Result<Vec<u16>, Refusal> {
        let refusal = self.refusal();
        let end = self.rest.iter().position(|&byte| byte == b'\n');
        let end = end.ok_or(refusal)?;
        let found = numbers(&self.rest[..end]).ok_or(refusal)?;
        if found.len() != count {
            return Err(refusal);
        }
        self.rest = &self.rest[end + 1..];
        self.number += 1;
        Ok(found)
    }

    /// Whatever is left now is left over.
    fn end(&self) -> Result<(), Refusal> {
        match self.rest.is_empty() {
            true => Ok(()),
            false => Err(self.refusal()),
        }
    }

    /// That the next line does not fit, is missing or is left over.
    fn refusal(&self) -> Refusal {
        Refusal {
            number: TEXT,
            place: self.number + 1,
        }
    }
}

/// The numbers of a line that is in form.
fn numbers(line: &[u8]) -> Option<Vec<u16>> {
    if line.starts_with(b" ") || line.ends_with(b" ") {
        return None;
    }
    let words = line.split(|&byte| byte == b' ');
    words.filter(|word| !word.is_empty()).map(number).collect()
}

/// A number of at least one digit. A value past the largest counts no further, so that it has no end.
fn number(word: &[u8]) -> Option<u16> {
    let mut value = 0;
    for byte in word {
        if !byte.is_ascii_digit() {
            return None;
        }
        value = (10 * value + u32::from(byte - b'0')).min(65_536);
    }
    u16::try_from(value).ok()
}

fn text_of(parts: &Parts) -> Vec<u8> {
    let counts = [
        parts.layers(),
        parts.rows,
        parts.columns,
        parts.records.len(),
        parts.list.len(),
    ];
    let mut text = line_of(&counts);
    for row in parts.cells.chunks(parts.columns) {
        text.extend(line_of(row));
    }
    for record in &parts.records {
        text.extend(line_of(record));
    }
    for &entry in &parts.list {
        text.extend(line_of(&[entry]));
    }
    text
}

fn line_of<T: ToString>(numbers: &[T]) -> Vec<u8> {
    let words: Vec<String> = numbers.iter().map(T::to_string).collect();
    (words.join(" ") + "\n").into_bytes()
}

#[cfg(test)]
mod tests {
    use super::*;
    use crate::generate::accepted_image;
    use crate::paper::image::Z;
    use crate::random::Random;

    /// The least that is accepted, of 26 bytes.
    const LEAST: &str = "1 1 1 1 0\n0\n0 0 0 0\n";
    const ROOMY: usize = 65_535;

    /// The number and place of the refusal of a text, (0, 0) if there is none.
    fn verdict(text: &str, room: usize) -> (u8, usize) {
        told(write(text.as_bytes(), room))
    }

    /// The same with a buffer that holds everything.
    fn judged(text: &str) -> (u8, usize) {
        verdict(text, ROOMY)
    }

    fn told(answer: Result<Vec<u8>, Refusal>) -> (u8, usize) {
        answer.map_or_else(|refusal| (refusal.number, refusal.place), |_| (0, 0))
    }

    #[test]
    fn z_goes_both_ways() {
        assert_eq!(write(Z_TEXT.as_bytes(), 52), Ok(Z.to_vec()));
        assert_eq!(print(&Z, Z_TEXT.len()), Ok(Z_TEXT.as_bytes().to_vec()));
        assert_eq!(Z_TEXT.len(), 49);
    }

    #[test]
    fn accepted_images_come_back() {
        let mut random = Random::new(1);
        for _ in 0..2_000 {
            let image = accepted_image(&mut random);
            let text = print(&image, ROOMY).expect("it is accepted");
            assert_eq!(write(&text, ROOMY), Ok(image));
        }
    }

    #[test]
    fn a_text_comes_back_in_its_plain_form() {
        let zeros = "0".repeat(40);
        let odd = format!("01  1 1 {zeros}1 1\n0{zeros}\n5   065535 00    0\n{zeros}65535\n");
        let image = write(odd.as_bytes(), 28).expect("it is accepted");
        let plain = b"1 1 1 1 1\n0\n5 65535 0 0\n65535\n".to_vec();
        assert_eq!(print(&image, ROOMY), Ok(plain));
    }

    #[test]
    fn a_line_that_does_not_fit_is_named() {
        for bad in [
            "",
            " ",
            "0 0 0",
            "0 0 0 0 0",
            " 0 0 0 0",
            "0 0 0 0 ",
            "0\t0 0 0",
            "0 0 0 0\r",
            "+0 0 0 0",
            "0 -0 0 0",
            "0 0 a 0",
            "0 0 0.0",
            "0 0 0 0.",
            "0 0 0\0 0",
            "0 0 0 65536",
            "0 0 0 70000",
            "0 99999 0 0",
            "0 0 0 18446744073709551616",
            "0x0 0 0 0",
            "0 0 0 é",
            "0/0 0 0",
            "0 0 0 :",
        ] {
            let lines = [bad, "0 0 0 0", "0 0 0 0"];
            for at in 0..3 {
                let mut lines = lines;
                lines.swap(0, at);
                let text = format!("1 1 1 3 0\n0\n{}\n", lines.join("\n"));
                assert_eq!(judged(&text), (15, 3 + at), "{text:?}");
            }
        }
        let thirty = "9".repeat(30);
        assert_eq!(judged(&LEAST.replacen('1', &thirty, 1)), (15, 1));
        let zeros = "0".repeat(30);
        assert_eq!(judged(&LEAST.replacen('1', &(zeros + "1"), 1)), (0, 0));
    }

    #[test]
    fn a_missing_line_has_the_next_number() {
        for (text, line) in [
            ("", 1),
            ("1 1 1 1 0", 1),
            ("1 1 1 1 0\n", 2),
            ("1 1 1 1 0\n0", 2),
            ("1 1 1 1 0\n0\n", 3),
            ("1 1 1 1 0\n0\n0 0 0 0", 3),
            ("1 1 1 1 1\n0\n0 0 0 0\n", 4),
        ] {
            assert_eq!(judged(text), (15, line), "{text:?}");
        }
    }

    #[test]
    fn what_is_left_over_has_the_next_number() {
        for more in ["0\n", "0 0 0 0\n", "\n", "\n\n", "0", " ", "\r", "\0", "x"] {
            assert_eq!(judged(&format!("{LEAST}{more}")), (15, 4), "{more:?}");
        }
        assert_eq!(judged(&format!("\n{LEAST}")), (15, 1));
    }

    #[test]
    fn counts_ask_for_lines_as_they_stand() {
        let most = "65535 65535 65535 65535 65535\n";
        assert_eq!(judged(most), (15, 2));
        assert_eq!(judged(&format!("{most}0\n")), (15, 2));
        let empty_rows = format!("65535 65535 0 65535 65535\n{}", "\n".repeat(5));
        assert_eq!(judged(&empty_rows), (15, 7));
        assert_eq!(judged(&(empty_rows + " \n")), (15, 7));
        assert_eq!(judged("256 256 0 0 0\n"), (15, 2));
        assert_eq!(judged("0 0 0 0 1025\n0\n"), (15, 3));
        assert_eq!(judged("0 1 1 1 0\n0\n0 0 0 0\n"), (15, 2));
    }

    #[test]
    fn an_illegal_count_is_told_when_the_lines_are_right() {
        for text in [
            "0 0 0 0 0\n",
            "0 65535 65535 1 0\n0 0 0 0\n",
            "65535 0 65535 1 0\n0 0 0 0\n",
            "2 2 0 1 0\n\n\n\n\n0 0 0 0\n",
            "1 1 1 0 1\n0\n0\n",
            "1 1 17 1 0\n0 0 0 0 0 0 0 0 0 0 0 0 0 0 0 0 0\n0 0 0 0\n",
            "9 1 1 1 0\n9\n9\n9\n9\n9\n9\n9\n9\n9\n8 0 0 0\n",
        ] {
            assert_eq!(verdict(text, 0), (2, 0), "{text:?}");
        }
        let entries = "0\n".repeat(1_025);
        assert_eq!(
            judged(&format!("1 1 1 1 1025\n0\n0 0 0 0\n{entries}")),
            (2, 0)
        );
    }

    #[test]
    fn offsets_that_do_not_fit_their_words_are_the_headers() {
        let cells = "0 ".repeat(65_534) + "0\n";
        assert_eq!(
            verdict(&format!("1 1 65535 1 0\n{cells}0 0 0 0\n"), 0),
            (2, 0)
        );
        // offsets of 65,536, which is 0 if it is cut to 16 bits, and of 65,538
        let records = "0 0 0 0\n".repeat(8_190);
        assert_eq!(verdict(&format!("0 1 1 8190 0\n{records}"), 0), (2, 0));
        assert_eq!(judged(&format!("1 1 1 8190 0\n0\n{records}")), (2, 0));
    }

    #[test]
    fn a_lines_number_may_pass_65_535() {
        let rows = "\n".repeat(131_070);
        assert_eq!(judged(&format!("2 65535 0 0 0\n{rows}")), (2, 0));
        assert_eq!(judged(&format!("2 65535 0 0 0\n{rows}\n")), (15, 131_072));
        assert_eq!(judged(&format!("2 65535 0 0 1\n{rows}")), (15, 131_072));
        assert_eq!(
            judged(&format!("2 65535 0 1 0\n{rows}0 0 0\n")),
            (15, 131_072)
        );
    }

    #[test]
    fn the_image_is_judged_by_its_own_rules() {
        for (text, refusal) in [
            ("1 1 2 1 0\n0 1\n8 0 0 0\n", (4, 1)),
            ("1 1 1 2 0\n0\n0 0 0 0\n0 0 0 1\n", (5, 1)),
            ("1 1 1 1 0\n0\n3 65535 65535 0\n", (5, 0)),
            ("1 1 1 2 1\n0\n0 0 0 0\n3 0 1 0\n165\n", (6, 1)),
            ("1 1 1 1 0\n0\n7 200 0 0\n", (7, 0)),
            ("1 1 1 3 0\n0\n0 0 0 0\n7 0 0 0\n7 0 0 1\n", (8, 2)),
        ] {
            assert_eq!(verdict(text, ROOMY), refusal, "{text:?}");
            assert_eq!(verdict(text, 0), refusal, "{text:?}");
        }
        let heavy = format!("1 1 1 1 64\n0\n3 0 64 0\n{}", "4\n".repeat(64));
        assert_eq!(verdict(&heavy, 0), (9, 0));
    }

    #[test]
    fn room_comes_last() {
        assert_eq!(verdict(LEAST, 26), (0, 0));
        assert_eq!(verdict(LEAST, 25), (12, 0));
        assert_eq!(verdict(LEAST, 0), (12, 0));
        assert_eq!(verdict("0 1 1 1 0\n0 0 0\n", 0), (15, 2));
        assert_eq!(told(print(&Z, 49)), (0, 0));
        assert_eq!(told(print(&Z, 48)), (12, 0));
        assert_eq!(told(print(&Z, 0)), (12, 0));
    }

    #[test]
    fn the_printer_takes_the_exact_image() {
        let with = |at: usize, byte: u8| {
            let mut image = Z;
            image[at] = byte;
            told(print(&image, 0))
        };
        assert_eq!(told(print(&Z[..15], 0)), (1, 0));
        assert_eq!(told(print(&[], ROOMY)), (1, 0));
        assert_eq!(with(0, 2), (2, 0));
        assert_eq!(told(print(&Z[..51], 0)), (3, 0));
        assert_eq!(told(print(&[&Z[..], &[0]].concat(), 0)), (3, 0));
        assert_eq!(with(18, 4), (4, 1));
        assert_eq!(with(28, 8), (5, 1));
        assert_eq!(with(30, 0xA5), (6, 1));
        assert_eq!(with(48, 3), (7, 3));
    }
}
