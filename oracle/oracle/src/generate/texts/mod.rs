//! Scripts of `write` and `print` lines: texts of accepted tables in every spelling, texts with each fault and with
//! several, images printed, and images that come back by way of their text.
//!
//! Assumes: what a text or an image is refused for is the paper's to say, for the closing line as for the answers.

mod cases;
mod counts;
mod misfits;
mod opening;
mod sheet;
#[cfg(test)]
mod situations;
mod wild;

use super::grow::{accepted, Reach};
use super::image::random_image;
use super::kind::Kind;
use super::page::Page;
use super::rooms::{any_room, enough};
use super::tally::{Tally, OF_IMAGES};
use crate::paper::image::Refusal;
use crate::paper::text::{print, write};
use crate::random::Random;
use crate::script::Script;
use crate::words::to_hex;
use cases::{Sort, SHARES};
use sheet::{numbers, Sheet};

/// A buffer that holds whatever is written or printed.
const ROOMY: usize = 65_535;

/// The refusals of texts. Short and Length are not among them: what is written has a header, and the length it says.
const OF_TEXTS: [u8; 9] = [2, 4, 5, 6, 7, 8, 9, 12, 15];

/// How often texts were written, or images printed, and what was answered.
struct Side {
    answered: usize,
    refused: Tally,
}

impl Side {
    fn of_numbers(numbers: impl IntoIterator<Item = u8>) -> Self {
        Side {
            answered: 0,
            refused: Tally::of_numbers(numbers),
        }
    }

    fn add(&mut self, answer: &Result<Vec<u8>, Refusal>) {
        match answer {
            Ok(_) => self.answered += 1,
            Err(refusal) => self.refused.add(refusal.number),
        }
    }
}

/// A text is long beside the lines of other kinds, so there are N / 8 of them.
pub const SHARE: usize = 8;

pub struct Texts {
    random: Random,
    /// How many random cases are still to be run.
    left: usize,
    /// Whether the fixed texts and the unreadable lines are still to be run.
    opening: bool,
    reach: Reach,
    page: Page,
    texts: usize,
    images: usize,
    written: Side,
    printed: Side,
    /// How many images came back by way of their text, and texts, in their plain form, by way of their image.
    back: usize,
    plain: usize,
    others: usize,
}

impl Texts {
    pub fn new(n: usize, seed: u64) -> Self {
        Texts {
            random: Random::new(seed),
            left: n,
            opening: true,
            reach: Reach::Any,
            page: Page::default(),
            texts: 0,
            images: 0,
            written: Side::of_numbers(OF_TEXTS),
            printed: Side::of_numbers(OF_IMAGES.chain([12])),
            back: 0,
            plain: 0,
            others: 0,
        }
    }

    /// The line of a text, which is counted; the answer to it.
    fn write(&mut self, text: &[u8], room: usize) -> Result<Vec<u8>, Refusal> {
        self.texts += 1;
        let answer = write(text, room);
        self.written.add(&answer);
        self.page.write(line("write", text, room));
        answer
    }

    /// The line of an image, which is counted; the answer to it.
    fn print(&mut self, image: &[u8], room: usize) -> Result<Vec<u8>, Refusal> {
        self.images += 1;
        let answer = print(image, room);
        self.printed.add(&answer);
        self.page.write(line("print", image, room));
        answer
    }

    /// A line that is most likely not to be read.
    fn other(&mut self, line: impl Into<Vec<u8>>) {
        self.others += 1;
        self.page.write(line);
    }

    fn case(&mut self) {
        let reach = self.reach;
        match self.random.by_share(&SHARES) {
            Sort::Back => self.go_back(),
            Sort::Plainly => self.write_plainly(),
            Sort::Printed => self.print_any(),
            Sort::Written(fault) => {
                let (text, room) = cases::text(&mut self.random, reach, fault);
                drop(self.write(&text, room));
            }
        }
    }

    /// Prints an accepted image and writes what was printed, with buffers that are long enough.
    fn go_back(&mut self) {
        let image = accepted(&mut self.random, self.reach).bytes();
        let room = enough(&mut self.random, plain_length(&image));
        if let Ok(text) = self.print(&image, room) {
            let room = enough(&mut self.random, image.len());
            let again = self.write(&text, room);
            self.back += usize::from(again.is_ok_and(|again| again == image));
        }
    }

    /// Writes the text of an accepted table with more spaces and zeros than it must have, and prints what was written.
    fn write_plainly(&mut self) {
        let draft = accepted(&mut self.random, self.reach);
        let numbers = numbers(&draft);
        let plain = Sheet::plain(&numbers).bytes();
        let text = Sheet::loose(&numbers, &mut self.random, self.reach).bytes();
        if let Ok(image) = self.write(&text, draft.bytes().len()) {
            let room = enough(&mut self.random, plain.len());
            let again = self.print(&image, room);
            self.plain += usize::from(again.is_ok_and(|again| again == plain));
        }
    }

    fn print_any(&mut self) {
        let image = random_image(&mut self.random, self.reach);
        let room = any_room(&mut self.random, plain_length(&image));
        drop(self.print(&image, room));
    }
}

impl Kind for Texts {
    fn next(&mut self) -> Option<Script> {
        if std::mem::take(&mut self.opening) {
            opening::write(self);
            return Some(Script {
                closed: false,
                ..self.page.script()
            });
        }
        while self.left > 0 && !self.page.is_full() {
            self.case();
            self.left -= 1;
        }
        self.page.script().if_any()
    }

    fn summary(&self, differences: usize) -> String {
        format!(
            "{} texts and {} images, {differences} differences (texts: image {}, {}; images: text {}, {}; {} \
             images came back from their texts, {} texts came back plain), and {} further lines, most of them \
             unreadable",
            self.texts,
            self.images,
            self.written.answered,
            self.written.refused,
            self.printed.answered,
            self.printed.refused,
            self.back,
            self.plain,
            self.others
        )
    }
}

/// The short texts that a comparison opens with, then random cases, small ones only.
pub fn sample(count: usize, seed: u64) -> Script {
    let mut texts = Texts::new(0, seed);
    texts.reach = Reach::Small;
    opening::write_short(&mut texts);
    while texts.page.lines() < count {
        texts.case();
    }
    let mut script = texts.page.script();
    script.lines.truncate(count);
    script
}

fn line(command: &str, bytes: &[u8], room: usize) -> Vec<u8> {
    format!("{command} {} {room}", to_hex(bytes)).into_bytes()
}

/// The length of an image's text; of a refused image, its own.
fn plain_length(image: &[u8]) -> usize {
    let length = print(image, ROOMY).map_or(image.len(), |text| text.len());
    length.max(1)
}

#[cfg(test)]
mod tests {
    use super::*;
    use crate::generate::kind::all;
    use crate::words::LONGEST;

    const CASES: usize = 50_000;

    #[test]
    fn each_refusal_is_hit_often_enough() {
        let mut texts = Texts::new(CASES, 1);
        let scripts = all(&mut texts);
        // a thousand in 200,000
        for number in OF_TEXTS {
            let often = texts.written.refused.of(number);
            assert!(often > texts.texts / 200, "{number}: {often}");
        }
        for number in OF_IMAGES.chain([12]) {
            let often = texts.printed.refused.of(number);
            assert!(often > CASES / 1_000, "{number}: {often}");
        }
        assert!(texts.texts > CASES * 4 / 5 && texts.back > texts.texts / 4);
        let plain = SHARES
            .iter()
            .filter(|(sort, _)| matches!(sort, Sort::Plainly));
        assert!(texts.plain > CASES * plain.map(|(_, share)| share).sum::<usize>() / 1_100);
        let lines: usize = scripts.iter().map(|script| script.lines.len()).sum();
        assert_eq!(lines, texts.texts + texts.images + texts.others);
    }

    #[test]
    fn lines_can_be_read_but_those_that_cannot() {
        let mut texts = Texts::new(5_000, 2);
        let scripts = all(&mut texts);
        let unreadable = |script: &Script| {
            let answers = crate::answers::replay::answers(script);
            answers.iter().filter(|answer| *answer == "?").count()
        };
        let found = unreadable(&scripts[0]);
        assert!(found <= texts.others && found > texts.others * 9 / 10);
        assert_eq!(scripts[1..].iter().map(unreadable).sum::<usize>(), 0);
        let longest = |length: usize| {
            let lines = scripts[0].lines.iter();
            lines.filter(|line| line.len() == length).count()
        };
        assert_eq!([LONGEST, LONGEST + 1].map(longest), [3, 3]);
        let lines = scripts.iter().flat_map(|script| &script.lines);
        assert!(!lines.clone().any(|line| line.contains(&b'\n')));
    }

    #[test]
    fn a_sample_has_no_long_lines() {
        let script = sample(2_000, 1);
        assert_eq!(script.lines.len(), 2_000);
        assert!(script.lines.iter().all(|line| line.len() < 15_000));
        assert_eq!(sample(20, 1).lines.len(), 20);
    }
}
