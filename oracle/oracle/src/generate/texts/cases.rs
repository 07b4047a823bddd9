//! The sorts of cases that scripts of texts are made of: how often each comes up, and the texts that are written.
//!
//! Assumes: what a text is refused for is the paper's to say.

use super::counts::{asking, illegal};
use super::misfits::{spoil_end, spoil_line, ENDS, MISFITS};
use super::sheet::{numbers, Sheet};
use super::wild::{changed, wild};
use crate::generate::damage::{damage, damage_twice_in_one};
use crate::generate::draft::Draft;
use crate::generate::grow::{accepted, Reach};
use crate::generate::rooms::{any_room, enough, short};
use crate::generate::spoil::leave_limits;
use crate::random::Random;

/// A sort of case.
#[derive(Clone, Copy)]
pub enum Sort {
    /// An accepted image is printed, and its text is written.
    Back,
    /// The text of an accepted table is written, and its image is printed.
    Plainly,
    /// Any image is printed.
    Printed,
    /// A text is written.
    Written(Fault),
}

/// What a text is aimed at.
#[derive(Clone, Copy)]
pub enum Fault {
    /// That its image fits the buffer, or does not.
    Room,
    /// A line that does not fit.
    Line,
    /// A line that is missing or left over.
    End,
    /// Counts that ask for other lines.
    Asking,
    /// Counts that break their rules.
    Counts,
    /// This refusal of the image.
    Image(u8),
    /// Any two refusals of the image.
    Pair,
    /// Two refusals of the image in one record.
    TwiceInOne,
    /// Faults of several sorts, each of which is told before another.
    Mixed,
    Changed,
    Wild,
}

/// How many of a thousand cases are of each sort. Of the texts that are written more than a quarter come from
/// images, and of each refusal there are more than the five in a thousand that it is to have at least.
pub const SHARES: [(Sort, usize); 19] = [
    (Sort::Back, 310),
    (Sort::Plainly, 60),
    (Sort::Printed, 110),
    (Sort::Written(Fault::Room), 40),
    (Sort::Written(Fault::Line), 170),
    (Sort::Written(Fault::End), 60),
    (Sort::Written(Fault::Asking), 30),
    (Sort::Written(Fault::Counts), 30),
    (Sort::Written(Fault::Image(4)), 14),
    (Sort::Written(Fault::Image(5)), 14),
    (Sort::Written(Fault::Image(6)), 14),
    (Sort::Written(Fault::Image(7)), 14),
    (Sort::Written(Fault::Image(8)), 14),
    (Sort::Written(Fault::Image(9)), 14),
    (Sort::Written(Fault::Pair), 16),
    (Sort::Written(Fault::TwiceInOne), 10),
    (Sort::Written(Fault::Mixed), 40),
    (Sort::Written(Fault::Changed), 30),
    (Sort::Written(Fault::Wild), 10),
];

/// A text, and a buffer's length for it.
pub fn text(random: &mut Random, reach: Reach, fault: Fault) -> (Vec<u8>, usize) {
    match fault {
        Fault::Room => with_room(random, reach),
        Fault::Line => with_bad_line(random, reach),
        Fault::End => with_bad_end(random, reach),
        Fault::Asking => of_sheet(&asking(random, reach), random),
        Fault::Counts => of_draft(&illegal(random, reach), random, reach),
        Fault::Image(number) => with_bad_image(random, reach, &[number]),
        Fault::Pair => {
            let numbers = [random.among(4, 9) as u8, random.among(4, 9) as u8];
            with_bad_image(random, reach, &numbers)
        }
        Fault::TwiceInOne => {
            let mut draft = accepted(random, reach);
            damage_twice_in_one(&mut draft, random);
            of_draft(&draft, random, reach)
        }
        Fault::Mixed => mixed(random, reach),
        Fault::Changed => (changed(random, reach), any_room(random, 52)),
        Fault::Wild => (wild(random), any_room(random, 26)),
    }
}

/// The text of a draft, and mostly a buffer that would hold its image.
fn of_draft(draft: &Draft, random: &mut Random, reach: Reach) -> (Vec<u8>, usize) {
    let text = Sheet::of(draft, random, reach).bytes();
    (text, any_room(random, draft.bytes().len()))
}

/// A text whose table is not known, and any buffer.
fn of_sheet(sheet: &Sheet, random: &mut Random) -> (Vec<u8>, usize) {
    (sheet.bytes(), any_room(random, 52))
}

/// A text that is in form, and every other time a buffer that is too short.
fn with_room(random: &mut Random, reach: Reach) -> (Vec<u8>, usize) {
    let draft = accepted(random, reach);
    let text = Sheet::of(&draft, random, reach).bytes();
    let length = draft.bytes().len();
    let room = match random.once_in(2) {
        true => short(random, length),
        false => enough(random, length),
    };
    (text, room)
}

/// A text with a line that does not fit, sometimes two, of which the first is told.
fn with_bad_line(random: &mut Random, reach: Reach) -> (Vec<u8>, usize) {
    let draft = accepted(random, reach);
    let mut sheet = Sheet::of(&draft, random, reach);
    spoil_any_line(&mut sheet, random);
    if random.once_in(6) {
        spoil_any_line(&mut sheet, random);
    }
    (sheet.bytes(), any_room(random, draft.bytes().len()))
}

fn spoil_any_line(sheet: &mut Sheet, random: &mut Random) {
    if !sheet.lines.is_empty() {
        let at = random.place(0, sheet.lines.len());
        let misfit = random.pick(&MISFITS);
        spoil_line(sheet, random, at, misfit);
    }
}

fn with_bad_end(random: &mut Random, reach: Reach) -> (Vec<u8>, usize) {
    let draft = accepted(random, reach);
    let mut sheet = Sheet::of(&draft, random, reach);
    let end = random.pick(&ENDS);
    spoil_end(&mut sheet, random, end);
    (sheet.bytes(), any_room(random, draft.bytes().len()))
}

/// A text whose image has faults of these numbers, 4 to 9.
fn with_bad_image(random: &mut Random, reach: Reach, faults: &[u8]) -> (Vec<u8>, usize) {
    let draft = damaged(random, reach, faults);
    of_draft(&draft, random, reach)
}

/// A table with faults of these numbers. A damaged cell is to be the last damage.
fn damaged(random: &mut Random, reach: Reach, faults: &[u8]) -> Draft {
    let mut draft = accepted(random, reach);
    let mut faults = faults.to_vec();
    faults.sort_by(|one, other| other.cmp(one));
    for number in faults {
        damage(&mut draft, random, number);
    }
    draft
}

/// At least two of: a line that does not fit, a count that breaks its rule, a fault of the image, a short buffer.
fn mixed(random: &mut Random, reach: Reach) -> (Vec<u8>, usize) {
    let mut wanted = [true, true, random.once_in(2), random.once_in(4)];
    random.shuffle(&mut wanted);
    let [line, count, image, room] = wanted;
    let number = random.among(4, 9) as u8;
    let faults = if image { vec![number] } else { vec![] };
    let mut draft = damaged(random, reach, &faults);
    if count {
        leave_limits(&mut draft, random);
    }
    let mut sheet = Sheet::plain(&numbers(&draft));
    if line {
        match random.once_in(3) {
            true => {
                let end = random.pick(&ENDS);
                spoil_end(&mut sheet, random, end);
            }
            false => spoil_any_line(&mut sheet, random),
        }
    }
    let length = draft.bytes().len();
    let room = match room {
        true => short(random, length),
        false => enough(random, length),
    };
    (sheet.bytes(), room)
}
