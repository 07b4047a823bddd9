//! Scripts from seeds. A kind of script is one file or folder here: how its scripts are made and what it
//! counts. To add one: write it, and name it in `scripts` and `sample` below. The other files are what the kinds
//! write with (`pen`, `page`, `tally`, `rooms`) and about: tables (`draft`, `fields`, `grow`, `weights`) and damage
//! to them (`damage`, `spoil`).
//!
//! Assumes: the same kind, numbers and seed give the same scripts.

mod areas;
mod changes;
pub mod codes;
mod damage;
mod debounce;
mod draft;
pub mod drains;
mod drops;
mod fields;
mod grow;
mod image;
mod keyboard;
mod kind;
mod layout;
mod page;
mod pen;
mod rooms;
mod spoil;
mod states;
mod tally;
mod texts;
mod weights;

use crate::script::Script;

pub use kind::Kind;

/// The scripts that a comparison of this size runs.
pub fn scripts(kind: &str, n: usize, seed: u64) -> Option<Box<dyn Kind>> {
    match kind {
        "codes" => Some(Box::new(codes::Codes::new(n, seed))),
        "image" => Some(Box::new(image::Images::new(n, seed))),
        "areas" => Some(Box::new(areas::Pairs::new(n, seed))),
        "texts" => Some(Box::new(texts::Texts::new(n / texts::SHARE, seed))),
        "changes" => Some(Box::new(changes::Changes::new(n, seed))),
        "debounce" => Some(Box::new(debounce::Scans::new(n, seed))),
        "keyboard" => Some(Box::new(keyboard::Calls::new(n, seed))),
        "layout" => Some(Box::new(layout::Traces::new(n, seed))),
        "states" => Some(Box::new(states::States::new(n, seed))),
        "drops" => Some(Box::new(drops::Drops::new(n, seed))),
        _ => None,
    }
}

/// One script of `count` lines with a bit of everything, to read or to keep.
pub fn sample(kind: &str, count: usize, seed: u64) -> Option<Script> {
    match kind {
        "codes" => Some(codes::sample(count, seed)),
        "image" => Some(image::sample(count, seed)),
        "areas" => Some(areas::sample(count, seed)),
        "texts" => Some(texts::sample(count, seed)),
        "changes" => Some(changes::sample(count, seed)),
        "debounce" => Some(debounce::sample(count, seed)),
        "keyboard" => Some(keyboard::sample(count, seed)),
        "layout" => Some(layout::sample(count, seed)),
        "states" => Some(states::sample(count, seed)),
        "drops" => Some(drops::sample(count, seed)),
        _ => None,
    }
}

/// An image that is accepted, any but the large ones.
#[cfg(test)]
pub fn accepted_image(random: &mut crate::random::Random) -> Vec<u8> {
    grow::accepted(random, grow::Reach::Small).bytes()
}

/// An image that is accepted, with much of everything that a layout does.
#[cfg(test)]
pub fn lively_image(random: &mut crate::random::Random) -> Vec<u8> {
    layout::tables::lively(random).bytes()
}
