//! Second opinions, written from documents 01 and 02 and nothing else: they answer where the Rust cannot, and
//! where it can they are held to it, by the tests or at every line.

pub mod areas;
pub mod calls;
pub mod changes;
pub mod debounce;
pub mod idle;
pub mod image;
pub mod layout;
pub mod marks;
pub mod report;
pub mod state;
pub mod text;
pub mod times;

/// The refusals that calls on a debouncer and on a layout share; the first is of the writer, the printer and the
/// comparison of two tables too.
pub const ROOM: u8 = 12;
pub const STATE: u8 = 13;
