//! What every kind of script is to a comparison.
//!
//! Assumes nothing.

use crate::script::Script;

/// The scripts of one comparison, one after the other.
pub trait Kind {
    /// The next script to run on both sides, or nothing when all are done.
    fn next(&mut self) -> Option<Script>;

    /// What was run so far, for the closing line; `differences` were found.
    fn summary(&self, differences: usize) -> String;

    /// How often, so far, scripts make the same calls over two tables that have no cell that differs.
    fn equal_calls(&self) -> usize {
        0
    }
}

/// All scripts of a comparison.
#[cfg(test)]
pub fn all(kind: &mut dyn Kind) -> Vec<Script> {
    std::iter::from_fn(|| kind.next()).collect()
}

/// How many answers start so.
#[cfg(test)]
pub fn starting(answers: &[String], with: &str) -> usize {
    let found = answers.iter().filter(|answer| answer.starts_with(with));
    found.count()
}
