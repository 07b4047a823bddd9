//! A case: two inputs of the port's `pace`. The call that is counted costs what the second input costs more.
//!
//! Assumes nothing.

/// A call of a layout, as `pace` and `rust.rs` read it.
pub type Call = [u8; 3];

pub const TICK: Call = [2, 0, 0];

#[derive(Clone)]
pub struct Case {
    pub part: &'static str,
    pub name: String,
    /// Of what grows, how much there is.
    pub size: Option<usize>,
    pub before: Vec<u8>,
    pub after: Vec<u8>,
}

impl Case {
    /// What comes before, and then the bytes of the call.
    pub fn new(part: &'static str, name: &str, before: Vec<u8>, call: &[u8]) -> Case {
        Case {
            part,
            name: name.into(),
            size: None,
            after: [&before[..], call].concat(),
            before,
        }
    }

    pub fn sized(self, size: usize) -> Case {
        Case {
            size: Some(size),
            ..self
        }
    }
}
