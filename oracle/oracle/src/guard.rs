//! A panic of the Rust as an answer: code is run so that its panic is caught and told by a value, and an
//! object that panicked is not used again.
//!
//! Assumes: `silence` was called once, or the panic's message goes to standard error.

use std::panic::{self, AssertUnwindSafe};

/// The answer for a call that panicked, and for all later ones on the same object.
pub const PANIC: &str = "panic";

/// Keeps the messages of caught panics off standard error.
pub fn silence() {
    panic::set_hook(Box::new(|_| ()));
}

/// What the code yields, or nothing if it panicked.
pub fn caught<R>(code: impl FnOnce() -> R) -> Option<R> {
    attempt(code).ok()
}

/// What the code yields, or the message of its panic.
fn attempt<R>(code: impl FnOnce() -> R) -> Result<R, String> {
    // whatever the code changed before its panic is thrown away by the callers
    panic::catch_unwind(AssertUnwindSafe(code)).map_err(|payload| {
        let fixed = payload.downcast_ref::<&str>().map(|text| text.to_string());
        let made = || payload.downcast_ref::<String>().cloned();
        fixed.or_else(made).unwrap_or_default()
    })
}

/// An object of the Rust that is gone once one of its calls has panicked.
pub struct Guarded<T>(Option<T>);

impl<T> Guarded<T> {
    pub fn new(object: T) -> Self {
        Guarded(Some(object))
    }

    /// The call's answer, or `panic` now and from now on.
    pub fn answer(&mut self, call: impl FnOnce(&mut T) -> String) -> String {
        self.attempt(call).unwrap_or_else(|_| PANIC.to_string())
    }

    /// The call's answer, or the message of its panic; none for an object that has panicked before.
    pub fn attempt(&mut self, call: impl FnOnce(&mut T) -> String) -> Result<String, String> {
        let object = self.0.as_mut().ok_or_else(String::new)?;
        let answer = attempt(|| call(object));
        if answer.is_err() {
            self.0 = None;
        }
        answer
    }
}

#[cfg(test)]
mod tests {
    use super::*;

    #[test]
    fn a_panic_stays() {
        let mut object = Guarded::new(0u8);
        assert_eq!(object.answer(|n| n.to_string()), "0");
        assert_eq!(object.answer(|_| panic!("on purpose")), PANIC);
        assert_eq!(object.answer(|n| n.to_string()), PANIC);
    }

    #[test]
    fn a_panic_has_its_message() {
        let message = |call: fn(&mut u8) -> String| Guarded::new(0u8).attempt(call);
        assert_eq!(message(|_| panic!("fixed")), Err("fixed".to_string()));
        assert_eq!(message(|n| panic!("made {n}")), Err("made 0".to_string()));
        assert_eq!(message(|n| n.to_string()), Ok("0".to_string()));
    }
}
