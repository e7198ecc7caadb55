//! What the Rust does with a text.
use crate::idl::parser::Idl;
use std::panic::{catch_unwind, set_hook, AssertUnwindSafe};

pub const LIMIT: usize = 1_048_575;

#[derive(Debug, PartialEq)]
pub enum Outcome {
    Accepted(Idl),
    /// The numbers 1 to 3, with their places.
    Refused(u64, usize),
    /// The numbers 4 to 6. The Rust panics there, and a panic tells no place.
    Panicked(u64),
}

/// Keeps caught panics from being printed.
pub fn quiet() {
    set_hook(Box::new(|_| ()));
}

/// The limit and UTF-8 are document 01's (the Rust is handed a `&str`); all else is the Rust's own parser.
pub fn rust_outcome(text: &[u8]) -> Outcome {
    if text.len() > LIMIT {
        return Outcome::Refused(1, LIMIT);
    }
    let text = match std::str::from_utf8(text) {
        Ok(text) => text,
        Err(e) => return Outcome::Refused(2, e.valid_up_to()),
    };
    match catch_unwind(AssertUnwindSafe(|| Idl::parse(text.into()))) {
        Ok(Ok(idl)) => Outcome::Accepted(idl),
        Ok(Err(e)) => Outcome::Refused(3, e.error_location.offset()),
        Err(panic) => Outcome::Panicked(number_of(panic.as_ref())),
    }
}

/// Document 01's number of a panic, told by its message.
fn number_of(panic: &(dyn std::any::Any + Send)) -> u64 {
    let message = match (panic.downcast_ref::<String>(), panic.downcast_ref::<&str>()) {
        (Some(s), _) => s.as_str(),
        (_, Some(s)) => s,
        _ => "",
    };
    if message.starts_with("valid digits") || message.starts_with("valid hex digits") {
        4
    } else if message == "Invalid escape" {
        5
    } else if message == "Should have only matched read or write" {
        6
    } else {
        0
    }
}
