//! What can be wrong with bytes or actions.
use core::fmt;

/// Why bytes aren't sequences one after the other, or why actions have no texts. The refused sequence begins at `start`, and `at` is the
/// place of the fault, counted from there.
#[derive(Clone, Copy, Debug, PartialEq, Eq)]
#[non_exhaustive]
pub enum Error {
    /// The bytes don't begin with `ESC [`.
    NotCsi {
        /// Where the sequence begins.
        start: usize,
        /// The place of the fault, counted from there.
        at: usize,
    },
    /// A byte that can't be in a control sequence.
    BadByte {
        /// Where the sequence begins.
        start: usize,
        /// The place of the fault, counted from there.
        at: usize,
    },
    /// A number is above 2^63 - 1.
    NumberTooLarge {
        /// Where the sequence begins.
        start: usize,
        /// The place of the fault, counted from there.
        at: usize,
    },
    /// The bytes end before the final byte.
    Truncated {
        /// Where the sequence begins.
        start: usize,
        /// The place of the fault, counted from there.
        at: usize,
    },
    /// The C library gave no memory.
    Memory,
    /// The action at this place has no text: an alternative font that isn't 1 to 9.
    NoAction {
        /// Its place.
        at: usize,
    },
}

impl fmt::Display for Error {
    fn fmt(&self, f: &mut fmt::Formatter<'_>) -> fmt::Result {
        let (start, at, text) = match *self {
            Error::NotCsi { start, at } => (start, at, "not a sequence"),
            Error::BadByte { start, at } => (start, at, "bad byte"),
            Error::NumberTooLarge { start, at } => (start, at, "number too large"),
            Error::Truncated { start, at } => (start, at, "truncated"),
            Error::Memory => return f.write_str("no memory"),
            Error::NoAction { at } => return write!(f, "action {at} has no text"),
        };
        write!(f, "byte {}: {text}", start as u128 + at as u128)
    }
}

impl core::error::Error for Error {}

pub(crate) fn refusal(status: u32, start: usize, at: usize) -> Error {
    match status {
        1 => Error::NotCsi { start, at },
        2 => Error::BadByte { start, at },
        3 => Error::NumberTooLarge { start, at },
        4 => Error::Truncated { start, at },
        _ => Error::Memory,
    }
}
