//! Sequences without an action.

use crate::numbers::unknown_row;
use crate::{Unspecified, raw};
use alloc::vec::Vec;
use core::fmt;

/// Which sequence it is: a row of docs/SEQUENCES.md. The names are those of `enum csicodec_known_kind` in C, and what `{:?}` and `{}` write.
#[derive(Clone, Copy, PartialEq, Eq, Hash)]
#[cfg_attr(feature = "serde", derive(serde::Serialize))]
pub struct KnownKind(pub(crate) u32);

impl KnownKind {
    /// Its number in C, which stays.
    pub fn number(&self) -> u32 {
        self.0
    }
}

impl fmt::Debug for KnownKind {
    fn fmt(&self, f: &mut fmt::Formatter<'_>) -> fmt::Result {
        write!(f, "KnownKind::{}", self.name())
    }
}

impl fmt::Display for KnownKind {
    fn fmt(&self, f: &mut fmt::Formatter<'_>) -> fmt::Result {
        f.pad(self.name())
    }
}

/// What is known of a sequence without an action.
///
/// ```
/// use csicodec::{CSI, Known, KnownKind, actions};
///
/// let Some(Ok(CSI::Unspecified(unknown))) = actions(b"\x1b[?2K").next() else { panic!() };
/// let known = Known::of(&unknown).unwrap();
/// assert_eq!((known.kind(), known.values()), (KnownKind::DECSEL, [2].as_slice()));
/// assert_eq!(known.kind().to_string(), "DECSEL");
/// ```
#[derive(Clone, Copy, Debug, PartialEq, Eq)]
pub struct Known {
    given: raw::Known,
}

impl Known {
    /// The row that reads the list, if one does, and its values.
    pub fn of(unknown: &Unspecified) -> Option<Known> {
        let mut params = Vec::new();
        let row = unknown_row(unknown, &mut params);
        let given = raw::known(&row, &params);
        (given.kind != 0).then_some(Known { given })
    }

    /// Which sequence it is.
    pub fn kind(&self) -> KnownKind {
        KnownKind(self.given.kind)
    }

    /// Its values, in the order of its row, with what stands for each number that was left out.
    pub fn values(&self) -> &[u32] {
        &self.given.values[..self.given.count as usize]
    }
}
