//! An event of a stream.

use crate::{CSI, Esc};
use alloc::vec::Vec;

/// What opened a control string.
#[derive(Clone, Copy, Debug, PartialEq, Eq, Hash)]
#[cfg_attr(feature = "serde", derive(serde::Serialize, serde::Deserialize))]
#[non_exhaustive]
pub enum StringKind {
    /// `ESC P`, a device control string.
    Dcs,
    /// `ESC X`, a string of characters.
    Sos,
    /// `ESC ]`, an operating system command.
    Osc,
    /// `ESC ^`, a privacy message.
    Pm,
    /// `ESC _`, a command to a program.
    Apc,
}

/// An event of a stream.
#[derive(Clone, Debug, PartialEq, Eq)]
#[cfg_attr(feature = "serde", derive(serde::Serialize))]
#[non_exhaustive]
pub enum Event<'a> {
    /// Characters, C0 controls other than ESC, and DEL: [`characters`](crate::characters) gives them one by one. A UTF-8 character is
    /// cut only by a control within it.
    Text(&'a [u8]),
    /// An action of a control sequence. Its further actions follow.
    Csi(CSI),
    /// An escape sequence.
    Esc(Esc),
    /// A piece of a control string. A cancelled string has no last piece: another event follows.
    Str {
        /// What opened it.
        kind: StringKind,
        /// The data, without what opens and closes the string.
        bytes: &'a [u8],
        /// Whether it is the first piece.
        first: bool,
        /// Whether it is the last piece.
        last: bool,
    },
    /// A malformed control, or a piece of it.
    Other(&'a [u8]),
}

/// An event with bytes of its own, which can be kept, sent to another thread, or, with the feature `serde`, read again.
///
/// ```
/// use csicodec::{Event, OwnedEvent, events};
///
/// let kept: Vec<OwnedEvent> = events(b"a\x1b[2A").map(Event::into_owned).collect();
/// assert_eq!(kept[0].as_event(), Event::Text(b"a"));
/// ```
#[derive(Clone, Debug, PartialEq, Eq)]
#[cfg_attr(feature = "serde", derive(serde::Serialize, serde::Deserialize))]
#[non_exhaustive]
pub enum OwnedEvent {
    /// As [`Event::Text`].
    Text(Vec<u8>),
    /// As [`Event::Csi`].
    Csi(CSI),
    /// As [`Event::Esc`].
    Esc(Esc),
    /// As [`Event::Str`].
    Str {
        /// What opened it.
        kind: StringKind,
        /// The data, without what opens and closes the string.
        bytes: Vec<u8>,
        /// Whether it is the first piece.
        first: bool,
        /// Whether it is the last piece.
        last: bool,
    },
    /// As [`Event::Other`].
    Other(Vec<u8>),
}

impl Event<'_> {
    /// The same with bytes of its own.
    pub fn into_owned(self) -> OwnedEvent {
        match self {
            Event::Text(bytes) => OwnedEvent::Text(bytes.to_vec()),
            Event::Csi(action) => OwnedEvent::Csi(action),
            Event::Esc(esc) => OwnedEvent::Esc(esc),
            Event::Str {
                kind,
                bytes,
                first,
                last,
            } => OwnedEvent::Str {
                kind,
                bytes: bytes.to_vec(),
                first,
                last,
            },
            Event::Other(bytes) => OwnedEvent::Other(bytes.to_vec()),
        }
    }
}

impl OwnedEvent {
    /// The event.
    pub fn as_event(&self) -> Event<'_> {
        match self {
            OwnedEvent::Text(bytes) => Event::Text(bytes),
            OwnedEvent::Csi(action) => Event::Csi(action.clone()),
            OwnedEvent::Esc(esc) => Event::Esc(*esc),
            OwnedEvent::Str {
                kind,
                bytes,
                first,
                last,
            } => Event::Str {
                kind: *kind,
                bytes,
                first: *first,
                last: *last,
            },
            OwnedEvent::Other(bytes) => Event::Other(bytes),
        }
    }
}

impl StringKind {
    /// What opened the string that the bytes begin, if they do.
    pub(crate) fn of(bytes: &[u8]) -> Option<Self> {
        match bytes {
            [0x1b, b'P', ..] => Some(StringKind::Dcs),
            [0x1b, b'X', ..] => Some(StringKind::Sos),
            [0x1b, b']', ..] => Some(StringKind::Osc),
            [0x1b, b'^', ..] => Some(StringKind::Pm),
            [0x1b, b'_', ..] => Some(StringKind::Apc),
            _ => None,
        }
    }
}

/// A piece of a control string, without what opens and closes it. It is of the string that was opened last.
pub(crate) fn piece<'a>(string: &mut StringKind, bytes: &'a [u8], last: bool) -> Event<'a> {
    let opened = StringKind::of(bytes);
    *string = opened.unwrap_or(*string);
    let start = if opened.is_some() { 2 } else { 0 };
    let end = match bytes {
        [.., 0x07] if last => 1,
        _ if last => 2,
        _ => 0,
    };
    Event::Str {
        kind: *string,
        bytes: &bytes[start..bytes.len() - end],
        first: opened.is_some(),
        last,
    }
}

/// The escape sequence that the bytes are.
pub(crate) fn escape(bytes: &[u8]) -> Esc {
    match bytes {
        [_, intermediate, control] => Esc::parse(Some(*intermediate), *control),
        [.., control] => Esc::parse(None, *control),
        [] => Esc::parse(None, 0),
    }
}

/// The escape sequence in front and its length, where it is all there: ESC, an intermediate byte or none, and a final byte that neither
/// opens a string nor ends one.
#[inline]
pub(crate) fn front_escape(bytes: &[u8]) -> Option<(Esc, usize)> {
    match *bytes {
        [_, intermediate @ 0x20..=0x2f, control @ 0x30..=0x7e, ..] => {
            Some((Esc::parse(Some(intermediate), control), 3))
        }
        [_, b'P' | b'X' | b'[' | b'\\' | b']' | b'^' | b'_', ..] => None,
        [_, control @ 0x30..=0x7e, ..] => Some((Esc::parse(None, control), 2)),
        _ => None,
    }
}
