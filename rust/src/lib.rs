//! A typed codec for the control sequences (CSI) of terminals, over a proved static library.
//!
//! ```
//! use csicodec::{CSI, Intensity, Sgr, actions, encode};
//!
//! let all: Vec<CSI> = actions(b"\x1b[1;3m").collect::<Result<_, _>>()?;
//! assert_eq!(all[0], CSI::Sgr(Sgr::Intensity(Intensity::Bold)));
//! assert_eq!(encode(&all)?, b"\x1b[1m\x1b[3m");
//! assert_eq!(all[1].to_string(), "\x1b[3m");
//! # Ok::<(), csicodec::Error>(())
//! ```
#![deny(missing_docs)]
#![no_std]

extern crate alloc;
#[cfg(feature = "std")]
extern crate std;

mod actions;
mod error;
mod esc;
mod event;
mod events;
#[cfg(feature = "std")]
mod explain;
mod filter;
mod grid;
mod html;
mod input;
#[cfg(feature = "std")]
mod io;
mod key;
mod key_codes;
mod kinds;
mod known;
mod lines;
mod numbers;
mod osc;
mod osc_kinds;
mod parser;
mod pen;
mod pending;
mod room;
mod rows;
mod spans;
mod strip;
pub mod termwiz;
mod text;
mod told;
mod types;
mod values;

pub use actions::*;
pub use error::Error;
pub use esc::{Esc, EscCode};
pub use event::{Event, OwnedEvent, StringKind};
pub use events::{Events, events};
#[cfg(feature = "std")]
pub use explain::{Explain, explain};
pub use filter::{Filter, compact, compact_semicolons, filter};
pub use html::{Markup, Palette, html, overwrite, overwrite_styled};
pub use input::{Dialect, InputEvent, Inputs, inputs};
#[cfg(feature = "std")]
pub use io::{CleanWriter, HtmlWriter, Rewriting, StreamReader, StreamWriter, StripWriter};
pub use key::{Key, KeyCode, KeyEncoding, KeyEvent, KeyParser, Keys, keys};
pub use known::{Known, KnownKind};
pub use lines::Lines;
pub use osc::{Osc, OscKind, OscReader};
pub use parser::Parser;
pub use pen::Pen;
pub use spans::{Span, SpanKind, Spans, spans};
pub use strip::{Cleaner, Depth, Passing, clean, clean_with, strip};
pub use text::characters;
pub use types::*;
pub use values::*;

/// The package's page, whose program is tried as it stands there.
#[cfg(doctest)]
#[doc = include_str!("../README.md")]
struct Page;

use alloc::{vec, vec::Vec};
use core::fmt;
use csicodec_sys as raw;
use error::refusal;
use room::Room;

/// The normal form of the bytes, which are control sequences one after the other: one sequence for each action.
pub fn normalise(bytes: &[u8]) -> Result<Vec<u8>, Error> {
    let mut out = vec![0; bytes.len() * 2 + 16];
    loop {
        let answer = raw::normalise(bytes, &mut out);
        if answer.status != 0 {
            return Err(refusal(answer.status, answer.start, answer.at));
        }
        let fits = answer.needed <= out.len();
        out.resize(answer.needed, 0);
        if fits {
            return Ok(out);
        }
    }
}

/// An iterator of the actions of some bytes, in order. After an `Err` there are no more.
#[derive(Clone, Debug)]
pub struct Actions<'a> {
    rest: &'a [u8],
    start: usize,
    room: Room,
    given: usize,
    count: usize,
}

/// The actions of the bytes, which are control sequences one after the other.
pub fn actions(bytes: &[u8]) -> Actions<'_> {
    Actions {
        rest: bytes,
        start: 0,
        room: Room::new(),
        given: 0,
        count: 0,
    }
}

impl Actions<'_> {
    /// The actions of the sequence at the front.
    fn read(&mut self) -> Result<(), Error> {
        let answer = self.room.next(self.rest);
        let answer = self.room.whole(answer, self.rest);
        if answer.status != 0 {
            self.rest = &[];
            return Err(refusal(answer.status, self.start, answer.at));
        }
        self.rest = &self.rest[answer.used..];
        self.start += answer.used;
        self.given = 0;
        self.count = answer.actions;
        Ok(())
    }
}

impl Iterator for Actions<'_> {
    type Item = Result<CSI, Error>;

    fn next(&mut self) -> Option<Self::Item> {
        while self.given == self.count {
            if self.rest.is_empty() {
                return None;
            }
            if let Err(error) = self.read() {
                return Some(Err(error));
            }
        }
        self.given += 1;
        Some(Ok(self.room.action(self.given - 1)))
    }
}

/// The sequence at the front of some bytes.
#[derive(Clone, Debug, PartialEq, Eq)]
#[non_exhaustive]
pub struct Front {
    /// Its actions, at least one.
    pub actions: Vec<CSI>,
    /// How many bytes it has.
    pub used: usize,
}

/// The sequence at the front of the bytes, whatever follows it. `Error::Truncated` means that the final byte hasn't come yet; in
/// each `Err` `start` is 0. It takes memory only for the list that it returns, and for long sequences. For a whole stream use
/// [`events`], and for many sequences [`actions`], which uses its memory again for each.
///
/// ```
/// use csicodec::{CSI, Cursor, Edit, Error, front};
///
/// let bytes = b"\x1b[2A\x1b[3@text";
/// let first = front(bytes)?;
/// assert_eq!(first.actions, [CSI::from(Cursor::Up(2))]);
/// let second = front(&bytes[first.used..])?;
/// assert_eq!(second.actions, [CSI::from(Edit::InsertCharacter(3))]);
/// assert_eq!(&bytes[first.used + second.used..], b"text");
/// assert_eq!(front(b"\x1b[2"), Err(Error::Truncated { start: 0, at: 3 }));
/// # Ok::<(), Error>(())
/// ```
pub fn front(bytes: &[u8]) -> Result<Front, Error> {
    let mut near = [raw::Action::default(); 4];
    let mut params = [raw::Param::default(); 4];
    let answer = raw::next(bytes, &mut near, &mut params);
    if answer.status != 0 {
        return Err(refusal(answer.status, 0, answer.at));
    }
    if answer.actions <= near.len() && answer.params <= params.len() {
        let structs = near[..answer.actions].iter();
        return Ok(Front {
            actions: structs.map(|given| room::action(given, &params)).collect(),
            used: answer.used,
        });
    }
    let mut room = Room::new();
    let answer = room.next(bytes);
    let answer = room.whole(answer, bytes);
    if answer.status != 0 {
        return Err(refusal(answer.status, 0, answer.at));
    }
    Ok(Front {
        actions: (0..answer.actions).map(|at| room.action(at)).collect(),
        used: answer.used,
    })
}

/// Appends the joined texts of the actions. After an `Err` nothing is appended.
pub fn encode_to(actions: &[CSI], out: &mut Vec<u8>) -> Result<(), Error> {
    let mut params = Vec::new();
    let structs: Vec<_> = actions
        .iter()
        .map(|action| rows::struct_of(action, &mut params))
        .collect();
    encode_structs(raw::encode, &structs, &params, actions.len() * 12 + 16, out)
}

/// The same in fewer bytes: a text that is no longer than that of [`encode_to`], with attributes side by side in one sequence. It has
/// the same actions, if each of them is read back from its own text ([`CSI::is_canonical`]).
///
/// ```
/// use csicodec::{CSI, Cursor, Sgr, encode_compact_to};
///
/// let mut out = Vec::new();
/// encode_compact_to(&[CSI::from(Sgr::Reset), CSI::from(Sgr::Italic(true)), CSI::from(Cursor::Up(1))], &mut out)?;
/// assert_eq!(out, b"\x1b[;3m\x1b[A");
/// # Ok::<(), csicodec::Error>(())
/// ```
pub fn encode_compact_to(actions: &[CSI], out: &mut Vec<u8>) -> Result<(), Error> {
    let mut params = Vec::new();
    let structs: Vec<_> = actions
        .iter()
        .map(|action| rows::struct_of(action, &mut params))
        .collect();
    let room = actions.len() * 12 + 16;
    encode_structs(raw::encode_compact, &structs, &params, room, out)
}

/// A call that writes structs and their tokens.
type Encoding = fn(&[raw::Action], &[raw::Param], &mut [u8]) -> raw::Encoded;

/// Appends what the call writes for structs and their tokens, with so much room at first.
fn encode_structs(
    call: Encoding,
    structs: &[raw::Action],
    params: &[raw::Param],
    room: usize,
    out: &mut Vec<u8>,
) -> Result<(), Error> {
    let start = out.len();
    let mut room = room;
    loop {
        out.resize(start + room, 0);
        let answer = call(structs, params, &mut out[start..]);
        let error = match answer.status {
            0 if answer.needed <= room => {
                out.truncate(start + answer.needed);
                return Ok(());
            }
            0 => {
                room = answer.needed;
                continue;
            }
            6 => Error::NoAction { at: answer.at },
            _ => Error::Memory,
        };
        out.truncate(start);
        return Err(error);
    }
}

/// The joined texts of the actions.
pub fn encode(actions: &[CSI]) -> Result<Vec<u8>, Error> {
    let mut out = Vec::new();
    encode_to(actions, &mut out)?;
    Ok(out)
}

impl Esc {
    /// The code with these bytes behind ESC, or the two as they are if there is no such code.
    pub fn parse(intermediate: Option<u8>, control: u8) -> Esc {
        let number = u16::from_be_bytes([intermediate.unwrap_or(0), control]);
        match EscCode::from_i64(i64::from(number)) {
            Some(code) => Esc::Code(code),
            None => Esc::Unspecified {
                intermediate,
                control,
            },
        }
    }
}

/// Writes ESC and its characters.
impl fmt::Display for Esc {
    fn fmt(&self, f: &mut fmt::Formatter<'_>) -> fmt::Result {
        let (intermediate, control) = match *self {
            Esc::Unspecified {
                intermediate,
                control,
            } => (intermediate, control),
            Esc::Code(code) => match (code as u16).to_be_bytes() {
                [0, control] => (None, control),
                [intermediate, control] => (Some(intermediate), control),
            },
        };
        f.write_str("\x1b")?;
        if let Some(byte) = intermediate {
            write!(f, "{}", char::from(byte))?;
        }
        write!(f, "{}", char::from(control))
    }
}

impl CSI {
    /// Whether the text of this value is read as this one value. This holds for all actions that are read, except left and right
    /// margins from 1 to 4294967295 (DECSLRM) and requests for the terminal's parameters (DECREQTPARM). A mode, an extension or an
    /// item of graphics with the number of a named one counts as the named one.
    pub fn is_canonical(&self) -> Result<bool, Error> {
        let mut params = Vec::new();
        let given = rows::struct_of(self, &mut params);
        let answer = raw::is_canonical(&given, &params);
        match answer.status {
            0 => Ok(answer.canonical == 1),
            6 => Err(Error::NoAction { at: 0 }),
            _ => Err(Error::Memory),
        }
    }
}

/// Writes the text: `ESC [`, the parameters and the final character. It takes memory only for more than 64 bytes and for lists.
impl fmt::Display for CSI {
    fn fmt(&self, f: &mut fmt::Formatter<'_>) -> fmt::Result {
        let mut params = Vec::new();
        let given = [rows::struct_of(self, &mut params)];
        let mut near = [0; 64];
        let mut far = Vec::new();
        let answer = raw::encode(&given, &params, &mut near);
        let text = match answer.status {
            0 if answer.needed <= near.len() => &near[..answer.needed],
            0 => {
                encode_structs(raw::encode, &given, &params, answer.needed, &mut far)
                    .map_err(|_| fmt::Error)?;
                &far[..]
            }
            _ => return Err(fmt::Error),
        };
        f.write_str(core::str::from_utf8(text).map_err(|_| fmt::Error)?)
    }
}
