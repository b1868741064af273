//! A stream that comes in pieces.

use crate::events::{Reader, TEXT};
use crate::{Dialect, Event, InputEvent};
use alloc::vec::Vec;
use core::ops::ControlFlow;

/// Reads a stream that comes in pieces. How it is cut changes only where text, strings and malformed controls are cut; it never cuts
/// a character of text. A stream is UTF-8: bytes 80 to 9f are text, never 8-bit controls, so 9b isn't CSI.
///
/// ```
/// use csicodec::{Event, Parser};
///
/// let mut parser = Parser::new();
/// let mut texts = 0;
/// for piece in [b"a\x1b[".as_slice(), b"1mb"] {
///     parser.advance(piece, |event| texts += u32::from(matches!(event, Event::Text(_))));
/// }
/// assert_eq!(texts, 2);
/// ```
#[derive(Clone, Debug)]
pub struct Parser {
    reader: Reader,
    held: Vec<u8>,
}

impl Default for Parser {
    fn default() -> Self {
        Parser::new()
    }
}

impl Parser {
    /// A new stream. A control sequence of more than 65,536 bytes is `Other`.
    pub fn new() -> Self {
        Parser {
            reader: Reader::new(false),
            held: Vec::new(),
        }
    }

    /// The same with the actions that terminals take a sequence for, as [`Events::as_terminals`](crate::Events::as_terminals) has them.
    pub fn as_terminals(mut self) -> Self {
        self.reader.as_terminals = true;
        self
    }

    /// Takes the next bytes, and passes each event that is sure now. The other bytes are held: fewer than 65,536.
    pub fn advance(&mut self, bytes: &[u8], mut tell: impl FnMut(Event<'_>)) {
        if self.held.is_empty() {
            let used = run(&mut self.reader, bytes, &mut tell);
            self.held.extend_from_slice(&bytes[used..]);
        } else {
            self.held.extend_from_slice(bytes);
            let used = run(&mut self.reader, &self.held, &mut tell);
            self.held.drain(..used);
        }
    }

    /// Takes the next bytes until `tell` breaks, and answers how many it took: all of them, or those up to the event that `tell` broke at. The
    /// others may be passed later, as at the next frame; the further actions of a sequence are passed first then.
    ///
    /// ```
    /// use csicodec::{Event, Parser};
    /// use std::ops::ControlFlow;
    ///
    /// let mut parser = Parser::new();
    /// let used = parser.advance_until(b"one\x1b[2Atwo", |event| match event {
    ///     Event::Csi(_) => ControlFlow::Break(()),
    ///     _ => ControlFlow::Continue(()),
    /// });
    /// assert_eq!(used, 7);
    /// assert!(parser.is_ground());
    /// ```
    pub fn advance_until<F: FnMut(Event<'_>) -> ControlFlow<()>>(
        &mut self,
        bytes: &[u8],
        mut tell: F,
    ) -> usize {
        let before = self.held.len();
        self.held.extend_from_slice(bytes);
        let mut rest = self.held.as_slice();
        let mut broken = false;
        while !broken {
            let Some(event) = self.reader.next(&mut rest) else {
                break;
            };
            broken = tell(event).is_break();
        }
        let used = self.held.len() - rest.len();
        let taken = if broken {
            used.max(before)
        } else {
            self.held.len()
        };
        self.held.truncate(taken);
        self.held.drain(..used);
        taken - before
    }

    /// Whether nothing is open and nothing is held, as at the beginning of a stream: what comes next is read by itself.
    pub fn is_ground(&self) -> bool {
        self.held.is_empty() && !self.reader.open && self.reader.mode == TEXT
    }

    /// Forgets what is open and what is held, of which nothing is passed. Whether it reads as terminals do stays.
    pub fn reset(&mut self) {
        let as_terminals = self.reader.as_terminals;
        self.reader = Reader::new(false);
        self.reader.as_terminals = as_terminals;
        self.held.clear();
    }

    /// Takes the next bytes that a terminal sent, and passes each event that is sure now: [`inputs`](crate::inputs) says what these are.
    /// An ESC at the end is held. A parser is for input or for output, not for both.
    pub fn advance_input(
        &mut self,
        dialect: Dialect,
        bytes: &[u8],
        mut tell: impl FnMut(InputEvent<'_>),
    ) {
        self.held.extend_from_slice(bytes);
        let mut rest = self.held.as_slice();
        while let Some(event) = self.reader.next_input(dialect, &mut rest) {
            tell(event);
        }
        let used = self.held.len() - rest.len();
        self.held.drain(..used);
    }

    /// Takes what is held as keys, and passes them, as far as it is ESC alone, ESC and a character of ASCII, or SS3 and a digit: for a
    /// caller that waited, and no more input came.
    pub fn pause(&mut self, mut tell: impl FnMut(InputEvent<'_>)) {
        while let Some((event, used)) = self.reader.pause(&self.held) {
            tell(event);
            self.held.drain(..used);
        }
    }

    /// The bytes that are held. At the end of the stream they are an unfinished control or an incomplete character.
    pub fn held(&self) -> &[u8] {
        &self.held
    }

    /// The end of the stream: passes what is held as an event.
    pub fn finish(mut self, mut tell: impl FnMut(Event<'_>)) {
        self.reader.ends = true;
        run(&mut self.reader, &self.held, &mut tell);
    }
}

fn run<F: FnMut(Event<'_>)>(reader: &mut Reader, bytes: &[u8], tell: &mut F) -> usize {
    let mut rest = bytes;
    while let Some(event) = reader.next(&mut rest) {
        tell(event);
    }
    bytes.len() - rest.len()
}
