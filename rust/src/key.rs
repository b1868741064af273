//! Keys as one type.

pub use crate::key_codes::KeyCode;
use crate::pending::LIMIT;
use crate::{KeyModifiers, raw};
use alloc::string::String;
use alloc::vec::Vec;

/// How many characters a key types at most.
const MOST: usize = 32;

/// What happens to a key.
#[derive(Clone, Copy, Debug, PartialEq, Eq, Hash)]
#[cfg_attr(feature = "serde", derive(serde::Serialize, serde::Deserialize))]
pub enum KeyEvent {
    /// It goes down. All encodings but kitty's and Win32's know only this.
    Press,
    /// It is held down.
    Repeat,
    /// It goes up.
    Release,
}

/// How a terminal said which key it is.
#[derive(Clone, Copy, Debug, PartialEq, Eq, Hash)]
#[cfg_attr(feature = "serde", derive(serde::Serialize, serde::Deserialize))]
#[non_exhaustive]
pub enum KeyEncoding {
    /// Characters, controls, ESC ahead for alt, SS3 and xterm's control sequences with modifiers.
    Legacy,
    /// xterm's resource modifyOtherKeys.
    ModifyOtherKeys,
    /// kitty's protocol.
    Kitty,
    /// Win32-input-mode, of Windows' console.
    Win32,
    /// What rxvt has of its own.
    Rxvt,
    /// What Linux' console has of its own.
    Linux,
}

/// A key that was pressed, repeated or released, whichever encoding it came in.
///
/// ```
/// use csicodec::{Key, KeyCode, KeyModifiers};
///
/// let Some(Ok((key, 6))) = Key::read(b"\x1b[1;5A", false) else { panic!() };
/// assert_eq!((key.code, key.modifiers), (KeyCode::Up, KeyModifiers::CTRL));
/// ```
#[derive(Clone, Debug, PartialEq, Eq, Hash)]
#[cfg_attr(feature = "serde", derive(serde::Serialize, serde::Deserialize))]
pub struct Key {
    /// Which key.
    pub code: KeyCode,
    /// What is held down with it.
    pub modifiers: KeyModifiers,
    /// What happens to it.
    pub event: KeyEvent,
    /// How the terminal said it.
    pub encoding: KeyEncoding,
    /// What it types; nothing where the encoding doesn't say.
    pub text: String,
}

impl Key {
    fn of(given: &raw::Key, typed: &[u32]) -> Key {
        Key {
            code: KeyCode::of(given.code, given.value),
            modifiers: KeyModifiers::from_bits_retain(given.modifiers as u16),
            event: match given.event {
                1 => KeyEvent::Repeat,
                2 => KeyEvent::Release,
                _ => KeyEvent::Press,
            },
            encoding: match given.encoding {
                1 => KeyEncoding::ModifyOtherKeys,
                2 => KeyEncoding::Kitty,
                3 => KeyEncoding::Win32,
                4 => KeyEncoding::Rxvt,
                5 => KeyEncoding::Linux,
                _ => KeyEncoding::Legacy,
            },
            text: typed.iter().filter_map(|it| char::from_u32(*it)).collect(),
        }
    }

    /// The key in front of what a terminal sent, and how many bytes it has; `Err` says how many an event has that is no key, as an
    /// answer or a report of the mouse. `None` where it depends on what follows: with `more`, ESC at the end waits too.
    pub fn read(bytes: &[u8], more: bool) -> Option<Result<(Key, usize), usize>> {
        let mut typed = [0; MOST];
        let given = raw::key(more.into(), bytes, &mut typed);
        match given.status {
            0 => Some(Ok((Key::of(&given, &typed[..given.typed]), given.used))),
            6 => Some(Err(given.used)),
            _ => None,
        }
    }
}

/// What is read of input so far: whether a control string is open, in which an ESC is no key.
#[derive(Clone, Copy, Debug, Default)]
struct Reading {
    mode: u32,
}

impl Reading {
    /// How many bytes in front go on with the string that is open, or open one: 0 if none does.
    fn string(&mut self, bytes: &[u8]) -> usize {
        let span = raw::span(self.mode, LIMIT, bytes);
        if span.status != 0 {
            return 0;
        }
        let is_string = span.kind == 3;
        self.mode = if is_string { span.mode } else { 0 };
        if is_string { span.used } else { 0 }
    }

    /// The key in front, or none where the bytes in front are none, and how many it has; `None` where that depends on what follows.
    fn next(&mut self, bytes: &[u8], more: bool) -> Option<(Option<Key>, usize)> {
        if self.mode != 0 {
            let used = self.string(bytes);
            if used > 0 {
                return Some((None, used));
            }
            if self.mode != 0 {
                return None;
            }
        }
        Some(match Key::read(bytes, more)? {
            Ok((key, used)) => (Some(key), used),
            Err(used) => {
                self.string(&bytes[..used]);
                (None, used)
            }
        })
    }
}

/// An iterator of keys.
#[derive(Clone, Debug)]
pub struct Keys<'a> {
    rest: &'a [u8],
    reading: Reading,
}

/// The keys of all that a terminal sent; `Err` has the bytes of an event that is no key, and what is unfinished at the end. An ESC at the
/// end is a key, but in a control string.
///
/// ```
/// use csicodec::{KeyCode, keys};
///
/// let codes: Vec<_> = keys(b"a\x1bOP\x1b").map(|key| key.unwrap().code).collect();
/// assert_eq!(codes, [KeyCode::Char('a'), KeyCode::F(1), KeyCode::Escape]);
/// ```
pub fn keys(bytes: &[u8]) -> Keys<'_> {
    Keys {
        rest: bytes,
        reading: Reading::default(),
    }
}

impl<'a> Iterator for Keys<'a> {
    type Item = Result<Key, &'a [u8]>;

    fn next(&mut self) -> Option<Self::Item> {
        if self.rest.is_empty() {
            return None;
        }
        let (key, used) = self
            .reading
            .next(self.rest, false)
            .unwrap_or((None, self.rest.len()));
        let (bytes, rest) = self.rest.split_at(used);
        self.rest = rest;
        Some(key.ok_or(bytes))
    }
}

/// Reads the keys of what a terminal sends, as it comes. What is no key is told as its bytes.
///
/// ```
/// use csicodec::{KeyCode, KeyParser};
///
/// let (mut parser, mut codes) = (KeyParser::new(), Vec::new());
/// parser.advance(b"\x1b[A\x1b", |key| codes.extend(key.map(|key| key.code)));
/// parser.pause(|key| codes.extend(key.map(|key| key.code)));
/// assert_eq!(codes, [KeyCode::Up, KeyCode::Escape]);
/// ```
#[derive(Clone, Debug, Default)]
pub struct KeyParser {
    held: Vec<u8>,
    reading: Reading,
}

impl KeyParser {
    /// One that has read nothing.
    pub fn new() -> Self {
        KeyParser::default()
    }

    /// Takes the next bytes, and tells each key that is sure now, and the bytes of what is none. An ESC at the end is held.
    pub fn advance(&mut self, bytes: &[u8], tell: impl FnMut(Result<Key, &[u8]>)) {
        self.held.extend_from_slice(bytes);
        self.read(true, tell);
    }

    /// Tells what is held, where nothing more came in time: ESC alone is a key, and so is ESC with one character. Else it goes on waiting.
    pub fn pause(&mut self, tell: impl FnMut(Result<Key, &[u8]>)) {
        self.read(false, tell);
    }

    /// The end of the input: tells what is held as keys, and what is left as bytes.
    pub fn finish(mut self, mut tell: impl FnMut(Result<Key, &[u8]>)) {
        self.read(false, &mut tell);
        if !self.held.is_empty() {
            tell(Err(&self.held));
        }
    }

    fn read(&mut self, more: bool, mut tell: impl FnMut(Result<Key, &[u8]>)) {
        let mut rest = self.held.as_slice();
        while !rest.is_empty() {
            let Some((key, used)) = self.reading.next(rest, more) else {
                break;
            };
            tell(key.ok_or(&rest[..used]));
            rest = &rest[used..];
        }
        let used = self.held.len() - rest.len();
        self.held.drain(..used);
    }
}
