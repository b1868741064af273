//! What a terminal sends, event by event.

use crate::event::Event;
use crate::events::Reader;
use crate::raw::{self, Received, Told};
use crate::told::left;

/// How a terminal reports the mouse, where it doesn't by a control sequence.
#[derive(Clone, Copy, Debug, PartialEq, Eq, Hash)]
#[cfg_attr(feature = "serde", derive(serde::Serialize, serde::Deserialize))]
#[non_exhaustive]
pub enum Dialect {
    /// The three characters of a report are a byte each.
    Input = 1,
    /// They are in UTF-8, as while mode 1005 is set.
    Utf8Input = 2,
}

/// An event of what a terminal sends.
#[derive(Clone, Debug, PartialEq, Eq)]
#[cfg_attr(feature = "serde", derive(serde::Serialize))]
#[non_exhaustive]
pub enum InputEvent<'a> {
    /// What output has too: text, an action of a control sequence, a piece of a string, ..
    Output(Event<'a>),
    /// SS3 (`ESC O`) and this character, from `' '` to `'~'`: a key of the keypad, an arrow, or F1 to F4.
    Ss3(char),
    /// A key with modifiers that xterm sends as `CSI number ; modifiers control`, in another form: `ESC O 5 P` (Konsole), `ESC O 1 ; 5 P`
    /// (VTE before 0.38), `ESC ESC [ A`, `ESC ESC O A` and `ESC ESC [ 5 ~` (rxvt, iTerm2), the last three with alt.
    Modified {
        /// The number, 0 to 99.
        number: u8,
        /// 1 and more than the sum of shift (1), alt (2), ctrl (4) and super (8).
        modifiers: u8,
        /// The last character: `'A'` to `'F'`, `'H'`, `'P'` to `'S'`, or `'~'`.
        control: char,
    },
    /// `ESC [ [` and this character, from `' '` to `'~'`: F1 to F5 of Linux' console are `'A'` to `'E'`.
    Linux(char),
    /// `ESC [`, this number, of one digit or two, and `$`: a key with shift, of rxvt.
    Rxvt(u8),
    /// `ESC [ M` and three characters, of which each is 32 more than its number.
    Mouse {
        /// The button, with 4 for shift, 8 for alt and 16 for control; 3 for a release, 32 more for a movement, and 64 for a wheel.
        button: u16,
        /// The column, from 1.
        column: u16,
        /// The line, from 1.
        line: u16,
    },
    /// ESC and this character: a key with alt.
    Alt(char),
    /// `ESC [ I`: the terminal got the focus (mode 1004).
    FocusGained,
    /// ESC alone.
    Escape,
}

/// The three numbers of a mouse report; what is below 32 counts as 32.
fn mouse<'a>(dialect: Dialect, bytes: &[u8]) -> InputEvent<'a> {
    let mut rest = bytes[3..].iter().map(|byte| u16::from(*byte));
    let mut number = || {
        let first = rest.next().unwrap_or(0);
        let character = match dialect {
            Dialect::Utf8Input if first >= 0xc0 => {
                (first & 0x1f) << 6 | rest.next().unwrap_or(0) & 0x3f
            }
            _ => first,
        };
        character.saturating_sub(32)
    };
    InputEvent::Mouse {
        button: number(),
        column: number(),
        line: number(),
    }
}

/// The key with modifiers that these bytes are: a digit stands for them ahead of the last character, and behind a second ESC they are alt.
fn modified<'a>(control: char, bytes: &[u8]) -> InputEvent<'a> {
    let digits = |bytes: &[u8]| {
        bytes
            .iter()
            .fold(0, |number, byte| number * 10 + (byte - b'0'))
    };
    let (number, modifiers) = match bytes {
        [0x1b, 0x1b, _, digits_of @ .., b'~'] => (digits(digits_of), 3),
        [0x1b, 0x1b, ..] => (1, 3),
        [.., modifiers, _] => (1, digits(&[*modifiers])),
        _ => (1, 1),
    };
    InputEvent::Modified {
        number,
        modifiers,
        control,
    }
}

/// The key or the report that these bytes are.
fn key<'a>(dialect: Dialect, received: &Received, bytes: &[u8]) -> InputEvent<'a> {
    let character = char::from_u32(received.value).unwrap_or(char::REPLACEMENT_CHARACTER);
    match received.kind {
        7 => InputEvent::Ss3(character),
        8 => InputEvent::Linux(character),
        9 => InputEvent::Rxvt(received.value as u8),
        10 => mouse(dialect, bytes),
        11 => InputEvent::Alt(character),
        13 => modified(character, bytes),
        14 => InputEvent::FocusGained,
        _ => InputEvent::Escape,
    }
}

impl Reader {
    /// The next event of input at the front of the bytes, which go on behind it; none where it depends on what follows.
    pub(crate) fn next_input<'a>(
        &mut self,
        dialect: Dialect,
        rest: &mut &'a [u8],
    ) -> Option<InputEvent<'a>> {
        if self.given < self.count {
            return self.action().map(InputEvent::Output);
        }
        let received = (self.room).input(dialect as u32, self.mode, self.looked, rest);
        if received.status == 0 && received.kind > 6 {
            (self.mode, self.looked) = (received.mode, received.looked);
            let (bytes, behind) = rest.split_at(received.used);
            *rest = behind;
            return Some(key(dialect, &received, bytes));
        }
        let told = Told {
            status: received.status,
            kind: received.kind,
            mode: received.mode,
            looked: received.looked,
            used: received.used,
            actions: received.actions,
            params: received.params,
        };
        self.event(told, rest).map(InputEvent::Output)
    }

    /// The key that bytes which wait are, if they are one, and how many bytes it has.
    pub(crate) fn pause<'a>(&mut self, bytes: &[u8]) -> Option<(InputEvent<'a>, usize)> {
        let received = raw::pause(bytes);
        if received.status != 0 {
            return None;
        }
        (self.mode, self.looked) = (received.mode, received.looked);
        let front = &bytes[..received.used];
        Some((key(Dialect::Input, &received, front), received.used))
    }
}

/// An iterator of the events of a slice of input.
#[derive(Clone, Debug)]
pub struct Inputs<'a> {
    reader: Reader,
    dialect: Dialect,
    rest: &'a [u8],
}

/// The events of all that a terminal sent. An ESC at the end is a key; what else is unfinished there is `Other`, and the beginning of a
/// character is text. For input as it comes
/// there are [`Parser::advance_input`](crate::Parser::advance_input) and [`Parser::pause`](crate::Parser::pause).
///
/// ```
/// use csicodec::{Dialect, InputEvent, inputs};
///
/// let all: Vec<_> = inputs(Dialect::Input, b"\x1bOP\x1b[M !\"\x1bx\x1b").collect();
/// let mouse = InputEvent::Mouse { button: 0, column: 1, line: 2 };
/// assert_eq!(all, [InputEvent::Ss3('P'), mouse, InputEvent::Alt('x'), InputEvent::Escape]);
/// ```
pub fn inputs(dialect: Dialect, bytes: &[u8]) -> Inputs<'_> {
    Inputs {
        reader: Reader::new(true),
        dialect,
        rest: bytes,
    }
}

impl<'a> Iterator for Inputs<'a> {
    type Item = InputEvent<'a>;

    fn next(&mut self) -> Option<InputEvent<'a>> {
        let event = self.reader.next_input(self.dialect, &mut self.rest);
        if event.is_some() || self.rest.is_empty() {
            return event;
        }
        let held = core::mem::take(&mut self.rest);
        let Some((key, used)) = self.reader.pause(held) else {
            return Some(InputEvent::Output(left(held)));
        };
        self.rest = &held[used..];
        Some(key)
    }
}
