//! A terminal's stream, event by event.

use crate::event::{Event, StringKind, front_escape};
use crate::pending::LIMIT;
use crate::room::Room;
use crate::text::{ahead_of_esc, first_esc};

pub(crate) const TEXT: u32 = 0;

/// What the bytes before a place leave open, and room that is kept.
#[derive(Clone, Debug)]
pub(crate) struct Reader {
    /// Whether a control is open, or a sequence has actions that aren't given yet.
    pub(crate) open: bool,
    pub(crate) mode: u32,
    pub(crate) looked: usize,
    /// Whether nothing follows the bytes.
    pub(crate) ends: bool,
    /// Whether actions are those that terminals take a sequence for.
    pub(crate) as_terminals: bool,
    /// Of the string that is open.
    pub(crate) string: StringKind,
    /// The actions of a sequence that aren't given yet, from `given` to `count`. Its bytes are used with the first one.
    pub(crate) given: usize,
    pub(crate) count: usize,
    pub(crate) room: Room,
}

impl Reader {
    pub(crate) fn new(ends: bool) -> Self {
        Reader {
            open: false,
            mode: TEXT,
            looked: 0,
            ends,
            as_terminals: false,
            string: StringKind::Osc,
            given: 0,
            count: 0,
            room: Room::new(),
        }
    }

    /// The next event at the front of the bytes, which go on behind it; none where it depends on what follows.
    #[inline]
    pub(crate) fn next<'a>(&mut self, rest: &mut &'a [u8]) -> Option<Event<'a>> {
        if self.open {
            return self.further(rest);
        }
        if rest.starts_with(b"\x1b[") {
            return self.sequence(rest);
        }
        match **rest {
            [] => None,
            [0x1b, ..] => self.escape(rest),
            _ => self.text(rest),
        }
    }

    /// Text up to an ESC: among the first eight bytes, as mostly, or further on.
    #[inline]
    fn text<'a>(&mut self, rest: &mut &'a [u8]) -> Option<Event<'a>> {
        let ahead = match rest.first_chunk().and_then(first_esc) {
            Some(ahead) => ahead,
            None => match self.far_text(rest) {
                0 => return self.told(rest),
                ahead => ahead,
            },
        };
        let (text, behind) = rest.split_at(ahead);
        *rest = behind;
        Some(Event::Text(text))
    }

    /// How long text is; 0 where it may end in a part of a character, which waits.
    #[inline(never)]
    fn far_text(&self, bytes: &[u8]) -> usize {
        let ahead = ahead_of_esc(bytes);
        let is_cut = ahead == bytes.len() && bytes[ahead - 1] >= 0x80 && !self.ends;
        if is_cut { 0 } else { ahead }
    }

    /// A control sequence that is all there, with one action, as most are.
    #[inline]
    pub(crate) fn sequence<'a>(&mut self, rest: &mut &'a [u8]) -> Option<Event<'a>> {
        let front = self.room.next(&rest[..rest.len().min(LIMIT)]);
        if front.actions != 1 || front.params != 0 || self.as_terminals {
            return self.several(front, rest);
        }
        *rest = &rest[front.used..];
        self.room.first()
    }

    /// An escape sequence that is all there.
    #[inline]
    fn escape<'a>(&mut self, rest: &mut &'a [u8]) -> Option<Event<'a>> {
        let Some((esc, len)) = front_escape(rest) else {
            return self.told(rest);
        };
        *rest = &rest[len..];
        Some(Event::Esc(esc))
    }
}

/// An iterator of the events of a slice.
#[derive(Clone, Debug)]
pub struct Events<'a> {
    reader: Reader,
    rest: &'a [u8],
}

/// The events of a whole stream. A control sequence of more than 65,536 bytes, or an unfinished one, is `Other`.
///
/// ```
/// use csicodec::{CSI, Cursor, Event, events};
///
/// let all: Vec<_> = events(b"a\x1b[2A").collect();
/// assert_eq!(all, [Event::Text(b"a"), Event::Csi(CSI::from(Cursor::Up(2)))]);
/// ```
pub fn events(bytes: &[u8]) -> Events<'_> {
    Events {
        reader: Reader::new(true),
        rest: bytes,
    }
}

impl Events<'_> {
    /// The events with the actions that terminals take a sequence for. They are others only where some of its parameters aren't read: an
    /// unknown attribute is an `Unspecified` of its own, and the next one goes on; a parameter that is left out is the default, and one that
    /// the function doesn't have is passed over; a number from 2^32 on is 4294967295.
    ///
    /// ```
    /// use csicodec::{CSI, Cursor, Event, events};
    ///
    /// let all: Vec<_> = events(b"\x1b[;B").as_terminals().collect();
    /// assert_eq!(all, [Event::Csi(CSI::from(Cursor::Down(1)))]);
    /// ```
    pub fn as_terminals(mut self) -> Self {
        self.reader.as_terminals = true;
        self
    }
}

impl<'a> Iterator for Events<'a> {
    type Item = Event<'a>;

    #[inline]
    fn next(&mut self) -> Option<Event<'a>> {
        self.reader.next(&mut self.rest)
    }
}
