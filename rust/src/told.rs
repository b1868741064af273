//! The events of a stream that take longer: more than one action of a sequence, and what the library tells.

use crate::event::{Event, escape, piece};
use crate::events::{Reader, TEXT};
use crate::pending::LIMIT;
use crate::raw::{Front, Told};
use core::mem::take;

/// What is left at the end of a stream, at least one byte: an unfinished control, or the beginning of a character, which is text.
pub(crate) fn left(bytes: &[u8]) -> Event<'_> {
    match bytes[0] {
        0x1b => Event::Other(bytes),
        _ => Event::Text(bytes),
    }
}

/// How long text in front is where nothing follows the bytes, and so many are text that is sure: the beginning of a character at their end goes on with it.
pub(crate) fn whole_text(used: usize, bytes: &[u8]) -> usize {
    match bytes.get(used) {
        Some(0x1b) | None => used,
        Some(_) => bytes.len(),
    }
}

impl Reader {
    /// A control sequence with several actions, or with tokens, or one that is refused: then it has no actions.
    #[inline(never)]
    pub(crate) fn several<'a>(&mut self, front: Front, rest: &mut &'a [u8]) -> Option<Event<'a>> {
        let front = self.room.whole(front, &rest[..rest.len().min(LIMIT)]);
        if front.actions == 0 {
            return self.told(rest);
        }
        let (bytes, behind) = rest.split_at(front.used);
        *rest = behind;
        self.first_of(front.actions, bytes)
    }

    /// The next event where something is open.
    #[inline(never)]
    pub(crate) fn further<'a>(&mut self, rest: &mut &'a [u8]) -> Option<Event<'a>> {
        if self.given < self.count {
            return self.action();
        }
        self.told(rest)
    }

    /// The next event, as the library tells it. Where nothing follows, what is left is told too.
    #[inline(never)]
    pub(crate) fn told<'a>(&mut self, rest: &mut &'a [u8]) -> Option<Event<'a>> {
        let told = self.room.event(self.mode, self.looked, rest);
        let event = self.event(told, rest);
        if event.is_none() && self.ends && !rest.is_empty() {
            return Some(left(take(rest)));
        }
        event
    }

    /// The event that was told.
    pub(crate) fn event<'a>(&mut self, told: Told, rest: &mut &'a [u8]) -> Option<Event<'a>> {
        self.looked = told.looked;
        if told.status == 0 {
            self.mode = told.mode;
        }
        self.open = self.mode != TEXT || self.looked != 0;
        if told.status != 0 {
            return None;
        }
        let used = match told.kind {
            1 if self.ends => whole_text(told.used, rest),
            _ => told.used,
        };
        let (bytes, behind) = rest.split_at(used);
        *rest = behind;
        if told.kind == 2 {
            return self.first_of(told.actions, bytes);
        }
        Some(match told.kind {
            1 => Event::Text(bytes),
            3 => Event::Esc(escape(bytes)),
            4 => piece(&mut self.string, bytes, self.mode == TEXT),
            6 => Event::Text(&behind[told.looked - 1..told.looked]),
            _ => Event::Other(bytes),
        })
    }

    /// The first action of a sequence, of which so many stand in the room.
    fn first_of<'a>(&mut self, count: usize, bytes: &[u8]) -> Option<Event<'a>> {
        self.given = 0;
        self.count = match self.as_terminals {
            true => self.room.as_terminals(count, bytes),
            false => count,
        };
        self.action()
    }

    /// The next action of a sequence.
    pub(crate) fn action<'a>(&mut self) -> Option<Event<'a>> {
        let place = self.given;
        self.given += 1;
        self.open = self.given < self.count;
        self.room.told(place)
    }
}
