//! Room for the actions of one sequence.

use crate::pending::LIMIT;
use crate::{CSI, Event, raw, rows};
use alloc::{vec, vec::Vec};

/// For how many structs, and how many tokens, there is room at first.
const NEAR: usize = 16;

/// Structs of actions and tokens, as many as any sequence before had.
#[derive(Clone, Debug)]
pub(crate) struct Room {
    actions: Vec<raw::Action>,
    params: Vec<raw::Param>,
}

impl Room {
    pub(crate) fn new() -> Self {
        Room {
            actions: vec![raw::Action::default(); NEAR],
            params: vec![raw::Param::default(); NEAR],
        }
    }

    /// Reads the sequence at the front of the bytes. As many of its actions as there is room for stand here.
    #[inline]
    pub(crate) fn next(&mut self, bytes: &[u8]) -> raw::Front {
        raw::next(bytes, &mut self.actions, &mut self.params)
    }

    /// The event that the first action is, of a sequence with no tokens.
    #[inline(always)]
    pub(crate) fn first<'a>(&self) -> Option<Event<'a>> {
        let first = &self.actions[0];
        rows::often_of(first, event, || other_event(first, &[]))
    }

    /// Reads the sequence again, if not all its actions stand here.
    #[inline]
    pub(crate) fn whole(&mut self, front: raw::Front, bytes: &[u8]) -> raw::Front {
        if self.holds(front.actions, front.params) {
            return front;
        }
        self.grow(front.actions, front.params);
        self.next(bytes)
    }

    /// The event at the front of the bytes. Where it is a control sequence, all its actions stand here.
    pub(crate) fn event(&mut self, mode: u32, looked: usize, bytes: &[u8]) -> raw::Told {
        loop {
            let (actions, params) = (&mut self.actions, &mut self.params);
            let told = raw::event(mode, LIMIT, looked, bytes, actions, params);
            if self.holds(told.actions, told.params) {
                return told;
            }
            self.grow(told.actions, told.params);
        }
    }

    /// The same of input in a dialect.
    pub(crate) fn input(
        &mut self,
        dialect: u32,
        mode: u32,
        looked: usize,
        bytes: &[u8],
    ) -> raw::Received {
        loop {
            let (actions, params) = (&mut self.actions, &mut self.params);
            let told = raw::input(dialect, mode, LIMIT, looked, bytes, actions, params);
            if self.holds(told.actions, told.params) {
                return told;
            }
            self.grow(told.actions, told.params);
        }
    }

    /// How many actions terminals take the sequence for, of which so many stand here. If those are others, they stand here now.
    pub(crate) fn as_terminals(&mut self, count: usize, bytes: &[u8]) -> usize {
        let is_cut = matches!(bytes, [.., b';' | ..=0x1f | 0x7f, b'm']);
        if !is_cut && self.actions[..count].iter().all(|it| it.kind != 0) {
            return count;
        }
        loop {
            let front = raw::terminal_actions(bytes, &mut self.actions, &mut self.params);
            if front.status != 0 {
                return count;
            }
            if self.holds(front.actions, front.params) {
                return front.actions;
            }
            self.grow(front.actions, front.params);
        }
    }

    /// Whether there is room for so many.
    #[inline(always)]
    fn holds(&self, actions: usize, params: usize) -> bool {
        actions <= self.actions.len() && params <= self.params.len()
    }

    /// Makes as much room as a sequence needs.
    #[cold]
    fn grow(&mut self, actions: usize, params: usize) {
        let actions = actions.max(self.actions.len());
        self.actions.resize(actions, raw::Action::default());
        let params = params.max(self.params.len());
        self.params.resize(params, raw::Param::default());
    }

    /// The action at a place, of those that were read last.
    #[inline]
    pub(crate) fn action(&self, place: usize) -> CSI {
        action(&self.actions[place], &self.params)
    }

    /// The same as an event.
    pub(crate) fn told<'a>(&self, place: usize) -> Option<Event<'a>> {
        event_of(&self.actions[place], &self.params)
    }
}

/// The action of a struct that the library made, with the tokens that were put beside it.
#[inline(never)]
pub(crate) fn action(given: &raw::Action, params: &[raw::Param]) -> CSI {
    rows::often_of(given, |action| action, || rows::other_of(given, params))
}

/// The same as an event.
#[inline(never)]
fn event_of<'a>(given: &raw::Action, params: &[raw::Param]) -> Option<Event<'a>> {
    rows::often_of(given, event, || other_event(given, params))
}

#[inline(never)]
fn other_event<'a>(given: &raw::Action, params: &[raw::Param]) -> Option<Event<'a>> {
    event(rows::other_of(given, params))
}

#[inline(always)]
fn event<'a>(action: CSI) -> Option<Event<'a>> {
    Some(Event::Csi(action))
}
