//! A terminal's stream as spans.

use crate::pending::LIMIT;
use crate::raw;
use crate::told::whole_text;

/// What a span is.
#[derive(Clone, Copy, Debug, PartialEq, Eq, Hash)]
#[cfg_attr(feature = "serde", derive(serde::Serialize, serde::Deserialize))]
#[non_exhaustive]
pub enum SpanKind {
    /// Characters, C0 controls other than ESC, and DEL.
    Text,
    /// One whole control sequence.
    Csi,
    /// One whole escape sequence: ESC, at most one intermediate byte (20 to 2f), and a final byte (30 to 7e).
    Esc,
    /// A control string (ECMA-48, 5.6), or as much of it as there is: OSC, DCS, SOS, PM or APC, with its end.
    Str,
    /// A malformed control, or as much of it as there is. A terminal may still carry it out.
    Other,
}

/// Some bytes of a stream, and what they are.
#[derive(Clone, Copy, Debug, PartialEq, Eq)]
#[cfg_attr(feature = "serde", derive(serde::Serialize))]
pub struct Span<'a> {
    /// What they are.
    pub kind: SpanKind,
    /// The bytes, at least one.
    pub bytes: &'a [u8],
}

/// The spans of some bytes, in order: joined they are the bytes.
#[derive(Clone, Debug)]
pub struct Spans<'a> {
    rest: &'a [u8],
    mode: u32,
    limit: usize,
}

/// The spans of a whole stream. A control sequence of more than 65,536 bytes is `Other`.
///
/// A C0 control within a control sequence (`ESC [ 1 BS A`) makes the sequence `Other` here, for a filter that passes it on.
/// [`events`](crate::events) gives the control and then the sequence, for an emulator that carries them out.
pub fn spans(bytes: &[u8]) -> Spans<'_> {
    Spans {
        rest: bytes,
        mode: 0,
        limit: LIMIT,
    }
}

impl<'a> Iterator for Spans<'a> {
    type Item = Span<'a>;

    fn next(&mut self) -> Option<Span<'a>> {
        if self.rest.is_empty() {
            return None;
        }
        let span = raw::span(self.mode, self.limit, self.rest);
        let (kind, used) = match (span.status, span.kind) {
            (0, 0) => (SpanKind::Text, whole_text(span.used, self.rest)),
            (0, 1) => (SpanKind::Csi, span.used),
            (0, 2) => (SpanKind::Esc, span.used),
            (0, 3) => (SpanKind::Str, span.used),
            (0, _) => (SpanKind::Other, span.used),
            // It is cut off, and nothing follows.
            _ if self.rest[0] != 0x1b => (SpanKind::Text, self.rest.len()),
            _ => (SpanKind::Other, self.rest.len()),
        };
        let (bytes, rest) = self.rest.split_at(used);
        self.rest = rest;
        self.mode = span.mode;
        Some(Span { kind, bytes })
    }
}
