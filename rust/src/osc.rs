//! What control strings say.

pub use crate::osc_kinds::OscKind;
use crate::{Event, StringKind, raw};
use alloc::vec::Vec;

/// What an OSC says: its command, and the texts behind that, as they stand there.
///
/// ```
/// use csicodec::{Osc, OscKind};
///
/// let link = Osc::read(b"8;id=1;https://a.example/");
/// assert_eq!((link.kind, link.second), (OscKind::Link, Some(b"https://a.example/".as_slice())));
/// assert_eq!(Osc::read(b"4;1;?;2;red").fields().count(), 4);
/// ```
#[derive(Clone, Copy, Debug, PartialEq, Eq)]
#[cfg_attr(feature = "serde", derive(serde::Serialize))]
pub struct Osc<'a> {
    /// The command.
    pub kind: OscKind,
    /// The first text: a title, fields with `;` between them, .. All bytes of an unknown command.
    pub first: Option<&'a [u8]>,
    /// The second text, of a command that has two.
    pub second: Option<&'a [u8]>,
}

impl<'a> Osc<'a> {
    /// What a content says: the bytes between `ESC ]` and what ends it.
    pub fn read(content: &'a [u8]) -> Osc<'a> {
        let said = raw::osc(content);
        let first_end = if said.texts == 2 {
            said.second - 1
        } else {
            content.len()
        };
        Osc {
            kind: OscKind::of(said.kind),
            first: (said.texts > 0).then(|| &content[said.first..first_end]),
            second: (said.texts == 2).then(|| &content[said.second..]),
        }
    }

    /// The fields of the first text; none where there is no text.
    pub fn fields(&self) -> impl Iterator<Item = &'a [u8]> {
        (self.first.into_iter()).flat_map(|text| text.split(|byte| *byte == b';'))
    }
}

/// Joins the pieces of each OSC of a stream, up to a limit.
///
/// ```
/// use csicodec::{OscKind, OscReader, Parser};
///
/// let (mut parser, mut reader, mut titles) = (Parser::new(), OscReader::new(4096), Vec::new());
/// for piece in [b"\x1b]2;a ti".as_slice(), b"tle\x07"] {
///     parser.advance(piece, |event| {
///         if let Some(said) = reader.take(&event) {
///             titles.push((said.kind, said.first.unwrap_or_default().to_vec()));
///         }
///     });
/// }
/// assert_eq!(titles, [(OscKind::TitleWindow, b"a title".to_vec())]);
/// ```
#[derive(Clone, Debug)]
pub struct OscReader {
    limit: usize,
    held: Vec<u8>,
    /// Whether an OSC is open that has at most so many bytes.
    fits: bool,
}

impl OscReader {
    /// A longer content than `limit` bytes isn't told.
    pub fn new(limit: usize) -> OscReader {
        OscReader {
            limit,
            held: Vec::new(),
            fits: false,
        }
    }

    /// What the OSC says that is over with this event, if one is.
    pub fn take(&mut self, event: &Event<'_>) -> Option<Osc<'_>> {
        let Event::Str {
            kind: StringKind::Osc,
            bytes,
            first,
            last,
        } = *event
        else {
            self.fits = false;
            return None;
        };
        if first {
            self.held.clear();
            self.fits = true;
        }
        self.fits &= self.held.len() + bytes.len() <= self.limit;
        if self.fits {
            self.held.extend_from_slice(bytes);
        }
        (last && self.fits).then(|| Osc::read(&self.held))
    }
}
