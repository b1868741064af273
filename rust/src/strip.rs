//! What is left of untrusted text.

use crate::pending::{LIMIT, Pending, Step};
use crate::{Error, raw};
use alloc::{string::String, vec, vec::Vec};

/// The plain text of untrusted bytes, with no control but newline and tab. Bytes that aren't UTF-8 become U+FFFD. `Err` is
/// [`Error::Memory`].
///
/// ```
/// assert_eq!(csicodec::strip(b"a\x1b[31mb\x1b]0;title\x07\r\n")?, "ab\n");
/// # Ok::<(), csicodec::Error>(())
/// ```
pub fn strip(bytes: impl AsRef<[u8]>) -> Result<String, Error> {
    left(raw::strip, bytes.as_ref())
}

/// The text of untrusted bytes as [`strip`], with the known attributes (SGR), except the one that conceals text (8), other fonts (11 to 20), and 26,
/// 50 to 52, 54 and 60 to 65, in their normal form. If the last of them isn't a reset, a reset ends the text, so that it doesn't colour later output.
///
/// ```
/// assert_eq!(csicodec::clean(b"\x1b[01;31mred\x1b[2Jtext")?, "\x1b[1m\x1b[31mredtext\x1b[0m");
/// # Ok::<(), csicodec::Error>(())
/// ```
pub fn clean(bytes: impl AsRef<[u8]>) -> Result<String, Error> {
    left(raw::clean, bytes.as_ref())
}

/// Which colours stay.
#[derive(Clone, Copy, Debug, Default, PartialEq, Eq, Hash)]
#[cfg_attr(feature = "serde", derive(serde::Serialize, serde::Deserialize))]
#[non_exhaustive]
pub enum Depth {
    /// All, as they are.
    #[default]
    Full,
    /// The 256 places of the palette; a true colour becomes the nearest place of xterm's palette from 16 on.
    Palette,
    /// The first 16 places; every other colour becomes the nearest of them.
    Ansi,
}

impl Depth {
    fn number(self) -> u32 {
        match self {
            Depth::Full => 0,
            Depth::Palette => 1,
            Depth::Ansi => 2,
        }
    }
}

/// What passes besides text.
#[derive(Clone, Copy, Debug, Default, PartialEq, Eq, Hash)]
#[cfg_attr(feature = "serde", derive(serde::Serialize, serde::Deserialize))]
pub struct Passing {
    /// Which colours stay.
    pub depth: Depth,
    /// Whether links (OSC 8) pass, to a host by http or https, if the address is at most 2,083 bytes of visible ASCII, without a user's
    /// name, and the parameters at most 256. One with another address is written without it, and ends the link before it.
    pub links: bool,
}

/// As [`clean`], with a choice of what passes. If a link is open at the end, a link without an address closes it.
///
/// ```
/// use csicodec::{Depth, Passing, clean_with};
///
/// let few = Passing { depth: Depth::Ansi, links: false };
/// assert_eq!(clean_with(few, b"\x1b[38;2;250;5;5mred")?, "\x1b[91mred\x1b[0m");
/// let linked = Passing { links: true, ..Passing::default() };
/// assert_eq!(clean_with(linked, b"\x1b]8;;http://a.example\x07text")?, "\x1b]8;;http://a.example\x1b\\text\x1b]8;;\x1b\\");
/// # Ok::<(), csicodec::Error>(())
/// ```
pub fn clean_with(passing: Passing, bytes: impl AsRef<[u8]>) -> Result<String, Error> {
    let (depth, links) = (passing.depth.number(), passing.links.into());
    left(
        |bytes, out| raw::clean_with(depth, links, bytes, out),
        bytes.as_ref(),
    )
}

/// The text that a call leaves of some bytes.
pub(crate) fn left(
    call: impl Fn(&[u8], &mut [u8]) -> raw::Stripped,
    bytes: &[u8],
) -> Result<String, Error> {
    let out = left_bytes(call, bytes)?;
    Ok(String::from_utf8(out).expect("what is left is UTF-8"))
}

/// The same as bytes.
pub(crate) fn left_bytes(
    call: impl Fn(&[u8], &mut [u8]) -> raw::Stripped,
    bytes: &[u8],
) -> Result<Vec<u8>, Error> {
    let mut out = vec![0; bytes.len() + 16];
    loop {
        let answer = call(bytes, &mut out);
        if answer.status != 0 {
            return Err(Error::Memory);
        }
        let fits = answer.needed <= out.len();
        out.resize(answer.needed, 0);
        if fits {
            return Ok(out);
        }
    }
}

/// Strips or cleans untrusted text as it comes, in bounded memory: it holds fewer than 65,536 bytes of a control sequence, and 3 of
/// a character. The pushed slices and the end append what [`strip`] or [`clean`] gives for the whole text. Links don't pass, since
/// their addresses would have to be held too.
///
/// ```
/// use csicodec::{Cleaner, Depth};
///
/// let mut cleaner = Cleaner::clean(Depth::Full);
/// let mut out = Vec::new();
/// cleaner.push(b"a\x1b[01;3", &mut out)?;
/// assert_eq!(out, b"a");
/// cleaner.push(b"1mred\xc3", &mut out)?;
/// assert_eq!(out, b"a\x1b[1m\x1b[31mred");
/// cleaner.finish(&mut out)?;
/// assert_eq!(out, "a\x1b[1m\x1b[31mred\u{fffd}\x1b[0m".as_bytes());
/// # Ok::<(), csicodec::Error>(())
/// ```
#[derive(Clone, Debug)]
pub struct Cleaner {
    /// Of styles that stay, the colours.
    depth: Option<Depth>,
    state: raw::Cleaning,
    pending: Pending,
}

impl Cleaner {
    /// A new stream, which becomes plain text.
    pub fn strip() -> Self {
        Cleaner {
            depth: None,
            state: raw::Cleaning::default(),
            pending: Pending::default(),
        }
    }

    /// A new stream, which becomes text with its styles, in these colours.
    pub fn clean(depth: Depth) -> Self {
        Cleaner {
            depth: Some(depth),
            ..Cleaner::strip()
        }
    }

    /// Takes the next bytes, and appends the text of all that is sure now: UTF-8 of whole characters. After an `Err`, which is
    /// [`Error::Memory`], nothing is appended, and the bytes are held.
    pub fn push(&mut self, bytes: &[u8], out: &mut Vec<u8>) -> Result<(), Error> {
        let step = |bytes: &[u8], out: &mut [u8]| {
            let answer = match self.depth {
                None => raw::strip_step(&self.state, bytes, out),
                Some(depth) => raw::clean_step(depth.number(), &self.state, bytes, out),
            };
            Step {
                status: answer.status,
                used: answer.used,
                held: answer.state.held as usize,
                needed: answer.needed,
                state: answer.state,
            }
        };
        if let Some(state) = self.pending.step(bytes, LIMIT, out, step)? {
            self.state = state;
        }
        Ok(())
    }

    /// The end of the stream: appends U+FFFD for an incomplete character, and a reset if a style is open. After an `Err`, which is
    /// [`Error::Memory`], nothing is appended.
    pub fn finish(self, out: &mut Vec<u8>) -> Result<(), Error> {
        let mut end = [0; 16];
        let answer = raw::clean_end(&self.state, self.pending.bytes(), &mut end);
        if answer.status != 0 {
            return Err(Error::Memory);
        }
        out.extend_from_slice(&end[..answer.needed]);
        Ok(())
    }
}
