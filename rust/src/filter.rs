//! Streams in other spellings.

use crate::pending::{LIMIT, Pending, Step};
use crate::strip::left_bytes;
use crate::{Error, raw};
use alloc::vec::Vec;
use core::num::NonZeroUsize;

/// Rewrites a terminal's stream as it comes: each control sequence in its normal form, or in the shortest spelling that is found, and
/// every other byte as it was. It doesn't matter how the stream is cut into slices.
#[derive(Clone, Debug)]
pub struct Filter {
    step: fn(u32, usize, &[u8], &mut [u8]) -> raw::Filtered,
    limit: usize,
    mode: u32,
    pending: Pending,
}

impl Filter {
    /// A new stream, which is written in normal form. A control sequence of more bytes than `limit` passes as it is.
    pub fn new(limit: NonZeroUsize) -> Self {
        Filter {
            step: raw::filter,
            limit: limit.get(),
            mode: 0,
            pending: Pending::default(),
        }
    }

    /// A new stream, in which each control sequence is written in the shortest spelling that is found, with the same actions.
    pub fn compact(limit: NonZeroUsize) -> Self {
        Filter {
            step: raw::compact,
            ..Filter::new(limit)
        }
    }

    /// As [`Filter::compact`], with semicolons in foreground and background colours (`38;2;R;G;B`), even if that is no shorter: for
    /// terminals and tools that don't know colons. A colour with an alpha has no such spelling.
    pub fn compact_semicolons(limit: NonZeroUsize) -> Self {
        Filter {
            step: raw::compact_semicolons,
            ..Filter::new(limit)
        }
    }

    /// Takes the next bytes, and appends the texts of all that is sure now. The other bytes are held: fewer than the limit, or than
    /// 3 if the limit is less. After an `Err`, which is `Error::Memory`, nothing is appended, and the bytes are held.
    pub fn push(&mut self, bytes: &[u8], out: &mut Vec<u8>) -> Result<(), Error> {
        let step = |bytes: &[u8], out: &mut [u8]| {
            let answer = (self.step)(self.mode, self.limit, bytes, out);
            Step {
                status: answer.status,
                used: answer.used,
                held: 0,
                needed: answer.needed,
                state: answer.mode,
            }
        };
        if let Some(mode) = self.pending.step(bytes, self.limit, out, step)? {
            self.mode = mode;
        }
        Ok(())
    }

    /// The end of the stream: appends what is held.
    pub fn finish(self, out: &mut Vec<u8>) {
        out.extend_from_slice(self.pending.bytes());
    }
}

/// A whole stream with each control sequence in its normal form. `Err` is [`Error::Memory`].
///
/// ```
/// assert_eq!(csicodec::filter(b"a\x1b[01;3mb")?, b"a\x1b[1m\x1b[3mb");
/// # Ok::<(), csicodec::Error>(())
/// ```
pub fn filter(bytes: impl AsRef<[u8]>) -> Result<Vec<u8>, Error> {
    let mut out = Vec::new();
    let limit = NonZeroUsize::new(LIMIT).unwrap_or(NonZeroUsize::MIN);
    let mut filter = Filter::new(limit);
    filter.push(bytes.as_ref(), &mut out)?;
    filter.finish(&mut out);
    Ok(out)
}

/// A whole stream in fewer bytes, as `csicodec compact` writes it: in the place of control sequences that stand side by side one may stand
/// that is read as the same actions. `Err` is [`Error::Memory`].
///
/// ```
/// assert_eq!(csicodec::compact(b"\x1b[1m\x1b[3ma")?, b"\x1b[1;3ma");
/// # Ok::<(), csicodec::Error>(())
/// ```
pub fn compact(bytes: impl AsRef<[u8]>) -> Result<Vec<u8>, Error> {
    left_bytes(
        |bytes, out| raw::compact_whole(0, bytes, out),
        bytes.as_ref(),
    )
}

/// The same with semicolons in colours, as [`Filter::compact_semicolons`].
pub fn compact_semicolons(bytes: impl AsRef<[u8]>) -> Result<Vec<u8>, Error> {
    left_bytes(
        |bytes, out| raw::compact_whole(1, bytes, out),
        bytes.as_ref(),
    )
}
