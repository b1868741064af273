//! Bytes of a stream that wait for more.

use crate::Error;
use alloc::vec::Vec;

/// The most bytes that a control sequence may have.
pub(crate) const LIMIT: usize = 65536;

/// What a step over some bytes answers.
pub(crate) struct Step<T> {
    /// 0 where it is done.
    pub(crate) status: u32,
    /// How many bytes it used.
    pub(crate) used: usize,
    /// How many of those behind them are the beginning of a character, at their front.
    pub(crate) held: usize,
    /// The length of its text, which is put where there is so much room.
    pub(crate) needed: usize,
    /// What is open behind the bytes that were used.
    pub(crate) state: T,
}

/// Bytes that no step has used.
#[derive(Clone, Debug, Default)]
pub(crate) struct Pending {
    bytes: Vec<u8>,
    /// How many of them are the beginning of a character, at their front.
    held: usize,
    /// Of a control sequence that waits for its end behind these, how many bytes were looked at.
    looked: usize,
}

impl Pending {
    pub(crate) fn bytes(&self) -> &[u8] {
        &self.bytes
    }

    /// Takes more bytes and a step over all, and appends its text. None where they only make a control sequence longer that isn't over,
    /// and has fewer bytes than the limit. After an `Err` nothing is appended, and the bytes wait.
    pub(crate) fn step<T>(
        &mut self,
        bytes: &[u8],
        limit: usize,
        out: &mut Vec<u8>,
        step: impl Fn(&[u8], &mut [u8]) -> Step<T>,
    ) -> Result<Option<T>, Error> {
        self.bytes.extend_from_slice(bytes);
        let sequence = &self.bytes[self.held..];
        let looked = core::mem::replace(&mut self.looked, sequence.len());
        if sequence.len() < limit && goes_on(sequence, looked) {
            return Ok(None);
        }
        self.looked = 0;
        let start = out.len();
        let mut room = self.bytes.len() * 2 + 16;
        loop {
            out.resize(start + room, 0);
            let answer = step(&self.bytes, &mut out[start..]);
            if answer.status != 0 {
                out.truncate(start);
                return Err(Error::Memory);
            }
            if answer.needed <= room {
                out.truncate(start + answer.needed);
                self.bytes.drain(..answer.used);
                self.held = answer.held;
                self.looked = self.bytes.len() - answer.held;
                return Ok(Some(answer.state));
            }
            room = answer.needed;
        }
    }
}

/// Whether a control sequence isn't over, of whose bytes so many were looked at: none of the others can end it.
fn goes_on(bytes: &[u8], looked: usize) -> bool {
    let stays = |byte: &u8| matches!(byte, 0x20..=0x3f);
    looked >= 2 && bytes.starts_with(b"\x1b[") && bytes[looked..].iter().all(stays)
}
