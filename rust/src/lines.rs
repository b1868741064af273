//! Pages of HTML, and overwritten lines, of a stream as it comes.

use crate::pending::LIMIT;
use crate::{Error, Markup, html::overwritten, raw};
use alloc::vec::Vec;

/// What is written of lines.
#[derive(Clone, Copy, Debug)]
enum Form {
    Page(Markup),
    Text { styled: bool },
}

impl Form {
    /// What is written of whole lines.
    fn of(self, lines: &[u8]) -> Result<Vec<u8>, Error> {
        let text = match self {
            Form::Page(markup) => Markup {
                fragment: true,
                ..markup
            }
            .html(lines),
            Form::Text { styled } => overwritten(styled, lines),
        };
        text.map(Into::into)
    }

    /// What stands ahead of all lines, and behind them.
    fn around(self) -> Result<(Vec<u8>, Vec<u8>), Error> {
        const MARK: char = '\u{e000}';
        let Form::Page(markup) = self else {
            return Ok((Vec::new(), Vec::new()));
        };
        let page = markup.html(MARK.encode_utf8(&mut [0; 4]).as_bytes())?;
        let (ahead, behind) = page.split_once(MARK).unwrap_or_default();
        Ok((ahead.into(), behind.into()))
    }

    /// Whether lines can be written by themselves.
    fn is_by_lines(self) -> bool {
        !matches!(self, Form::Page(markup) if markup.links || markup.no_overwrite)
    }
}

/// Whether a sequence may save the cursor's place or begin insert mode (DECSC, SCOSC, SM, DECSET 1048 and 1049), or ends both (RIS, DECSTR); none where it
/// has to do with neither.
fn keeps(sequence: &[u8]) -> Option<bool> {
    match sequence {
        b"\x1bc" | b"\x1b[!p" => Some(false),
        b"\x1b7" => Some(true),
        [_, b'[', b'?', modes @ .., b'h'] => modes
            .split(|byte| *byte == b';')
            .any(|mode| mode.ends_with(b"1048") || mode.ends_with(b"1049"))
            .then_some(true),
        [_, b'[', .., b's' | b'h'] => Some(true),
        _ => None,
    }
}

/// The graphic sets: the final bytes of what `ESC (` and `ESC )` designated, or 0, and whether SO shifted the second in.
#[derive(Clone, Copy, Debug, Default)]
struct Sets {
    g0: u8,
    g1: u8,
    is_shifted: bool,
}

impl Sets {
    /// The sets behind a text: the last SO or SI counts.
    fn shifted(self, text: &[u8]) -> Self {
        let shift = text.iter().rfind(|byte| matches!(byte, 0x0e | 0x0f));
        let is_shifted = shift.map_or(self.is_shifted, |byte| *byte == 0x0e);
        Sets { is_shifted, ..self }
    }

    /// The sets behind a sequence: SCS designates one, and RIS and DECSTR set all back.
    fn designated(self, sequence: &[u8]) -> Self {
        match sequence {
            b"\x1bc" | b"\x1b[!p" => Sets::default(),
            [_, b'(', g0] => Sets { g0: *g0, ..self },
            [_, b')', g1] => Sets { g1: *g1, ..self },
            _ => self,
        }
    }

    /// What designates the sets and shifts them in.
    fn bytes(self) -> Vec<u8> {
        let mut bytes = Vec::new();
        for (set, by) in [(self.g0, b'('), (self.g1, b')')] {
            if matches!(set, b'0' | b'A') {
                bytes.extend_from_slice(&[0x1b, by, set]);
            }
        }
        if self.is_shifted {
            bytes.push(0x0e);
        }
        bytes
    }
}

/// Writes a stream of untrusted text as it comes as a page of HTML, or as its lines, each as it stands when it ends. It holds a line, and, with
/// `links` or `no_overwrite`, everything. The pushed slices and the end append what [`Markup::html`](crate::Markup::html),
/// [`overwrite`](crate::overwrite) or [`overwrite_styled`](crate::overwrite_styled) gives for the whole text.
///
/// Behind a newline of text outside of a title nothing is left of a line but how further characters look and the graphic sets, so that whole lines
/// can be written by themselves, behind the sequences that set these. Where a place is saved or insert mode has begun, that is left too, and what
/// follows is held up to a reset or the end.
///
/// ```
/// use csicodec::Lines;
///
/// let mut lines = Lines::overwritten();
/// let mut out = Vec::new();
/// lines.push(b"10%\r20%", &mut out)?;
/// lines.push(b"\r\x1b[Kdone\nnext", &mut out)?;
/// assert_eq!(out, b"done\n");
/// lines.finish(&mut out)?;
/// assert_eq!(out, b"done\nnext");
/// # Ok::<(), csicodec::Error>(())
/// ```
#[derive(Clone, Debug)]
pub struct Lines {
    form: Form,
    is_begun: bool,
    /// The sequence that sets how characters look at the front of what is held.
    look: Vec<u8>,
    /// The sets there, behind the whole spans, and behind the whole lines.
    sets: Sets,
    sets_behind: Sets,
    sets_whole: Sets,
    /// The bytes that aren't written, of which so many are in whole spans, and so many, at the front, in whole lines.
    held: Vec<u8>,
    spanned: usize,
    whole: usize,
    mode: u32,
    is_title: bool,
    /// Whether a place is saved or insert mode has begun, or may be so.
    keeps: bool,
    /// The sequences that can set how characters look, in the whole lines, and behind them.
    within: Vec<u8>,
    behind: Vec<u8>,
}

impl Lines {
    fn of(form: Form) -> Self {
        Lines {
            form,
            is_begun: false,
            look: Vec::new(),
            sets: Sets::default(),
            sets_behind: Sets::default(),
            sets_whole: Sets::default(),
            held: Vec::new(),
            spanned: 0,
            whole: 0,
            mode: 0,
            is_title: false,
            keeps: false,
            within: Vec::new(),
            behind: Vec::new(),
        }
    }

    /// A new stream, which becomes a page.
    pub fn html(markup: Markup) -> Self {
        Lines::of(Form::Page(markup))
    }

    /// A new stream, which becomes lines of plain text.
    pub fn overwritten() -> Self {
        Lines::of(Form::Text { styled: false })
    }

    /// A new stream, which becomes lines with the sequences (SGR) that set how characters look.
    pub fn overwritten_styled() -> Self {
        Lines::of(Form::Text { styled: true })
    }

    /// Takes the next bytes, and appends what is written of the lines that are whole now. After an `Err`, which is [`Error::Memory`], nothing is
    /// appended, and the bytes are held.
    pub fn push(&mut self, bytes: &[u8], out: &mut Vec<u8>) -> Result<(), Error> {
        self.held.extend_from_slice(bytes);
        if self.form.is_by_lines() {
            self.span();
        }
        if self.whole > 0 {
            self.write(out)?;
        }
        Ok(())
    }

    /// The end of the stream: appends the last line, and what ends a page. After an `Err`, which is [`Error::Memory`], nothing is appended.
    pub fn finish(self, out: &mut Vec<u8>) -> Result<(), Error> {
        let (ahead, end) = self.form.around()?;
        let last = self.form.of(&self.seen(self.held.len()))?;
        if !self.is_begun {
            out.extend_from_slice(&ahead);
        }
        out.extend_from_slice(&last);
        out.extend_from_slice(&end);
        Ok(())
    }

    /// So many of the bytes, behind what sets their sets and how they look.
    fn seen(&self, len: usize) -> Vec<u8> {
        [&self.sets.bytes()[..], &self.look, &self.held[..len]].concat()
    }

    /// Goes on over the spans that are whole now.
    fn span(&mut self) {
        while self.spanned < self.held.len() {
            let rest = &self.held[self.spanned..];
            let span = raw::span(self.mode, LIMIT, rest);
            if span.status != 0 {
                return;
            }
            let bytes = &rest[..span.used];
            if span.kind == 0 {
                let newline = bytes.iter().rposition(|byte| *byte == b'\n');
                if let (Some(at), false) = (newline, self.is_title || self.keeps) {
                    self.whole = self.spanned + at + 1;
                    self.within.append(&mut self.behind);
                    self.sets_whole = self.sets_behind.shifted(&bytes[..=at]);
                }
                if !self.is_title {
                    self.sets_behind = self.sets_behind.shifted(bytes);
                }
            } else {
                self.is_title = span.kind == 2 && bytes == b"\x1bk";
                if matches!(span.kind, 1 | 2) && !self.is_title {
                    self.keeps = keeps(bytes).unwrap_or(self.keeps);
                    self.sets_behind = self.sets_behind.designated(bytes);
                    self.behind.extend_from_slice(bytes);
                }
            }
            self.mode = span.mode;
            self.spanned += span.used;
        }
    }

    /// Appends what is written of the whole lines.
    fn write(&mut self, out: &mut Vec<u8>) -> Result<(), Error> {
        let ahead = match self.is_begun {
            true => Vec::new(),
            false => self.form.around()?.0,
        };
        let lines = self.form.of(&self.seen(self.whole))?;
        self.look = self.look_behind()?;
        self.sets = self.sets_whole;
        self.within.clear();
        self.held.drain(..self.whole);
        self.spanned -= self.whole;
        self.whole = 0;
        self.is_begun = true;
        out.extend_from_slice(&ahead);
        out.extend_from_slice(&lines);
        Ok(())
    }

    /// The sequence with which the library writes how a character looks behind the whole lines.
    fn look_behind(&self) -> Result<Vec<u8>, Error> {
        if self.within.is_empty() {
            return Ok(self.look.clone());
        }
        let shown = overwritten(true, &[&self.look[..], &self.within, b"\nX"].concat())?;
        let last = shown.rsplit_once('\n').map_or("", |(_, last)| last);
        Ok(last.split('X').next().unwrap_or_default().into())
    }
}
