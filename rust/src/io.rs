//! Readers and writers of the standard library: what takes the feature `std`.

use crate::{Cleaner, Error, Event, Filter, Lines, Markup, Parser};
use std::io::{self, ErrorKind, Read, Write};
use std::vec::Vec;

impl Parser {
    /// Reads to the end, in pieces, and passes each event, at last what is held. After an `Err`, which is the reader's, what is held
    /// isn't passed.
    pub fn read_to_end(
        mut self,
        mut from: impl Read,
        mut tell: impl FnMut(Event<'_>),
    ) -> io::Result<()> {
        let mut piece = [0; 4096];
        loop {
            match from.read(&mut piece) {
                Ok(0) => break,
                Ok(count) => self.advance(&piece[..count], &mut tell),
                Err(error) if error.kind() == ErrorKind::Interrupted => {}
                Err(error) => return Err(error),
            }
        }
        self.finish(tell);
        Ok(())
    }
}

fn no_memory(_: Error) -> io::Error {
    ErrorKind::OutOfMemory.into()
}

/// A writer, and bytes that are to be written to it.
#[derive(Debug)]
struct Sender<W> {
    to: W,
    out: Vec<u8>,
    /// How many of the bytes of `out` were written.
    sent: usize,
}

impl<W: Write> Sender<W> {
    fn new(to: W) -> Self {
        Sender {
            to,
            out: Vec::new(),
            sent: 0,
        }
    }

    /// Writes what waits.
    fn send(&mut self) -> io::Result<()> {
        while self.sent < self.out.len() {
            match self.to.write(&self.out[self.sent..]) {
                Ok(0) => return Err(ErrorKind::WriteZero.into()),
                Ok(count) => self.sent += count,
                Err(error) if error.kind() == ErrorKind::Interrupted => {}
                Err(error) => return Err(error),
            }
        }
        self.out.clear();
        self.sent = 0;
        Ok(())
    }

    /// Writes what waits, and then what `push` appends of some bytes. These are taken then: if the writer fails, the next call tries again.
    fn write(
        &mut self,
        bytes: &[u8],
        push: impl FnOnce(&[u8], &mut Vec<u8>) -> Result<(), Error>,
    ) -> io::Result<usize> {
        self.send()?;
        push(bytes, &mut self.out).map_err(no_memory)?;
        match self.send() {
            Ok(()) | Err(_) => Ok(bytes.len()),
        }
    }

    fn flush(&mut self) -> io::Result<()> {
        self.send()?;
        self.to.flush()
    }

    /// Writes what waits and what `end` appends, and gives the writer back.
    fn finish(mut self, end: impl FnOnce(&mut Vec<u8>) -> Result<(), Error>) -> io::Result<W> {
        end(&mut self.out).map_err(no_memory)?;
        self.send()?;
        Ok(self.to)
    }
}

mod sealed {
    pub trait Sealed {}
    impl Sealed for crate::Cleaner {}
    impl Sealed for crate::Filter {}
    impl Sealed for crate::Lines {}
}

/// What writes a stream anew as it comes: a [`Cleaner`], a [`Filter`], or [`Lines`].
pub trait Rewriting: sealed::Sealed {
    /// Takes the next bytes, and appends what is sure now.
    fn take(&mut self, bytes: &[u8], out: &mut Vec<u8>) -> Result<(), Error>;

    /// Appends what is left at the end.
    fn end(self, out: &mut Vec<u8>) -> Result<(), Error>;
}

impl Rewriting for Cleaner {
    fn take(&mut self, bytes: &[u8], out: &mut Vec<u8>) -> Result<(), Error> {
        self.push(bytes, out)
    }

    fn end(self, out: &mut Vec<u8>) -> Result<(), Error> {
        self.finish(out)
    }
}

impl Rewriting for Filter {
    fn take(&mut self, bytes: &[u8], out: &mut Vec<u8>) -> Result<(), Error> {
        self.push(bytes, out)
    }

    fn end(self, out: &mut Vec<u8>) -> Result<(), Error> {
        self.finish(out);
        Ok(())
    }
}

impl Rewriting for Lines {
    fn take(&mut self, bytes: &[u8], out: &mut Vec<u8>) -> Result<(), Error> {
        self.push(bytes, out)
    }

    fn end(self, out: &mut Vec<u8>) -> Result<(), Error> {
        self.finish(out)
    }
}

/// Writes what a [`Cleaner`], a [`Filter`] or [`Lines`] makes of the bytes that are written to it, at once. [`StreamWriter::finish`] writes the
/// end, without which a style may stay open. An error of the writer behind it is returned by the next call, and what wasn't written then comes again.
///
/// ```
/// use csicodec::{Filter, Lines};
/// use std::io::Write;
///
/// let mut steps = Lines::overwritten().writer(Vec::new());
/// write!(steps, "10%\r20%\r\x1b[Kdone\n")?;
/// assert_eq!(steps.finish()?, b"done\n");
///
/// let mut short = Filter::compact(65536.try_into().unwrap()).writer(Vec::new());
/// write!(short, "\x1b[0;01mred")?;
/// assert_eq!(short.finish()?, b"\x1b[;1mred");
/// # Ok::<(), std::io::Error>(())
/// ```
#[derive(Debug)]
pub struct StreamWriter<S: Rewriting, W: Write> {
    stream: S,
    sender: Sender<W>,
}

impl<S: Rewriting, W: Write> StreamWriter<S, W> {
    fn new(stream: S, to: W) -> Self {
        StreamWriter {
            stream,
            sender: Sender::new(to),
        }
    }

    /// The writer behind it.
    pub fn get_ref(&self) -> &W {
        &self.sender.to
    }

    /// Writes the end, and gives the writer behind it back, which isn't flushed.
    pub fn finish(self) -> io::Result<W> {
        self.sender.finish(|out| self.stream.end(out))
    }
}

impl<S: Rewriting, W: Write> Write for StreamWriter<S, W> {
    fn write(&mut self, bytes: &[u8]) -> io::Result<usize> {
        let stream = &mut self.stream;
        self.sender
            .write(bytes, |bytes, out| stream.take(bytes, out))
    }

    fn flush(&mut self) -> io::Result<()> {
        self.sender.flush()
    }
}

/// Reads what a [`Cleaner`], a [`Filter`] or [`Lines`] makes of what is read from a reader, as it comes, and then the end. An `Err` is the reader's,
/// after which it can be read on, or [`ErrorKind::OutOfMemory`].
///
/// ```
/// use csicodec::Cleaner;
/// use std::io::Read;
///
/// let mut text = String::new();
/// Cleaner::strip().reader(&b"\x1b[31mfailed\x1b[0m\xc3"[..]).read_to_string(&mut text)?;
/// assert_eq!(text, "failed\u{fffd}");
/// # Ok::<(), std::io::Error>(())
/// ```
#[derive(Debug)]
pub struct StreamReader<S: Rewriting, R: Read> {
    /// Until the end was reached.
    stream: Option<S>,
    from: R,
    out: Vec<u8>,
    /// How many of the bytes of `out` were read.
    given: usize,
}

impl<S: Rewriting, R: Read> StreamReader<S, R> {
    fn new(stream: S, from: R) -> Self {
        StreamReader {
            stream: Some(stream),
            from,
            out: Vec::new(),
            given: 0,
        }
    }

    /// The reader behind it.
    pub fn get_ref(&self) -> &R {
        &self.from
    }

    /// Reads until something can be given, or the end.
    fn fill(&mut self) -> io::Result<()> {
        let mut piece = [0; 4096];
        while self.given == self.out.len() {
            let Some(stream) = &mut self.stream else {
                return Ok(());
            };
            let count = self.from.read(&mut piece)?;
            self.out.clear();
            self.given = 0;
            if count > 0 {
                stream
                    .take(&piece[..count], &mut self.out)
                    .map_err(no_memory)?;
            } else if let Some(stream) = self.stream.take() {
                stream.end(&mut self.out).map_err(no_memory)?;
            }
        }
        Ok(())
    }
}

impl<S: Rewriting, R: Read> Read for StreamReader<S, R> {
    fn read(&mut self, to: &mut [u8]) -> io::Result<usize> {
        if to.is_empty() {
            return Ok(0);
        }
        self.fill()?;
        let count = (&self.out[self.given..]).read(to)?;
        self.given += count;
        Ok(count)
    }
}

impl Cleaner {
    /// A writer that passes on what is left of the bytes that are written to it.
    pub fn writer<W: Write>(self, to: W) -> CleanWriter<W> {
        StreamWriter::new(self, to)
    }

    /// A reader of what is left of what is read from another.
    pub fn reader<R: Read>(self, from: R) -> StreamReader<Cleaner, R> {
        StreamReader::new(self, from)
    }

    /// Reads to the end; writes and flushes the text as it comes, and the end. An `Err` is the reader's or the writer's, or
    /// [`ErrorKind::OutOfMemory`]: the output is then a prefix of the text, and a style may be open.
    pub fn copy(mut self, mut from: impl Read, mut to: impl Write) -> io::Result<()> {
        let mut piece = [0; 4096];
        let mut out = Vec::new();
        loop {
            match from.read(&mut piece) {
                Ok(0) => break,
                Ok(count) => self.push(&piece[..count], &mut out).map_err(no_memory)?,
                Err(error) if error.kind() == ErrorKind::Interrupted => continue,
                Err(error) => return Err(error),
            }
            to.write_all(&out)?;
            to.flush()?;
            out.clear();
        }
        self.finish(&mut out).map_err(no_memory)?;
        to.write_all(&out)?;
        to.flush()
    }
}

impl Filter {
    /// A writer that passes on the stream in the filter's spelling.
    pub fn writer<W: Write>(self, to: W) -> StreamWriter<Filter, W> {
        StreamWriter::new(self, to)
    }

    /// A reader of what is read from another, in the filter's spelling.
    pub fn reader<R: Read>(self, from: R) -> StreamReader<Filter, R> {
        StreamReader::new(self, from)
    }
}

impl Lines {
    /// A writer that passes on each line as it stands when it ends, or the page of these.
    pub fn writer<W: Write>(self, to: W) -> StreamWriter<Lines, W> {
        StreamWriter::new(self, to)
    }

    /// A reader of the same of what is read from another.
    pub fn reader<R: Read>(self, from: R) -> StreamReader<Lines, R> {
        StreamReader::new(self, from)
    }
}

impl Markup {
    /// A writer that writes the page of all that is written to it.
    pub fn writer<W: Write>(self, to: W) -> HtmlWriter<W> {
        Lines::html(self).writer(to)
    }
}

/// Writes what a [`Cleaner`] leaves of the bytes that are written to it, at once. [`StreamWriter::finish`] writes the end, so that no style
/// stays open.
///
/// ```
/// use csicodec::Cleaner;
/// use std::io::Write;
///
/// let mut log = Cleaner::strip().writer(Vec::new());
/// write!(log, "\x1b[31m{}\x1b[0m", "failed")?;
/// assert_eq!(log.finish()?, b"failed");
/// # Ok::<(), std::io::Error>(())
/// ```
pub type CleanWriter<W> = StreamWriter<Cleaner, W>;

/// Writes the page of the bytes that are written to it, line by line as [`Lines`] does. [`StreamWriter::finish`] writes the end.
///
/// ```
/// use csicodec::Markup;
/// use std::io::Write;
///
/// let mut page = Markup { fragment: true, ..Markup::default() }.writer(Vec::new());
/// write!(page, "\x1b[3m{}", "slanted")?;
/// assert_eq!(page.finish()?, b"<span style=\"font-style:italic;\">slanted</span>");
/// # Ok::<(), std::io::Error>(())
/// ```
pub type HtmlWriter<W> = StreamWriter<Lines, W>;

/// Writes the plain text of the bytes that are written to it: the [`CleanWriter`] of [`Cleaner::strip`].
///
/// ```
/// use csicodec::StripWriter;
/// use std::io::Write;
///
/// let mut log = StripWriter::new(Vec::new());
/// write!(log, "\x1b[31mfai")?;
/// write!(log, "led\x1b[0m")?;
/// assert_eq!(log.finish()?, b"failed");
/// # Ok::<(), std::io::Error>(())
/// ```
#[derive(Debug)]
pub struct StripWriter<W: Write>(CleanWriter<W>);

impl<W: Write> StripWriter<W> {
    /// A writer that passes on the plain text.
    pub fn new(to: W) -> Self {
        StripWriter(Cleaner::strip().writer(to))
    }

    /// The writer behind it.
    pub fn get_ref(&self) -> &W {
        self.0.get_ref()
    }

    /// Writes the end, and gives the writer behind it back, which isn't flushed.
    pub fn finish(self) -> io::Result<W> {
        self.0.finish()
    }
}

impl<W: Write> Write for StripWriter<W> {
    fn write(&mut self, bytes: &[u8]) -> io::Result<usize> {
        self.0.write(bytes)
    }

    fn flush(&mut self) -> io::Result<()> {
        self.0.flush()
    }
}
