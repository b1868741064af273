//! Untrusted text, all at once and as it comes, in every cut.

use csicodec::{Cleaner, Depth, Error, Filter, Passing, clean, clean_with, strip};
use std::io::{self, Read, Write};
use std::num::NonZeroUsize;

const STREAM: &[u8] = b"a\xc3\xa9\x1b[01;38;2;250;5;5mred\x1b]8;;u\x07\x1bk\xc3t\x1b\\\xe2\x82\x1b[3m\xac\xf0\x9f\x98\x80\xf0\x9f\x1b]0;t\x1b[1\x08;2m\xe2\x82\x1b[0m\x1b[8mh\x1b[4m\xf0\x9f\x98\x1b(0q\x1b)A#\x0e#\x1b[!pq#\x1b[2";

fn cleaned(mut cleaner: Cleaner, parts: &[&[u8]]) -> String {
    let mut out = Vec::new();
    for part in parts {
        cleaner.push(part, &mut out).expect("memory");
        // No character is cut.
        assert!(std::str::from_utf8(&out).is_ok());
    }
    cleaner.finish(&mut out).expect("memory");
    String::from_utf8(out).unwrap()
}

#[test]
fn every_cut() {
    let whole = |depth| {
        let links = false;
        clean_with(Passing { depth, links }, STREAM).unwrap()
    };
    assert_eq!(whole(Depth::Full), clean(STREAM).unwrap());
    let wanted = [
        (Cleaner::strip(), strip(STREAM).unwrap()),
        (Cleaner::clean(Depth::Full), whole(Depth::Full)),
        (Cleaner::clean(Depth::Palette), whole(Depth::Palette)),
        (Cleaner::clean(Depth::Ansi), whole(Depth::Ansi)),
    ];
    for i in 0..=STREAM.len() {
        for j in i..=STREAM.len() {
            let parts = [&STREAM[..i], &STREAM[i..j], &STREAM[j..]];
            for (cleaner, text) in &wanted {
                assert_eq!(cleaned(cleaner.clone(), &parts), *text, "{i} {j}");
            }
        }
    }
    let bytes: Vec<_> = STREAM.chunks(1).collect();
    for (cleaner, text) in wanted {
        assert_eq!(cleaned(cleaner, &bytes), text);
    }
}

#[test]
fn lines_are_drawn() {
    assert_eq!(strip(b"\x1b(0lqk\x1b(Bq").unwrap(), "┌─┐q");
    let parts: [&[u8]; 4] = [b"\x1b", b"(0l", b"qk\x1b)B\x0e", b"q"];
    assert_eq!(cleaned(Cleaner::clean(Depth::Full), &parts), "┌─┐q");
}

#[test]
fn what_is_held_is_short() {
    let long = [b"x\x1b[".as_slice(), &b"1;".repeat(40000), b"my"].concat();
    let parts: Vec<_> = long.chunks(1).collect();
    assert_eq!(cleaned(Cleaner::strip(), &parts), strip(&long).unwrap());
    // More than the first guess has room for.
    let many = [b"\x1b[".as_slice(), &b";".repeat(1000), b"m"].concat();
    assert_eq!(
        cleaned(Cleaner::clean(Depth::Full), &[&many]),
        clean(&many).unwrap()
    );
}

/// Gives a byte at a time, and is interrupted before each.
struct Slow<'a>(&'a [u8], bool);

impl Read for Slow<'_> {
    fn read(&mut self, out: &mut [u8]) -> io::Result<usize> {
        self.1 = !self.1;
        if self.1 {
            return Err(io::ErrorKind::Interrupted.into());
        }
        self.0.read(&mut out[..1])
    }
}

/// Takes so many bytes, and then none.
struct Full(Vec<u8>, usize);

impl Write for Full {
    fn write(&mut self, bytes: &[u8]) -> io::Result<usize> {
        let count = bytes.len().min(self.1 - self.0.len());
        self.0.extend_from_slice(&bytes[..count]);
        Ok(count)
    }

    fn flush(&mut self) -> io::Result<()> {
        Ok(())
    }
}

#[test]
fn from_a_reader_to_a_writer() {
    let wanted = clean(STREAM).unwrap();
    let mut out = Vec::new();
    let cleaner = Cleaner::clean(Depth::Full);
    cleaner
        .clone()
        .copy(Slow(STREAM, false), &mut out)
        .expect("no failure");
    assert_eq!(out, wanted.as_bytes());
    let mut full = Full(Vec::new(), 9);
    let error = cleaner.copy(STREAM, &mut full).expect_err("no room");
    assert_eq!(error.kind(), io::ErrorKind::WriteZero);
    assert_eq!(full.0, &wanted.as_bytes()[..9]);
}

/// A writer that takes three bytes at a time, and fails each second time.
#[derive(Debug, Default)]
struct Flaky(Vec<u8>, bool);

impl Write for Flaky {
    fn write(&mut self, bytes: &[u8]) -> io::Result<usize> {
        self.1 = !self.1;
        if self.1 {
            return Err(io::ErrorKind::WouldBlock.into());
        }
        let count = bytes.len().min(3);
        self.0.extend_from_slice(&bytes[..count]);
        Ok(count)
    }

    fn flush(&mut self) -> io::Result<()> {
        Ok(())
    }
}

#[test]
fn into_a_writer_that_fails() {
    let wanted = clean(STREAM).unwrap();
    let mut writer = Cleaner::clean(Depth::Full).writer(Flaky::default());
    let (mut taken, mut failed) = (0, 0);
    while taken < STREAM.len() {
        match writer.write(&STREAM[taken..STREAM.len().min(taken + 5)]) {
            Ok(count) => taken += count,
            Err(error) => {
                assert_eq!(error.kind(), io::ErrorKind::WouldBlock);
                failed += 1;
            }
        }
    }
    assert!(failed > 0);
    while writer.flush().is_err() {}
    let mut sure = Vec::new();
    let mut cleaner = Cleaner::clean(Depth::Full);
    cleaner.push(STREAM, &mut sure).unwrap();
    assert_eq!(writer.get_ref().0, sure);
    let mut left = Cleaner::clean(Depth::Full).writer(Vec::new());
    left.write_all(STREAM).unwrap();
    assert_eq!(left.finish().unwrap(), wanted.as_bytes());
}

#[test]
fn colons_and_semicolons() -> Result<(), Error> {
    let limit = NonZeroUsize::new(65536).unwrap();
    for (mut filter, wanted) in [
        (Filter::compact(limit), b"\x1b[38:5:99ma\x1b[1;3m"),
        (
            Filter::compact_semicolons(limit),
            b"\x1b[38;5;99ma\x1b[1;3m",
        ),
    ] {
        let mut out = Vec::new();
        filter.push(b"\x1b[38:5:99ma\x1b[01;3m", &mut out)?;
        assert_eq!(out, wanted);
    }
    Ok(())
}
