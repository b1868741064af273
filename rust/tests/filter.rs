//! A whole stream through the filter, in every cut.

use csicodec::Filter;
use std::num::NonZeroUsize;

const STREAM: &[u8] = b"a\x1b[1;31mred\x1b]0;[1;3m\x07\x1b(B\x1b[0001A\x1b[1\x07z\x1b[";
const WANTED: &[u8] = b"a\x1b[1m\x1b[31mred\x1b]0;[1;3m\x07\x1b(B\x1b[A\x1b[1\x07z\x1b[";

fn filtered(limit: usize, parts: &[&[u8]]) -> Vec<u8> {
    let mut filter = Filter::new(NonZeroUsize::new(limit).unwrap());
    let mut out = Vec::new();
    for part in parts {
        filter.push(part, &mut out).expect("memory");
    }
    filter.finish(&mut out);
    out
}

#[test]
fn any_cut() {
    for i in 0..=STREAM.len() {
        for j in i..=STREAM.len() {
            let parts = [&STREAM[..i], &STREAM[i..j], &STREAM[j..]];
            assert_eq!(filtered(65536, &parts), WANTED);
        }
    }
}

#[test]
fn fewer_bytes() {
    let mut filter = Filter::compact(NonZeroUsize::new(65536).unwrap());
    let mut out = Vec::new();
    for part in [b"a\x1b[01;38:2::255:0:0m".as_slice(), b"b\x1b[1;", b"1H"] {
        filter.push(part, &mut out).expect("memory");
    }
    filter.finish(&mut out);
    assert_eq!(out, b"a\x1b[1;38;2;255;0;0mb\x1b[H");
}

#[test]
fn long_sequences_pass() {
    assert_eq!(filtered(5, &[b"\x1b[0001A\x1b[01A"]), b"\x1b[0001A\x1b[A");
    // More than the first guess has room for.
    let many = [b"\x1b[".as_slice(), &b";".repeat(1000), b"m"].concat();
    assert_eq!(
        filtered(65536, &[&many]),
        csicodec::normalise(&many).unwrap()
    );
}
