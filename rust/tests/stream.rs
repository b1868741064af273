//! A stream in every cut has the same events.

use csicodec::{
    CSI, Cursor, Esc, EscCode, Event, Filter, KittyKeyboardFlags, Modifiers, Parser, SpanKind,
    characters, encode_to, events, spans,
};
use std::num::NonZeroUsize;

const STREAM: &[u8] = b"a\x1b[1;31mred\x1b]0;[1m;t\x07\x1b(B\x1b7\x1b[1\x08;2H\x1b[\x7f5A\x1b[3\x18z\x1b[1\xc3\xa9\x1bPq\x1b\x1b[m\x1b\\\x1b_x\x1b[200~\x1b!";

/// What an event says, and whether it goes on with what came before; text, strings and what went wrong are joined.
fn tell(all: &mut Vec<String>, event: Event<'_>) {
    let goes_on = matches!(
        event,
        Event::Text(_) | Event::Other(_) | Event::Str { first: false, .. }
    );
    let (head, tail) = match event {
        Event::Text(text) => ("T".into(), String::from_utf8_lossy(text).into_owned()),
        Event::Csi(csi) => ("A".into(), csi.to_string()),
        Event::Esc(esc) => ("E".into(), esc.to_string()),
        Event::Str {
            kind, bytes, last, ..
        } => (
            format!("{kind:?}"),
            String::from_utf8_lossy(bytes).into_owned() + if last { "." } else { "" },
        ),
        Event::Other(bytes) => ("O".into(), String::from_utf8_lossy(bytes).into_owned()),
        _ => unreachable!(),
    };
    match all.last_mut() {
        Some(last) if goes_on && last.starts_with(&head) => last.push_str(&tail),
        _ => all.push(format!("{head} {tail}")),
    }
}

#[test]
fn every_cut() {
    let mut wanted = Vec::new();
    events(&STREAM[..STREAM.len() - 2]).for_each(|event| tell(&mut wanted, event));
    assert_eq!(
        wanted,
        [
            "T a",
            "A \x1b[1m",
            "A \x1b[31m",
            "T red",
            "Osc 0;[1m;t.",
            "E \x1b(B",
            "E \x1b7",
            "T \x08",
            "A \x1b[1;2H",
            "A \x1b[5A",
            "O \x1b[3",
            "T \x18z",
            "O \x1b[1",
            "T é",
            "Dcs q\x1b\x1b[m.",
            "Apc x",
            "A \x1b[200~",
        ]
    );
    assert_eq!(events(STREAM).last(), Some(Event::Other(b"\x1b!")));
    for i in 0..=STREAM.len() {
        for j in i..=STREAM.len() {
            let mut all = Vec::new();
            let mut parser = Parser::new();
            for part in [&STREAM[..i], &STREAM[i..j], &STREAM[j..]] {
                parser.advance(part, |event| tell(&mut all, event));
            }
            assert_eq!(all, wanted, "cut at {i} and {j}");
            assert_eq!(parser.held(), b"\x1b!");
            parser.finish(|event| assert_eq!(event, Event::Other(b"\x1b!")));
        }
    }
}

#[test]
fn controls_at_the_limit() {
    let stream = [b"\x1b[".as_slice(), &b"1\n".repeat(40_000), b"m"].concat();
    let mut wanted = Vec::new();
    events(&stream).for_each(|event| tell(&mut wanted, event));
    for size in [1_000, 65_536, 70_000] {
        let mut all = Vec::new();
        let mut parser = Parser::new();
        for piece in stream.chunks(size) {
            parser.advance(piece, |event| tell(&mut all, event));
        }
        assert!(all == wanted, "in pieces of {size}");
    }
}

#[test]
fn parts_and_names() {
    let all: Vec<_> = spans(STREAM).collect();
    assert_eq!(
        all.iter()
            .flat_map(|span| span.bytes)
            .copied()
            .collect::<Vec<_>>(),
        STREAM
    );
    assert_eq!(all.last().map(|span| span.kind), Some(SpanKind::Other));
    assert_eq!(
        Esc::parse(Some(b'('), b'0'),
        Esc::Code(EscCode::DecLineDrawingG0)
    );
    let unknown = Esc::Unspecified {
        intermediate: Some(b'!'),
        control: b'a',
    };
    assert_eq!(Esc::parse(Some(b'!'), b'a'), unknown);
    assert_eq!(
        (unknown.to_string(), Esc::parse(None, b'7').to_string()),
        ("\x1b!a".into(), "\x1b7".into())
    );
    let keys = Modifiers::SHIFT | Modifiers::CTRL | Modifiers::from_bits_retain(64);
    assert_eq!(
        format!("{keys:?} {:?}", KittyKeyboardFlags::NONE),
        "SHIFT | CTRL | 0x40 NONE"
    );
    let mut out = b"a".to_vec();
    encode_to(&[CSI::from(Cursor::Up(2))], &mut out).expect("a text");
    assert_eq!(out, b"a\x1b[2A");
    assert_eq!(csicodec_sys::version(), 12700);
}

#[test]
fn characters_are_never_cut() {
    let mut bytes = "aé€😀\r\n".as_bytes().to_vec();
    bytes.extend_from_slice(b"\x1b[m\xe2\x82\x1b[mz\xf0\x9f");
    let wanted = "aé€😀\r\n\u{fffd}z\u{fffd}";
    for size in 1..=bytes.len() {
        let mut told = String::new();
        let mut parser = Parser::new();
        let mut tell = |event: Event<'_>| {
            if let Event::Text(text) = event {
                told.extend(characters(text));
            }
        };
        bytes
            .chunks(size)
            .for_each(|piece| parser.advance(piece, &mut tell));
        assert_eq!(parser.held(), b"\xf0\x9f");
        parser.finish(&mut tell);
        assert_eq!(told, wanted, "pieces of {size}");
    }
    assert_eq!(events(&bytes).last(), Some(Event::Text(b"z\xf0\x9f")));
}

#[test]
fn a_reader_to_its_end() {
    let mut all = Vec::new();
    let read = Parser::new().read_to_end(STREAM, |event| tell(&mut all, event));
    assert!(read.is_ok());
    let mut wanted = Vec::new();
    events(STREAM).for_each(|event| tell(&mut wanted, event));
    assert_eq!(all, wanted);
}

/// A hostile sequence that comes byte by byte: read with each byte anew it would cost seconds.
#[test]
fn long_sequences_byte_by_byte() {
    for (part, end, wanted) in [
        (b"1;".as_slice(), b"m".as_slice(), 30_000),
        (b"\x08", b"A", 60_001),
        (b"1", b"m", 1),
    ] {
        let bytes = [b"\x1b[", &part.repeat(60_000 / part.len())[..], end].concat();
        let mut count = 0;
        let mut parser = Parser::new();
        for byte in &bytes {
            parser.advance(&[*byte], |_| count += 1);
        }
        assert_eq!((count, parser.held().len()), (wanted, 0), "{part:?}");
        assert_eq!(events(&bytes).count(), wanted, "{part:?}");
        let mut filter = Filter::new(NonZeroUsize::new(65_536).expect("not 0"));
        let (mut whole, mut out) = (filter.clone(), [Vec::new(), Vec::new()]);
        for byte in &bytes {
            filter.push(&[*byte], &mut out[0]).expect("memory");
        }
        whole.push(&bytes, &mut out[1]).expect("memory");
        assert_eq!(out[0], out[1], "{part:?}");
    }
}

/// What terminals carry out of lists that aren't read whole, with a control in one; the library reads all of the last one.
#[test]
fn as_terminals() {
    let many = ["98;".repeat(100), "98m".repeat(100)];
    for (given, wanted) in [
        ("0;1;98;31m", "0m1m98m31m"),
        ("98\n;31m", "98m31m"),
        ("1;m", "1m0m"),
        (";H", "1;1H"),
        ("10;20;H", "10;20H"),
        ("?1049!l", "?1049!l"),
        (&format!("{}1m", many[0]), &format!("{}1m", many[1])),
        ("1;31m", "1m31m"),
    ] {
        let bytes = format!("\x1b[{given}").into_bytes();
        let (mut whole, mut cut) = (String::new(), String::new());
        let tell = |out: &mut String, event: Event<'_>| {
            if let Event::Csi(action) = event {
                out.push_str(&action.to_string()[2..]);
            }
        };
        events(&bytes)
            .as_terminals()
            .for_each(|event| tell(&mut whole, event));
        let mut parser = Parser::new().as_terminals();
        for byte in &bytes {
            parser.advance(&[*byte], |event| tell(&mut cut, event));
        }
        assert_eq!((whole.as_str(), cut.as_str()), (wanted, wanted));
    }
}
