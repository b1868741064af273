//! Calls through the boundary.

use csicodec::{
    Blink, CSI, ColorSpec, CsiParam, Cursor, DecPrivateMode, Error, Esc, EscCode, Font, Intensity,
    Mode, OneBased, Sgr, SrgbaTuple, Underline, Unspecified, VerticalAlign, Window, actions,
    encode, front, normalise,
};

fn all(bytes: &[u8]) -> Vec<CSI> {
    actions(bytes).collect::<Result<_, _>>().expect("actions")
}

#[test]
fn normal_forms() {
    assert_eq!(normalise(b""), Ok(vec![]));
    assert_eq!(
        normalise(b"\x1b[0001;3m").as_deref(),
        Ok(&b"\x1b[1m\x1b[3m"[..])
    );
    // More than the first guess has room for.
    let long = [b"\x1b[".as_slice(), &b";".repeat(1000), b"m"].concat();
    let more = [b"\x1b[0".as_slice(), &b";%".repeat(1000), b"m"].concat();
    for bytes in [long, more] {
        assert_eq!(normalise(&bytes), encode(&all(&bytes)));
    }
}

#[test]
fn typed_actions() {
    let position = CSI::Cursor(Cursor::Position {
        line: OneBased::new(4).unwrap(),
        col: OneBased::new(10).unwrap(),
    });
    assert_eq!(
        all(b"\x1b[1;3m\x1b[4;10H"),
        [
            CSI::Sgr(Sgr::Intensity(Intensity::Bold)),
            CSI::Sgr(Sgr::Italic(true)),
            position,
        ]
    );
    let unknown = Unspecified {
        params: vec![CsiParam::Integer(0), CsiParam::P(b'%')],
        control: 'm',
    };
    assert_eq!(all(b"\x1b[0%m"), [CSI::Unspecified(Box::new(unknown))]);
}

#[test]
fn absent_numbers() {
    for (width, height, text) in [
        (Some(3), None, "\x1b[4;;3t"),
        (None, Some(4), "\x1b[4;4;t"),
        (None, None, "\x1b[4;;t"),
    ] {
        let action = CSI::Window(Box::new(Window::ResizeWindowPixels { width, height }));
        assert_eq!(action.to_string(), text);
        assert_eq!(all(text.as_bytes()), [action]);
    }
}

#[test]
fn attributes() {
    let shade = |alpha| ColorSpec::TrueColor(SrgbaTuple(1, 2, 3, alpha));
    for (sgr, text) in [
        (Sgr::Intensity(Intensity::Normal), "22m"),
        (Sgr::Intensity(Intensity::Half), "2m"),
        (Sgr::Underline(Underline::None), "24m"),
        (Sgr::Underline(Underline::Single), "4m"),
        (Sgr::Underline(Underline::Double), "21m"),
        (Sgr::Underline(Underline::Dotted), "4:4m"),
        (Sgr::Underline(Underline::Dashed), "4:5m"),
        (Sgr::UnderlineColor(ColorSpec::Default), "59m"),
        (Sgr::UnderlineColor(shade(255)), "58:2::1:2:3m"),
        (Sgr::UnderlineColor(shade(4)), "58:6::1:2:3:4m"),
        (Sgr::Blink(Blink::None), "25m"),
        (Sgr::Blink(Blink::Rapid), "6m"),
        (Sgr::Italic(false), "23m"),
        (Sgr::Font(Font::Default), "10m"),
        (Sgr::Foreground(ColorSpec::Default), "39m"),
        (Sgr::Foreground(ColorSpec::PaletteIndex(1)), "31m"),
        (Sgr::Foreground(shade(255)), "38:2::1:2:3m"),
        (Sgr::Background(shade(4)), "48:6::1:2:3:4m"),
        (Sgr::VerticalAlign(VerticalAlign::BaseLine), "75m"),
        (Sgr::VerticalAlign(VerticalAlign::SubScript), "74m"),
    ] {
        let action = CSI::Sgr(sgr);
        let text = format!("\x1b[{text}");
        assert_eq!(action.to_string(), text);
        assert_eq!(all(text.as_bytes()), [action]);
    }
}

#[test]
fn refusals() {
    assert_eq!(
        normalise(b"\x1b[1m\x1b[3"),
        Err(Error::Truncated { start: 4, at: 3 })
    );
    assert_eq!(
        Error::Truncated { start: 4, at: 3 }.to_string(),
        "byte 7: truncated"
    );
    let mut run = actions(b"\x1b[1mx");
    assert!(run.next().unwrap().is_ok());
    assert_eq!(run.next(), Some(Err(Error::NotCsi { start: 4, at: 0 })));
    assert_eq!(run.next(), None);
    for font in [0, 10] {
        let font = CSI::Sgr(Sgr::Font(Font::Alternate(font)));
        assert_eq!(font.is_canonical(), Err(Error::NoAction { at: 0 }));
        assert_eq!(
            encode(&[CSI::Sgr(Sgr::Reset), font]),
            Err(Error::NoAction { at: 1 })
        );
    }
}

#[test]
fn parts_are_actions() {
    assert_eq!(CSI::from(Cursor::Up(2)).to_string(), "\x1b[2A");
    let mode = Mode::SetDecPrivateMode(DecPrivateMode::from(2004));
    assert_eq!(CSI::from(mode).to_string(), "\x1b[?2004h");
    assert_eq!(CSI::from(Window::RaiseWindow).to_string(), "\x1b[5t");
}

#[test]
fn the_front() {
    let long = [b"\x1b[".as_slice(), &b"1;3;".repeat(100), b"m"].concat();
    for text in [b"\x1b[1;3m".as_slice(), b"\x1b[200~", b"\x1b[0%m", &long] {
        let bytes = [text, b"\x1b[2Ax"].concat();
        let first = front(&bytes).expect("a sequence");
        assert_eq!(first.used, text.len());
        assert_eq!(first.actions, all(text));
    }
    let refused = [
        (b"".as_slice(), Error::Truncated { start: 0, at: 0 }),
        (b"\x1b[1", Error::Truncated { start: 0, at: 3 }),
        (b"x", Error::NotCsi { start: 0, at: 0 }),
        (b"\x1b[1\x18", Error::BadByte { start: 0, at: 3 }),
    ];
    for (bytes, error) in refused {
        assert_eq!(front(bytes), Err(error), "{bytes:?}");
    }
}

#[test]
fn cursors_on_a_page() {
    let page = (24, 80);
    for (text, from, wanted) in [
        ("\x1b[300A", (4, 80), Some((0, 80))),
        ("\x1b[2E", (4, 7), Some((6, 0))),
        ("\x1b[2F", (4, 7), Some((2, 0))),
        ("\x1b[2D", (4, 80), Some((4, 77))),
        ("\x1b[300C", (4, 7), Some((4, 79))),
        ("\x1b[300;300H", (4, 7), Some((23, 79))),
        ("\x1b[9f", (4, 7), Some((8, 0))),
        ("\x1b[9d", (4, 7), Some((8, 7))),
        ("\x1b[9G", (4, 7), Some((4, 8))),
        ("\x1b[6n", (4, 7), None),
    ] {
        let [CSI::Cursor(cursor)] = all(text.as_bytes())[..] else {
            panic!("{text:?} is no action of the cursor");
        };
        assert_eq!(cursor.target(from, page), wanted, "{text:?}");
    }
    assert_eq!(Cursor::Right(3).target((4, 7), (0, 0)), Some((0, 0)));
}

/// The package's own table of codes says of all bytes what the library's call says.
#[test]
fn escape_codes() {
    for pair in 0..=u16::MAX {
        let [intermediate, control] = pair.to_be_bytes();
        let number = csicodec_sys::esc(intermediate, control);
        let wanted = EscCode::from_i64(i64::from(number)).map(Esc::Code);
        let parsed = Esc::parse((intermediate != 0).then_some(intermediate), control);
        assert_eq!(matches!(parsed, Esc::Code(_)).then_some(parsed), wanted);
        assert_eq!(wanted.is_some(), number != 0);
    }
}
