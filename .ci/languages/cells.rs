//! What the crate has, each row tried: a row's name is said behind it.
use csicodec::{CSI, Cleaner, Cursor, Dialect, Event, Filter, InputEvent, Key, KeyCode, KeyModifiers, KeyParser, Known, KnownKind, Lines, Markup, Osc, OscKind, Parser, Sgr, SpanKind};
use std::num::NonZeroUsize;

fn says(row: &str, is_so: bool) {
    assert!(is_so, "{row}");
    println!("{row}");
}

fn main() -> Result<(), Box<dyn std::error::Error>> {
    let events: Vec<_> = csicodec::events(b"a\x1b[2A").collect();
    says("events", events == [Event::Text(b"a"), Event::Csi(CSI::Cursor(Cursor::Up(2)))]);
    let (mut parser, mut count) = (Parser::new(), 0);
    for piece in [b"\x1b[5".as_slice(), b";7H", b"\x1b["] {
        parser.advance(piece, |_| count += 1);
    }
    parser.finish(|_| count += 1);
    says("parser", count == 2);
    says("input", csicodec::inputs(Dialect::Input, b"\x1bOP\x1b").eq([InputEvent::Ss3('P'), InputEvent::Escape]));
    let key = csicodec::keys(b"\x1b[97;5u").next().and_then(Result::ok);
    says("keys", key.is_some_and(|it| (it.code, it.modifiers) == (KeyCode::Char('a'), KeyModifiers::CTRL)) && Key::read(b"\x1b", true).is_none() && csicodec::keys(b"\x1b[\nA").count() == 2
        && csicodec::keys(b"\x1bPa\x1bP").eq([Err(&b"\x1bPa"[..]), Err(b"\x1bP")]));
    let (mut presses, mut pressed) = (KeyParser::new(), Vec::new());
    presses.advance(b"a\x1b", |key| pressed.extend(key));
    assert_eq!(pressed.len(), 1);
    presses.pause(|key| pressed.extend(key));
    assert_eq!(pressed[1].code, KeyCode::Escape);
    let link = Osc::read(b"8;;http://a.example");
    says("osc", (link.kind, link.second) == (OscKind::Link, Some(b"http://a.example".as_slice())));
    let fragment = Markup { fragment: true, ..Markup::default() };
    says("html", fragment.html(b"1\r\x1b[1m<")? == "<span style=\"font-weight:bold;\">&lt;</span>" && csicodec::overwrite(b"1\r2")? == "2");
    let (mut lines, mut written) = (Lines::html(fragment), Vec::new());
    lines.push(b"1\r\x1b[1m<\n", &mut written)?;
    says("lines", written == b"<span style=\"font-weight:bold;\">&lt;</span>\n");
    let Some(Event::Csi(CSI::Unspecified(unknown))) = csicodec::events(b"\x1b[?2K").next() else { panic!() };
    says("known", Known::of(&unknown).is_some_and(|it| it.kind() == KnownKind::DECSEL));
    says("spans", csicodec::spans(b"a\x1b[m").map(|it| it.kind).eq([SpanKind::Text, SpanKind::Csi]));
    let (mut cleaned, mut filtered) = (Vec::new(), Vec::new());
    let mut cleaner = Cleaner::strip();
    cleaner.push(b"a\x1b[01", &mut cleaned)?;
    cleaner.push(b"mb", &mut cleaned)?;
    Filter::new(NonZeroUsize::MAX).push(b"\x1b[01m", &mut filtered)?;
    says("whole", csicodec::strip(b"\x1b[01ma")? == "a" && csicodec::clean(b"\x1b[01ma")? == "\x1b[1ma\x1b[0m"
        && csicodec::filter(b"\x1b[01ma")? == b"\x1b[1ma" && csicodec::compact(b"\x1b[1m\x1b[3ma")? == b"\x1b[1;3ma");
    says("stream", cleaned == b"ab" && filtered == b"\x1b[1m");
    says("encode", csicodec::encode(&[CSI::Sgr(Sgr::Italic(true))])? == b"\x1b[3m");
    says("explain", csicodec::explain(b"\x1b[5;7H")?.contains("cursor to line 5, column 7"));
    Ok(())
}
