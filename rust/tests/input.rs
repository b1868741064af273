//! What a terminal sends: each form, and in every cut the same events.

use csicodec::{CSI, Cursor, Dialect, Event, InputEvent, Parser, inputs};

const KEYS: &[u8] = b"a\x1bOP\x1b[[A\x1b[23$\x1b[5;3R\x1b[M !\"\x1b[M\xc4\x80\xdf\xbf\x1bx\x1b\x1bO\x07\xc3\xa9\x1b]11;c\x1b\\\x1b";

/// What is told; each byte of text and of a string alone, as these may be cut anywhere.
fn tell(all: &mut Vec<String>, event: InputEvent<'_>) {
    match event {
        InputEvent::Output(Event::Text(bytes) | Event::Str { bytes, .. } | Event::Other(bytes)) => {
            all.extend(bytes.iter().map(|byte| format!("{:?}", char::from(*byte))));
        }
        InputEvent::Output(Event::Csi(csi)) => all.push(csi.to_string()),
        event => all.push(format!("{event:?}")),
    }
}

#[test]
fn each_form() {
    let all: Vec<_> = inputs(Dialect::Input, KEYS).collect();
    let report = |line, col| CSI::from(Cursor::ActivePositionReport { line, col });
    let at = |number: u32| csicodec::OneBased::new(number).unwrap();
    assert_eq!(all[1], InputEvent::Ss3('P'));
    assert_eq!(all[2], InputEvent::Linux('A'));
    assert_eq!(all[3], InputEvent::Rxvt(23));
    assert_eq!(all[4], InputEvent::Output(Event::Csi(report(at(5), at(3)))));
    let mouse = |button, column, line| InputEvent::Mouse {
        button,
        column,
        line,
    };
    assert_eq!(all[5..7], [mouse(0, 1, 2), mouse(164, 96, 191)]);
    assert_eq!(all[7], InputEvent::Output(Event::Text(b"\xbf")));
    assert_eq!(
        all[8..11],
        [
            InputEvent::Alt('x'),
            InputEvent::Escape,
            InputEvent::Alt('O')
        ]
    );
    assert_eq!(all.last(), Some(&InputEvent::Escape));
    let modified = |number, modifiers, control| InputEvent::Modified {
        number,
        modifiers,
        control,
    };
    let others: Vec<_> = inputs(
        Dialect::Input,
        b"\x1bO2P\x1bO1;5S\x1b\x1b[A\x1b\x1b[15~\x1b\xc3\xa9\x1b[I\x1b\x1b",
    )
    .collect();
    assert_eq!(
        others,
        [
            modified(1, 2, 'P'),
            modified(1, 5, 'S'),
            modified(1, 3, 'A'),
            modified(15, 3, '~'),
            InputEvent::Alt('é'),
            InputEvent::FocusGained,
            InputEvent::Escape,
            InputEvent::Escape,
        ]
    );
    let wide: Vec<_> = inputs(Dialect::Utf8Input, b"\x1b[M\xc4\x80\xdf\xbf!").collect();
    assert_eq!(wide, [mouse(224, 2015, 1)]);
    let unfinished: Vec<_> = inputs(Dialect::Input, b"\x1b[M !").collect();
    assert_eq!(unfinished, [InputEvent::Output(Event::Other(b"\x1b[M !"))]);
}

#[test]
fn every_cut() {
    for dialect in [Dialect::Input, Dialect::Utf8Input] {
        let mut wanted = Vec::new();
        inputs(dialect, KEYS).for_each(|event| tell(&mut wanted, event));
        for i in 0..=KEYS.len() {
            for j in i..=KEYS.len() {
                let mut all = Vec::new();
                let mut parser = Parser::new();
                for part in [&KEYS[..i], &KEYS[i..j], &KEYS[j..]] {
                    parser.advance_input(dialect, part, |event| tell(&mut all, event));
                }
                assert_eq!(parser.held(), b"\x1b");
                parser.pause(|event| tell(&mut all, event));
                assert_eq!(
                    (all, parser.held().len()),
                    (wanted.clone(), 0),
                    "cut at {i} and {j}"
                );
            }
        }
    }
}

#[test]
fn what_goes_on_waiting() {
    let mut parser = Parser::new();
    parser.advance_input(Dialect::Input, b"\x1b[1;", |_| unreachable!());
    parser.pause(|_| unreachable!());
    assert_eq!(parser.held(), b"\x1b[1;");
    let mut all = Vec::new();
    parser.advance_input(Dialect::Input, b"5A", |event| tell(&mut all, event));
    assert_eq!(all, ["\x1b[1;5A"]);
}
