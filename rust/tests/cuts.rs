//! Random streams in every cut have the events that the library itself tells of the whole.

use csicodec::{Event, Parser};
use csicodec_sys as raw;
use std::ops::ControlFlow;

/// The next number of a linear congruential generator, from 0 to below `bound`.
fn random(state: &mut u64, bound: usize) -> usize {
    *state = state
        .wrapping_mul(6364136223846793005)
        .wrapping_add(1442695040888963407);
    (*state >> 33) as usize % bound
}

/// A letter, and behind it each byte; text, strings and what is malformed may be cut anywhere.
fn push(all: &mut Vec<(char, u8)>, letter: char, bytes: &[u8]) {
    all.extend(bytes.iter().map(|byte| (letter, *byte)));
}

/// What the library tells of all the bytes, and how many wait.
fn told(bytes: &[u8]) -> (Vec<(char, u8)>, usize) {
    let (mut actions, mut params) = ([raw::Action::default(); 4], [raw::Param::default(); 4]);
    let (mut all, mut mode, mut looked, mut rest) = (Vec::new(), 0, 0, bytes);
    loop {
        let told = raw::event(mode, 65_536, looked, rest, &mut actions, &mut params);
        if told.status != 0 {
            return (all, rest.len());
        }
        (mode, looked) = (told.mode, told.looked);
        let (event, behind) = rest.split_at(told.used);
        rest = behind;
        match told.kind {
            1 => push(&mut all, 'T', event),
            2 => all.extend(std::iter::repeat_n(('A', 0), told.actions)),
            3 => all.push(('E', *event.last().expect("a final byte"))),
            4 => {
                let first = matches!(event, [0x1b, b'P' | b'X' | b']' | b'^' | b'_', ..]);
                let end = match event {
                    [.., 0x07] if mode == 0 => 1,
                    _ if mode == 0 => 2,
                    _ => 0,
                };
                push(
                    &mut all,
                    'S',
                    &event[if first { 2 } else { 0 }..event.len() - end],
                );
                if mode == 0 {
                    all.push(('.', 0));
                }
            }
            6 => push(&mut all, 'T', &behind[looked - 1..looked]),
            _ => push(&mut all, 'O', event),
        }
    }
}

/// What an event says.
fn say(all: &mut Vec<(char, u8)>, event: Event<'_>) {
    match event {
        Event::Text(text) => push(all, 'T', text),
        Event::Csi(_) => all.push(('A', 0)),
        Event::Esc(esc) => {
            let text = esc.to_string();
            all.push(('E', *text.as_bytes().last().expect("a final byte")));
        }
        Event::Str { bytes, last, .. } => {
            push(all, 'S', bytes);
            if last {
                all.push(('.', 0));
            }
        }
        Event::Other(bytes) => push(all, 'O', bytes),
        _ => unreachable!(),
    }
}

/// The same of a parser that the bytes come to in two pieces.
fn parsed(bytes: &[u8], cut: usize) -> (Vec<(char, u8)>, usize) {
    let mut all = Vec::new();
    let mut parser = Parser::new();
    for piece in [&bytes[..cut], &bytes[cut..]] {
        parser.advance(piece, |event| say(&mut all, event));
    }
    (all, parser.held().len())
}

/// The same of one that is stopped at each event.
fn stopped(bytes: &[u8], cut: usize) -> (Vec<(char, u8)>, usize) {
    let mut all = Vec::new();
    let mut parser = Parser::new();
    for mut piece in [&bytes[..cut], &bytes[cut..]] {
        loop {
            let mut events = 0;
            let used = parser.advance_until(piece, |event| {
                events += 1;
                say(&mut all, event);
                ControlFlow::Break(())
            });
            piece = &piece[used..];
            if events == 0 {
                assert_eq!(piece, b"");
                break;
            }
        }
    }
    let held = parser.held().len();
    parser.reset();
    assert!(parser.is_ground());
    (all, held)
}

fn every_cut(bytes: &[u8]) {
    let wanted = told(bytes);
    for cut in 0..=bytes.len() {
        assert_eq!(parsed(bytes, cut), wanted, "{bytes:?} cut at {cut}");
        assert_eq!(stopped(bytes, cut), wanted, "{bytes:?} cut at {cut}, stopped");
    }
}

#[test]
fn random_streams() {
    let often = b"\x1b\x1b\x1b[[[[]P_\\;;::0123456789?>=<!$ mHJKhltucA\x07\x08\x18~qp\xc3\xa9\xe2\x82\xac\xf0";
    let mut state = 1;
    for _ in 0..2_000 {
        let len = random(&mut state, 40);
        let bytes: Vec<_> = (0..len)
            .map(|_| match random(&mut state, 8) {
                0 => random(&mut state, 256) as u8,
                _ => often[random(&mut state, often.len())],
            })
            .collect();
        every_cut(&bytes);
    }
}

/// Of many bytes, with controls in them.
#[test]
fn random_long_sequences() {
    let body = b"0123456789;;;:\x07\x08\n\x7f";
    let mut state = 2;
    for _ in 0..20 {
        let len = random(&mut state, 600);
        let mut bytes = b"\x1b[".to_vec();
        bytes.extend((0..len).map(|_| body[random(&mut state, body.len())]));
        bytes.push(if random(&mut state, 8) > 0 {
            b'm'
        } else {
            0x18
        });
        every_cut(&bytes);
    }
}
