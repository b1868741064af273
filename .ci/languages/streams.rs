//! Whether the crate tells the events of streams.tsv, whose path is given.
use csicodec::{Event, Parser, StringKind, events};

fn hex(bytes: &[u8]) -> String {
    bytes.iter().map(|byte| format!("{byte:02x}")).collect()
}

/// An event as a row has it; a piece that goes on with the one before begins with +.
fn word(event: &Event<'_>) -> String {
    match event {
        Event::Text(bytes) => format!("T{}", hex(bytes)),
        Event::Other(bytes) => format!("M{}", hex(bytes)),
        Event::Csi(action) => format!("A{}", &action.to_string()[2..]),
        Event::Esc(esc) => format!("E{}", hex(&esc.to_string().as_bytes()[1..])),
        Event::Str { kind, bytes, first, last } => {
            let name = match kind {
                StringKind::Osc => "OSC(",
                StringKind::Dcs => "DCS(",
                StringKind::Sos => "SOS(",
                StringKind::Pm => "PM(",
                _ => "APC(",
            };
            format!("{}{}{}", if *first { name } else { "+" }, hex(bytes), if *last { ")" } else { "" })
        }
        other => panic!("{other:?}"),
    }
}

fn told(words: &[String]) -> String {
    let mut joined: Vec<String> = Vec::new();
    for now in words {
        let goes_on = now.starts_with('+') || joined.last().is_some_and(|last| last[..1] == now[..1] && "TM".contains(&now[..1]));
        match joined.last_mut() {
            Some(last) if goes_on => last.push_str(&now[1..]),
            _ => joined.push(now.clone()),
        }
    }
    joined.join(" ")
}

fn main() {
    let text = std::fs::read_to_string(std::env::args().nth(1).unwrap()).unwrap();
    let rows: Vec<_> = text.lines().filter(|row| !row.starts_with('#')).collect();
    for row in &rows {
        let (stream, wanted) = row.split_once('\t').unwrap();
        let held: Vec<u8> = (0..stream.len()).step_by(2).map(|at| u8::from_str_radix(&stream[at..at + 2], 16).unwrap()).collect();
        let whole: Vec<_> = events(&held).map(|event| word(&event)).collect();
        assert_eq!(told(&whole), wanted, "{stream}");
        for cut in 0..=held.len() {
            let (mut parser, mut words) = (Parser::new(), Vec::new());
            parser.advance(&held[..cut], |event| words.push(word(&event)));
            parser.advance(&held[cut..], |event| words.push(word(&event)));
            parser.finish(|event| words.push(word(&event)));
            assert_eq!(told(&words), wanted, "{stream}, cut at {cut}");
        }
    }
    assert!(rows.len() > 20);
    println!("streams: {} of Rust", rows.len());
}
