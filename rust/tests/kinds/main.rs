//! Each kind of action with its text: nothing else compares the kinds' numbers with the library's.

mod table;

use csicodec::*;

fn at(number: u32) -> OneBased {
    OneBased::new(number).unwrap()
}

fn extensions() -> DeviceAttributeFlags {
    DeviceAttributeFlags {
        attributes: vec![
            DeviceAttribute::Code(DeviceAttributeCodes::Printer),
            DeviceAttribute::Unspecified(CsiParam::Integer(7)),
        ],
    }
}

#[test]
fn each_kind() {
    for (action, text, read) in table::kinds() {
        let text = format!("\x1b[{text}");
        assert_eq!(action.to_string(), text);
        assert_eq!(
            encode(std::slice::from_ref(&action)).as_deref(),
            Ok(text.as_bytes())
        );
        assert_eq!(action.is_canonical(), Ok(read), "{action:?}");
        let back: Result<Vec<_>, _> = actions(text.as_bytes()).collect();
        assert_eq!(back == Ok(vec![action]), read, "{text:?}");
    }
}

/// The tokens of a text, and its final character.
fn list_of(text: &str) -> Unspecified {
    let (mut rest, control) = text.split_at(text.len() - 1);
    let mut params = Vec::new();
    while let Some(first) = rest.chars().next() {
        let digits = rest.bytes().take_while(u8::is_ascii_digit).count();
        params.push(match rest[..digits].parse() {
            Ok(number) => CsiParam::Integer(number),
            Err(_) => CsiParam::P(first as u8),
        });
        rest = &rest[digits.max(1)..];
    }
    Unspecified {
        params,
        control: control.chars().next().unwrap(),
    }
}

#[test]
fn each_known_sequence() {
    for (text, kind) in table::known() {
        let known = Known::of(&list_of(text)).map(|known| known.kind());
        assert_eq!(known, Some(kind), "{text:?}");
    }
}
