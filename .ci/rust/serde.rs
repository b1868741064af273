//! The feature `serde`, tried with serde_json: each kind of action there and back, what a value becomes, and what is refused.

#[path = "../tests/kinds/table.rs"]
#[allow(dead_code)]
mod table;

use csicodec::*;
use serde_json::{from_str, json, to_string, to_value};

fn at(number: u32) -> OneBased {
    OneBased::new(number).expect("not 0")
}

fn extensions() -> DeviceAttributeFlags {
    DeviceAttributeFlags::new(vec![
        DeviceAttribute::Code(DeviceAttributeCodes::Printer),
        DeviceAttribute::Unspecified(CsiParam::Integer(7)),
    ])
}

fn main() -> Result<(), serde_json::Error> {
    let kinds = table::kinds();
    for (action, text, _) in &kinds {
        let back: CSI = from_str(&to_string(action)?)?;
        assert_eq!(&back, action, "{text}");
    }
    let unknown = actions(b"\x1b[?2K").next().expect("an action").expect("no error");
    assert_eq!(from_str::<CSI>(&to_string(&unknown)?)?, unknown);

    let place = CSI::from(Cursor::Position { line: at(5), col: at(7) });
    assert_eq!(to_value(&place)?, json!({"Cursor": {"Position": {"line": 5, "col": 7}}}));
    assert_eq!(to_value(Modifiers::SHIFT | Modifiers::CTRL)?, json!(10));
    let told: Vec<_> = events(b"a\x1b[1m\x1bD\x1b]2;t\x07").collect();
    let string = json!({"Str": {"kind": "Osc", "bytes": [50, 59, 116], "first": true, "last": true}});
    assert_eq!(to_value(&told)?, json!([{"Text": [97]}, {"Csi": {"Sgr": {"Intensity": "Bold"}}}, {"Esc": {"Code": "Index"}}, string]));
    let kept: Vec<_> = told.iter().cloned().map(Event::into_owned).collect();
    assert_eq!(from_str::<Vec<OwnedEvent>>(&to_string(&told)?)?, kept);
    let input: Vec<_> = inputs(Dialect::Input, b"\x1bOP\x1b").collect();
    assert_eq!(to_value(&input)?, json!([{"Ss3": "P"}, "Escape"]));
    let key = keys(b"\x1b[97;5u").next().expect("a key").expect("no other event");
    assert_eq!(from_str::<Key>(&to_string(&key)?)?, key);
    let markup = Markup { classes: true, ..Markup::default() };
    assert_eq!(from_str::<Markup>(&to_string(&markup)?)?, markup);
    assert_eq!(from_str::<Depth>("\"Ansi\"")?, Depth::Ansi);

    for wrong in [r#"{"Cursor":{"Position":{"line":0,"col":7}}}"#, r#"{"Cursor":{"Up":4294967296}}"#, r#"{"Cursor":"Up"}"#, r#"{"Sgr":"Bold"}"#] {
        assert!(from_str::<CSI>(wrong).is_err(), "{wrong}");
    }
    println!("serde: {} kinds of actions there and back", kinds.len());
    Ok(())
}
