//! What callers may do with the types: copy, compare and put into tables, write through, and pass text as they have it.

use csicodec::{
    CSI, CleanWriter, Event, HtmlWriter, OwnedEvent, Pen, StripWriter, actions, events, strip,
};
use std::collections::HashSet;
use std::fmt::Debug;
use std::hash::Hash;
use std::io::{self, Write};

fn is_plain<T: Copy + Debug + Default + Eq + Hash + Send + Sync + 'static>() {}
fn is_writer<T: Write + Debug>() {}

#[test]
fn types_have_what_callers_ask() {
    is_plain::<Pen>();
    is_writer::<StripWriter<io::Sink>>();
    is_writer::<CleanWriter<io::Sink>>();
    is_writer::<HtmlWriter<io::Sink>>();
    let texts = [
        strip("\x1b[1ma"),
        strip(b"\x1b[1ma"),
        strip(String::from("a")),
        strip(vec![b'a']),
        strip(&b"a"[..]),
    ];
    assert!(texts.iter().all(|text| text.as_deref() == Ok("a")));
    let owned: Vec<OwnedEvent> = {
        let stream = b"a\x1b[1m\x1b]0;t\x07".to_vec();
        events(&stream).map(Event::into_owned).collect()
    };
    assert_eq!(owned.len(), 3);
    assert!(owned.iter().eq(&owned.clone()));
}

/// The pen behind these bytes.
fn pen(bytes: &[u8]) -> Pen {
    let mut pen = Pen::new();
    for action in actions(bytes) {
        if let CSI::Sgr(sgr) = action.expect("a sequence") {
            pen.set(sgr);
        }
    }
    pen
}

#[test]
fn pens_that_look_alike_are_one() {
    let alike: [&[&[u8]]; 5] = [
        &[
            b"\x1b[m",
            b"\x1b[1;3;4;31;44m\x1b[0m",
            b"\x1b[1;22m",
            b"\x1b[38;5;9;39m",
            b"\x1b[4:3;24m",
        ],
        &[
            b"\x1b[31m",
            b"\x1b[38;5;1m",
            b"\x1b[38:5:1m",
            b"\x1b[32;31m",
        ],
        &[b"\x1b[91m", b"\x1b[38;5;9m"],
        &[
            b"\x1b[38;2;1;2;3m",
            b"\x1b[38:2::1:2:3m",
            b"\x1b[38:2:1:2:3m",
        ],
        &[b"\x1b[1;4m", b"\x1b[4:1m\x1b[2;1m", b"\x1b[4;7;1;27m"],
    ];
    let mut seen = HashSet::new();
    for group in alike {
        let pens: HashSet<Pen> = group.iter().map(|bytes| pen(bytes)).collect();
        assert_eq!(pens.len(), 1, "{pens:?}");
        assert!(pens.into_iter().all(|pen| seen.insert(pen)));
    }
}
