//! A stream in words, where the program is there.

use csicodec::{Explain, explain};
use std::io::ErrorKind;

#[test]
fn a_stream_is_told_in_words() {
    let stream = b"a\x1b[5;7H\x1b[1m\x1b[>5000z";
    let told = match explain(stream) {
        Err(error) if error.kind() == ErrorKind::NotFound => {
            eprintln!("skipped, without the program: {error}");
            return;
        }
        told => told.expect("it runs"),
    };
    let lines: Vec<_> = told.lines().collect();
    assert_eq!(lines.len(), 4, "{told}");
    assert!(lines[1].ends_with("CUP  cursor to line 5, column 7"));
    let json = Explain {
        json: true,
        only: vec!["CUP".into(), "SGR".into()],
        ..Explain::default()
    };
    let told = json.explain(stream).expect("it runs");
    assert_eq!(told.lines().count(), 2, "{told}");
    assert!(told.lines().all(|line| line.starts_with("{\"at\":")));
    let unknown = Explain {
        unknown: true,
        ..Explain::default()
    };
    let told = unknown.explain(stream).expect("it runs");
    assert_eq!(told.lines().count(), 1, "{told}");
    assert_eq!(unknown.explain(b"a").expect("it runs"), "");
    assert_eq!(explain(b"").expect("it runs"), "");
    // What fits into no pipe.
    let long = explain(b"\x1b[1ma\n".repeat(100_000)).expect("it runs");
    assert_eq!(long.lines().count(), 200_000);
    let refused = Explain {
        only: vec!["NOTHING".into()],
        ..Explain::default()
    };
    let error = refused
        .explain(stream.repeat(100_000))
        .expect_err("no name");
    assert_eq!(error.kind(), ErrorKind::InvalidInput);
    assert!(error.to_string().contains("NOTHING"), "{error}");
}

#[test]
fn without_the_program_it_says_so() {
    let nowhere = Explain {
        program: Some("/nowhere/csicodec".into()),
        ..Explain::default()
    };
    let error = nowhere.explain(b"a").expect_err("there is none");
    assert_eq!(error.kind(), ErrorKind::NotFound);
    assert!(error.to_string().contains("/nowhere/csicodec"), "{error}");
}
