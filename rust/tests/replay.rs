//! Replays the recorded answers of the Rust crate termwiz 0.23.3: `stdout` is the normal form of `stdin`, which is 2,000
//! control sequences one after the other.

use csicodec::{actions, encode, normalise};

const GIVEN: &[u8] = include_bytes!("data/stdin");
const WANTED: &[u8] = include_bytes!("data/stdout");

/// The sequences: no byte before the final one is from `@` to `~`.
fn sequences(bytes: &[u8]) -> impl Iterator<Item = &[u8]> {
    let mut rest = bytes;
    std::iter::from_fn(move || {
        let last = rest
            .iter()
            .skip(2)
            .position(|byte| (b'@'..=b'~').contains(byte))?;
        let (sequence, others) = rest.split_at(last + 3);
        rest = others;
        Some(sequence)
    })
}

#[test]
fn each_recorded_answer() {
    let mut wanted = WANTED;
    let mut count = 0;
    for sequence in sequences(GIVEN) {
        let all: Vec<_> = actions(sequence)
            .collect::<Result<_, _>>()
            .expect("actions");
        let text = encode(&all).expect("texts");
        assert_eq!(normalise(sequence).as_deref(), Ok(text.as_slice()));
        let (front, others) = wanted.split_at(text.len());
        assert_eq!(front, text, "{sequence:?}");
        wanted = others;
        count += 1;
    }
    assert_eq!((count, wanted.len()), (2000, 0));
}

#[test]
fn all_at_once() {
    assert_eq!(normalise(GIVEN).as_deref(), Ok(WANTED));
    let all: Vec<_> = actions(GIVEN).collect::<Result<_, _>>().expect("actions");
    assert_eq!(encode(&all).as_deref(), Ok(WANTED));
}
