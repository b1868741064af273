//! Random control sequences: what is read of them is taken again, is canonical, and has their normal form.

use csicodec::{CSI, Cursor, Device, actions, encode, normalise};

/// The next number of a linear congruential generator, from 0 to below `bound`.
fn random(state: &mut u64, bound: usize) -> usize {
    *state = state
        .wrapping_mul(6364136223846793005)
        .wrapping_add(1442695040888963407);
    (*state >> 33) as usize % bound
}

/// Numbers, marks and intermediate bytes, mostly as they stand in sequences that are known, before any final byte.
fn sequence(state: &mut u64) -> Vec<u8> {
    let mut bytes = b"\x1b[".to_vec();
    let marks: [&[u8]; 6] = [b"", b"", b"?", b">", b"=", b"<"];
    let joints: [&[u8]; 5] = [b";", b";", b";", b":", b" "];
    let numbers = [
        "0",
        "1",
        "2",
        "4",
        "5",
        "22",
        "38",
        "62",
        "1006",
        "2004",
        "65536",
        "4294967296",
        "",
    ];
    let ends: [&[u8]; 6] = [b"", b"", b"", b" ", b"$", b"*"];
    bytes.extend_from_slice(marks[random(state, marks.len())]);
    for i in 0..random(state, 7) {
        if i > 0 {
            bytes.extend_from_slice(joints[random(state, joints.len())]);
        }
        bytes.extend_from_slice(numbers[random(state, numbers.len())].as_bytes());
    }
    bytes.extend_from_slice(ends[random(state, ends.len())]);
    bytes.push(b'@' + random(state, 63) as u8);
    bytes
}

/// The two actions that have no text of their own.
fn is_special(action: &CSI) -> bool {
    match action {
        CSI::Cursor(Cursor::SetLeftAndRightMargins { left, right }) => {
            left.as_one_based() == 1 && right.as_one_based() == u32::MAX
        }
        CSI::Device(device) => matches!(**device, Device::RequestTerminalParameters(_)),
        _ => false,
    }
}

#[test]
fn what_is_read_is_taken() {
    let mut state = 1;
    let mut known = 0;
    for _ in 0..100_000 {
        let bytes = sequence(&mut state);
        let all: Vec<_> = actions(&bytes).collect::<Result<_, _>>().expect("actions");
        assert_eq!(encode(&all), normalise(&bytes), "{bytes:?}");
        for action in all {
            assert_eq!(
                action.is_canonical(),
                Ok(!is_special(&action)),
                "{action:?}"
            );
            known += usize::from(!matches!(action, CSI::Unspecified(_)));
        }
    }
    assert!(known > 5_000, "{known} known actions");
}
