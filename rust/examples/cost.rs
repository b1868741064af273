//! cost CALL FILE: reads a file and makes one call over all of it, for callgrind to count; `none` makes no call.

use csicodec::{Parser, actions, events, front};
use std::{env, error, fs};

fn main() -> Result<(), Box<dyn error::Error>> {
    let mut words = env::args().skip(1);
    let call = words.next().ok_or("cost CALL FILE")?;
    let bytes = fs::read(words.next().ok_or("cost CALL FILE")?)?;
    let (mut count, mut rest) = (0, &bytes[..]);
    match &call[..] {
        "none" => {}
        "actions" => count = actions(&bytes).count(),
        "events" => count = events(&bytes).count(),
        "advance" => {
            let mut parser = Parser::new();
            for piece in bytes.chunks(4096) {
                parser.advance(piece, |_| count += 1);
            }
        }
        "front" => {
            while !rest.is_empty() {
                let first = front(rest)?;
                count += first.actions.len();
                rest = &rest[first.used..];
            }
        }
        _ => return Err("cost: none, actions, events, advance or front".into()),
    }
    println!("{count}");
    Ok(())
}
