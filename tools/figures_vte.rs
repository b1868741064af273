// What vte's parser alone costs: it reads standard input, with callbacks that do nothing. tools/figures builds it, with Debian's librust-vte-dev.
use std::io::Read;

struct Nothing;

impl vte::Perform for Nothing {}

fn main() -> std::io::Result<()> {
    let (mut parser, mut nothing) = (vte::Parser::new(), Nothing);
    let mut chunk = [0; 4096];
    loop {
        let len = std::io::stdin().lock().read(&mut chunk)?;
        if len == 0 {
            return Ok(());
        }
        for byte in &chunk[..len] {
            parser.advance(&mut nothing, *byte);
        }
    }
}
