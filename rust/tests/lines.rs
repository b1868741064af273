//! Pages and lines as they come are those of the whole.

use csicodec::{Error, Lines, Markup, Palette, html, overwrite, overwrite_styled};
use std::io::Write;

/// What lines are made of, and what begins and ends what is no line.
const BITS: [&str; 36] = [
    "a",
    "q",
    "\u{e9}",
    "\n",
    "\n",
    "\n",
    "\r",
    "\x1b[1m",
    "\x1b[38;5;200;4m",
    "\x1b[m",
    "\x1b[8m",
    "\x1bc",
    "\x1bkt",
    "\x1b\\",
    "\x1b]0;t\n",
    "\x07",
    "\x1b[3\n1m",
    "\x1b[K",
    "\x1b[2C",
    "\x1bM",
    "\x1b7",
    "\x1b8",
    "\x1b[",
    "\x1bP\n",
    "\t",
    "\x18",
    "\x0e",
    "\x0f",
    "\x1b(0",
    "\x1b(B",
    "\x1b)0",
    "\x1b)A",
    "\x1b[!p",
    "\x1b[5;7H",
    "\x1b[2",
    "\x1b]8;;http://a.b\x07",
];

fn in_pieces(mut lines: Lines, bytes: &[u8], size: usize) -> Result<String, Error> {
    let mut out = Vec::new();
    for piece in bytes.chunks(size) {
        lines.push(piece, &mut out)?;
    }
    lines.finish(&mut out)?;
    Ok(String::from_utf8(out).expect("it is UTF-8"))
}

/// Some of these at random, by a generator of Lehmer's.
fn drawn(seed: &mut u64, below: u64) -> usize {
    *seed = *seed * 48271 % 0x7fff_ffff;
    (*seed % below) as usize
}

#[test]
fn lines_are_those_of_the_whole() -> Result<(), Error> {
    let fragment = Markup {
        fragment: true,
        ..Markup::default()
    };
    let mut seed = 1;
    for _ in 0..2000 {
        let count = 3 + drawn(&mut seed, 25);
        let text: String = (0..count)
            .map(|_| BITS[drawn(&mut seed, BITS.len() as u64)])
            .collect();
        let size = 1 + drawn(&mut seed, 9);
        let given = text.as_bytes();
        let page = in_pieces(Lines::html(fragment), given, size)?;
        assert_eq!(page, fragment.html(given)?, "{text:?} by {size}");
        let lines = in_pieces(Lines::overwritten(), given, size)?;
        assert_eq!(lines, overwrite(given)?, "{text:?} by {size}");
        let lines = in_pieces(Lines::overwritten_styled(), given, size)?;
        assert_eq!(lines, overwrite_styled(given)?, "{text:?} by {size}");
    }
    Ok(())
}

#[test]
fn pages() -> Result<(), Error> {
    let given = b"1%\r\x1b[1m2%\n\x1b]8;;http://a.b\x07link\x1b]8;;\x07\n\x1b[31mred";
    assert_eq!(
        in_pieces(Lines::html(Markup::default()), given, 3)?,
        html(given)?
    );
    for (links, classes, no_overwrite) in [
        (true, false, false),
        (false, true, false),
        (false, false, true),
    ] {
        let markup = Markup {
            links,
            classes,
            no_overwrite,
            ..Markup::default()
        };
        let page = in_pieces(Lines::html(markup), given, 3)?;
        assert_eq!(page, markup.html(given)?);
    }
    assert_eq!(
        in_pieces(Lines::html(Markup::default()), b"", 1)?,
        html(b"")?
    );
    Ok(())
}

/// What each option alone makes of a text, as it stands on a page.
#[test]
fn each_option_of_a_page() -> Result<(), Error> {
    let fragment = Markup {
        fragment: true,
        ..Markup::default()
    };
    let made = |change: fn(&mut Markup), given: &str| {
        let mut markup = fragment;
        change(&mut markup);
        markup.html(given)
    };
    let link = "\x1b]8;;http://a.b\x07x\x1b]8;;\x07";
    let linked = "<a rel=\"nofollow noopener noreferrer\" href=\"http://a.b\">x</a>";
    assert_eq!(made(|it| it.links = true, link)?, linked);
    assert_eq!(made(|_| (), link)?, "x");
    let bold = "<span class=\"bold\">x</span>";
    assert_eq!(made(|it| it.classes = true, "\x1b[1mx")?, bold);
    assert_eq!(made(|it| it.no_overwrite = true, "10%\r20%")?, "10%20%");
    assert_eq!(made(|_| (), "10%\r20%")?, "20%");
    let coloured = made(
        |it| {
            let mut first = [(0, 0, 0); 16];
            first[1] = (0x12, 0x34, 0x56);
            first[2] = (0x78, 0x9a, 0xbc);
            it.palette = Some(Palette { first, own: None });
        },
        "\x1b[31;42mx",
    )?;
    let wanted = "<span style=\"color:#123456;background-color:#789abc;\">x</span>";
    assert_eq!(coloured, wanted);
    let whole = Markup {
        palette: Some(Palette {
            first: [(0, 0, 0); 16],
            own: Some([(1, 2, 3), (4, 5, 6)]),
        }),
        ..Markup::default()
    };
    let page = whole.html("x")?;
    assert!(
        page.contains("#010203") && page.contains("#040506"),
        "{page}"
    );
    Ok(())
}

#[test]
fn a_line_is_written_when_it_ends() -> std::io::Result<()> {
    let mut lines = Lines::overwritten();
    let mut out = Vec::new();
    for (given, wanted) in [
        ("10%\r20%", ""),
        ("\r\x1b[K", ""),
        ("done\n", "done\n"),
        ("a", "done\n"),
    ] {
        lines.push(given.as_bytes(), &mut out).expect("memory");
        assert_eq!(out, wanted.as_bytes());
    }
    let mut page = Markup::default().writer(Vec::new());
    write!(page, "\x1b[1mbold\n")?;
    write!(page, "more")?;
    let page = String::from_utf8(page.finish()?).expect("it is UTF-8");
    assert_eq!(page, html("\x1b[1mbold\nmore").expect("memory"));
    Ok(())
}
