//! Pages of HTML, and lines as they stand when they end.

use crate::strip::left;
use crate::{Error, raw};
use alloc::{string::String, vec::Vec};

/// The colours of a page.
#[derive(Clone, Copy, Debug, PartialEq, Eq, Hash)]
#[cfg_attr(feature = "serde", derive(serde::Serialize, serde::Deserialize))]
pub struct Palette {
    /// Those of the places 0 to 15, as red, green and blue.
    pub first: [(u8, u8, u8); 16],
    /// The colour of text that has none of its own, and the background; without them the browser's.
    pub own: Option<[(u8, u8, u8); 2]>,
}

/// What a page is asked to be; the default is what `csicodec html` writes without options.
///
/// ```
/// use csicodec::Markup;
///
/// let markup = Markup { fragment: true, ..Markup::default() };
/// assert_eq!(markup.html(b"10%\r\x1b[1m<b>\x1b[m")?, "<span style=\"font-weight:bold;\">&lt;b&gt;</span>");
/// # Ok::<(), csicodec::Error>(())
/// ```
#[derive(Clone, Copy, Debug, Default, PartialEq, Eq, Hash)]
#[cfg_attr(feature = "serde", derive(serde::Serialize, serde::Deserialize))]
pub struct Markup {
    /// Whether links (OSC 8) become links, those that [`clean_with`](crate::clean_with) keeps. Text is then kept as with `no_overwrite`.
    pub links: bool,
    /// Whether attributes become CSS classes in place of styles. A page has the style sheet, a fragment doesn't.
    pub classes: bool,
    /// Whether it is a piece for a `<pre>` in a page of your own.
    pub fragment: bool,
    /// Whether text stays that a carriage return or an erase would hide.
    pub no_overwrite: bool,
    /// The colours; without them those that the program takes.
    pub palette: Option<Palette>,
}

impl Markup {
    /// Untrusted bytes, which are a whole text, as a page: text, escaped, and its styles. Nothing of them gets into a tag but
    /// addresses, with links. `Err` is [`Error::Memory`].
    pub fn html(&self, bytes: impl AsRef<[u8]>) -> Result<String, Error> {
        let markup = raw::Markup {
            links: self.links.into(),
            classes: self.classes.into(),
            fragment: self.fragment.into(),
            no_overwrite: self.no_overwrite.into(),
        };
        let number = |&(red, green, blue)| u32::from_be_bytes([0, red, green, blue]);
        let colors: Vec<u32> = (self.palette.iter())
            .flat_map(|it| it.first.iter().chain(it.own.iter().flatten()).map(number))
            .collect();
        left(
            |bytes, out| raw::html(&markup, &colors, bytes, out),
            bytes.as_ref(),
        )
    }
}

/// Untrusted bytes as a page of HTML, as [`Markup::html`] makes it of them by default.
///
/// ```
/// assert!(csicodec::html(b"\x1b[1mbold")?.contains("<span style=\"font-weight:bold;\">bold</span>"));
/// # Ok::<(), csicodec::Error>(())
/// ```
pub fn html(bytes: impl AsRef<[u8]>) -> Result<String, Error> {
    Markup::default().html(bytes)
}

/// Each line of untrusted bytes, which are a whole text, as it stands when it ends, as plain text: what a carriage return, a backspace or
/// an erase hides in it is gone. Once a line has more than 512 columns, nothing in it but blanks is overwritten or erased.
///
/// ```
/// assert_eq!(csicodec::overwrite(b"10%\r20%\r\x1b[Kdone\n")?, "done\n");
/// # Ok::<(), csicodec::Error>(())
/// ```
pub fn overwrite(bytes: impl AsRef<[u8]>) -> Result<String, Error> {
    overwritten(false, bytes.as_ref())
}

/// The same with the sequences (SGR) that set how characters look; at the end of each line none is set.
pub fn overwrite_styled(bytes: impl AsRef<[u8]>) -> Result<String, Error> {
    overwritten(true, bytes.as_ref())
}

/// Either of them.
pub(crate) fn overwritten(styled: bool, bytes: &[u8]) -> Result<String, Error> {
    left(
        |bytes, out| raw::overwrite(styled.into(), bytes, out),
        bytes,
    )
}
