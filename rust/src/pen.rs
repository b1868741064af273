//! The attributes of text, as a terminal keeps them.

use crate::{Blink, CSI, ColorSpec, Font, Intensity, Sgr, Underline, VerticalAlign};
use core::fmt;

/// `Pen`, of the attributes that stand below: each with its type, the default rendition, and its variant of `Sgr`.
macro_rules! pen {
    ($($field:ident: $type:ty = $default:expr, $variant:ident;)*) => {
        /// The attributes of text, each by its last action. A terminal keeps one for the next characters, and one with each character on its
        /// page. Two are equal exactly if text looks alike with them, in whichever order they were set.
        ///
        /// ```
        /// use csicodec::{Intensity, Pen, Sgr};
        ///
        /// let mut pen = Pen::new();
        /// for sgr in [Sgr::Italic(true), Sgr::Intensity(Intensity::Bold), Sgr::Intensity(Intensity::Half)] {
        ///     pen.set(sgr);
        /// }
        /// assert_eq!(pen.to_string(), "\x1b[0m\x1b[2m\x1b[3m");
        /// pen.set(Sgr::Italic(false));
        /// pen.set(Sgr::Intensity(Intensity::Normal));
        /// assert_eq!(pen, Pen::new());
        /// assert!(size_of::<Pen>() <= 32);
        /// ```
        #[derive(Clone, Copy, Debug, PartialEq, Eq, Hash)]
        pub struct Pen {
            $($field: $type,)*
        }

        impl Pen {
            /// The default rendition.
            pub const fn new() -> Self {
                Pen { $($field: $default,)* }
            }

            /// Carries out one action: it replaces an attribute of the same kind, and a reset sets all back.
            pub fn set(&mut self, sgr: Sgr) {
                match sgr {
                    Sgr::Reset => *self = Pen::new(),
                    $(Sgr::$variant(value) => self.$field = value,)*
                }
            }

            /// All attributes in the order of `Sgr`, also those of the default rendition.
            const fn all(&self) -> [Sgr; [$(stringify!($field)),*].len()] {
                [$(Sgr::$variant(self.$field)),*]
            }
        }
    };
}

// Written by tools/table.
pen! {
    intensity: Intensity = Intensity::Normal, Intensity;
    underline: Underline = Underline::None, Underline;
    underline_color: ColorSpec = ColorSpec::Default, UnderlineColor;
    blink: Blink = Blink::None, Blink;
    italic: bool = false, Italic;
    inverse: bool = false, Inverse;
    invisible: bool = false, Invisible;
    strike_through: bool = false, StrikeThrough;
    font: Font = Font::Default, Font;
    foreground: ColorSpec = ColorSpec::Default, Foreground;
    background: ColorSpec = ColorSpec::Default, Background;
    overline: bool = false, Overline;
    vertical_align: VerticalAlign = VerticalAlign::BaseLine, VerticalAlign;
}

impl Default for Pen {
    fn default() -> Self {
        Pen::new()
    }
}

impl Pen {
    /// The attributes that aren't those of the default rendition, in the order of `Sgr`.
    pub fn attributes(&self) -> impl Iterator<Item = Sgr> + use<> {
        let defaults = Pen::new().all();
        let set = self.all().into_iter().zip(defaults);
        set.filter_map(|(own, default)| (own != default).then_some(own))
    }
}

/// Writes the sequences that set these attributes and no others, whatever was set before: a reset, and then each attribute.
impl fmt::Display for Pen {
    fn fmt(&self, f: &mut fmt::Formatter<'_>) -> fmt::Result {
        core::iter::once(Sgr::Reset)
            .chain(self.attributes())
            .try_for_each(|sgr| CSI::from(sgr).fmt(f))
    }
}
