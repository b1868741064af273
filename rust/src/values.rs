//! The values that actions hold.

use crate::termwiz::behind_csi;
use crate::{
    CSI, CsiParam, Cursor, CursorStyle, DecPrivateMode, DecPrivateModeCode, Device,
    DeviceAttribute, Edit, Keyboard, Mode, MouseReport, Sgr, TerminalMode, TerminalModeCode,
    Window, XtSmGraphicsAction, XtSmGraphicsItem, XtSmGraphicsStatus, XtermKeyModifierResource,
};
use alloc::{boxed::Box, vec::Vec};
use core::fmt;
use core::num::NonZeroU32;

/// A number from 1 to 4294967295: a line, a column or a margin of the page, in cells, of which the first is 1.
#[derive(Clone, Copy, Debug, PartialEq, Eq, PartialOrd, Ord, Hash)]
#[cfg_attr(feature = "serde", derive(serde::Serialize, serde::Deserialize))]
pub struct OneBased(NonZeroU32);

impl OneBased {
    /// 1: the first line, column or margin.
    pub const FIRST: OneBased = OneBased(NonZeroU32::MIN);

    /// This number; `None` for 0.
    pub fn new(value: u32) -> Option<Self> {
        NonZeroU32::new(value).map(OneBased)
    }

    /// The number, from 1 to 4294967295.
    pub fn as_one_based(&self) -> u32 {
        self.0.get()
    }

    /// One less, for counting from 0: 0 to 4294967294.
    pub fn as_zero_based(&self) -> u32 {
        self.0.get() - 1
    }
}

/// A colour as red, green, blue and alpha, each 0 to 255; an alpha of 255 is opaque.
#[derive(Clone, Copy, Debug, PartialEq, Eq, Hash)]
#[cfg_attr(feature = "serde", derive(serde::Serialize, serde::Deserialize))]
pub struct SrgbaTuple(
    /// Red.
    pub u8,
    /// Green.
    pub u8,
    /// Blue.
    pub u8,
    /// Alpha.
    pub u8,
);

/// Red, green and blue, opaque.
impl From<(u8, u8, u8)> for SrgbaTuple {
    fn from((red, green, blue): (u8, u8, u8)) -> Self {
        SrgbaTuple(red, green, blue, 255)
    }
}

macro_rules! flags {
    ($(#[$doc:meta])* $name:ident: $($(#[$each:meta])* $flag:ident = $bits:literal),*) => {
        $(#[$doc])*
        #[derive(Clone, Copy, Default, PartialEq, Eq, Hash)]
        #[cfg_attr(feature = "serde", derive(serde::Serialize, serde::Deserialize), serde(transparent))]
        pub struct $name {
            bits: u16,
        }

        impl $name {
            $($(#[$each])* pub const $flag: $name = $name { bits: $bits };)*

            /// The bits.
            pub fn bits(&self) -> u16 {
                self.bits
            }

            /// The set with these bits, also those that have no name.
            pub fn from_bits_retain(bits: u16) -> Self {
                $name { bits }
            }

            /// Whether all of these are in the set.
            pub fn contains(&self, other: Self) -> bool {
                self.bits & other.bits == other.bits
            }

            /// Whether no bit is set.
            pub fn is_empty(&self) -> bool {
                self.bits == 0
            }

            /// Takes these out of the set.
            pub fn remove(&mut self, other: Self) {
                self.bits &= !other.bits;
            }
        }

        impl core::fmt::Debug for $name {
            /// The names of the flags, and the other bits as a number: `SHIFT | CTRL | 0x40`.
            fn fmt(&self, f: &mut core::fmt::Formatter<'_>) -> core::fmt::Result {
                let mut rest = self.bits;
                let mut between = "";
                for (name, bits) in [$((stringify!($flag), $bits)),*] {
                    if bits != 0 && rest & bits == bits {
                        write!(f, "{between}{name}")?;
                        rest &= !bits;
                        between = " | ";
                    }
                }
                match rest {
                    0 if self.bits != 0 => Ok(()),
                    0 => f.write_str("NONE"),
                    _ => write!(f, "{between}{rest:#x}"),
                }
            }
        }

        impl core::ops::BitOr for $name {
            type Output = Self;

            fn bitor(self, other: Self) -> Self {
                $name { bits: self.bits | other.bits }
            }
        }

        impl core::ops::BitOrAssign for $name {
            fn bitor_assign(&mut self, other: Self) {
                self.bits |= other.bits;
            }
        }

        impl core::ops::BitAnd for $name {
            type Output = Self;

            fn bitand(self, other: Self) -> Self {
                $name { bits: self.bits & other.bits }
            }
        }
    };
}

flags! {
    /// The keys that are held down while another key or a button is pressed.
    Modifiers:
    /// No key.
    NONE = 0,
    /// A shift key.
    SHIFT = 2,
    /// An alt key, or meta.
    ALT = 4,
    /// A control key.
    CTRL = 8
}

flags! {
    /// What is held down with a key, and the locks that are on, by the bits of kitty's protocol.
    KeyModifiers:
    /// No key.
    NONE = 0,
    /// Shift.
    SHIFT = 1,
    /// Alt, Option of a Mac.
    ALT = 2,
    /// Control.
    CTRL = 4,
    /// Super, the key of Windows, Command of a Mac; xterm's meta.
    SUPER = 8,
    /// Hyper.
    HYPER = 16,
    /// Meta.
    META = 32,
    /// Caps lock is on.
    CAPS_LOCK = 64,
    /// Num lock is on.
    NUM_LOCK = 128
}

flags! {
    /// How a program wants keys reported (kitty's keyboard protocol, progressive enhancement).
    KittyKeyboardFlags:
    /// Nothing: keys are sent as usual.
    NONE = 0,
    /// Keys with ambiguous bytes, as Esc, are sent as control sequences.
    DISAMBIGUATE_ESCAPE_CODES = 1,
    /// Reports say whether a key was pressed, repeated or released.
    REPORT_EVENT_TYPES = 2,
    /// Reports also have the key with shift, and the key on the base layout.
    REPORT_ALTERNATE_KEYS = 4,
    /// Keys that write text are sent as control sequences too.
    REPORT_ALL_KEYS_AS_ESCAPE_CODES = 8,
    /// The control sequence of a key has the text that it writes.
    REPORT_ASSOCIATED_TEXT = 16
}

/// The extensions in a terminal's answer, in order.
#[derive(Clone, Debug, PartialEq, Eq, Hash)]
#[cfg_attr(feature = "serde", derive(serde::Serialize, serde::Deserialize))]
pub struct DeviceAttributeFlags {
    /// Each of them; one can be there twice.
    pub attributes: Vec<DeviceAttribute>,
}

impl DeviceAttributeFlags {
    /// These extensions.
    pub fn new(attributes: Vec<DeviceAttribute>) -> Self {
        DeviceAttributeFlags { attributes }
    }
}

/// XTSMGRAPHICS (xterm's ctlseqs): a request for what the terminal can draw, or its answer.
#[derive(Clone, Debug, PartialEq, Eq, Hash)]
#[cfg_attr(feature = "serde", derive(serde::Serialize, serde::Deserialize))]
pub struct XtSmGraphics {
    /// The item.
    pub item: XtSmGraphicsItem,
    /// In a request the number of the action, in an answer the number of the status. 0 can only be a status, and 4 only an action;
    /// for 1 to 3 the sequence doesn't say which.
    pub action_or_status: i64,
    /// If they are set or answered, a number of colour registers, or a width and a height in pixels.
    pub value: Vec<i64>,
}

impl XtSmGraphics {
    /// The action of a request: `None` if no action has the number.
    pub fn action(&self) -> Option<XtSmGraphicsAction> {
        XtSmGraphicsAction::from_i64(self.action_or_status)
    }

    /// The status of an answer: `None` if no status has the number.
    pub fn status(&self) -> Option<XtSmGraphicsStatus> {
        XtSmGraphicsStatus::from_i64(self.action_or_status)
    }
}

/// A parameter list, or the remainder of one, that no rule reads: nothing of it is lost.
#[derive(Clone, Debug, PartialEq, Eq, Hash)]
#[cfg_attr(feature = "serde", derive(serde::Serialize, serde::Deserialize))]
pub struct Unspecified {
    /// The tokens, as they came. A remainder behind private modes has a `?` in front, so that its text means the same.
    pub params: Vec<CsiParam>,
    /// The final character.
    pub control: char,
}

impl DecPrivateMode {
    /// The mode of a number from 0 to 65535, and none for another one.
    pub fn at(number: i64) -> Option<Self> {
        Some(match DecPrivateModeCode::from_i64(number) {
            Some(code) => DecPrivateMode::Code(code),
            None => DecPrivateMode::Unspecified(number.try_into().ok()?),
        })
    }

    /// The number of this mode.
    pub fn number(&self) -> u32 {
        match self {
            DecPrivateMode::Code(code) => code.to_i64() as u32,
            DecPrivateMode::Unspecified(number) => u32::from(*number),
        }
    }
}

impl TerminalMode {
    /// The mode of a number from 0 to 65535, and none for another one.
    pub fn at(number: i64) -> Option<Self> {
        Some(match TerminalModeCode::from_i64(number) {
            Some(code) => TerminalMode::Code(code),
            None => TerminalMode::Unspecified(number.try_into().ok()?),
        })
    }

    /// The number of this mode.
    pub fn number(&self) -> u32 {
        match self {
            TerminalMode::Code(code) => code.to_i64() as u32,
            TerminalMode::Unspecified(number) => u32::from(*number),
        }
    }
}

/// The mode of a number: by its code where it has a name.
impl From<u16> for DecPrivateMode {
    fn from(number: u16) -> Self {
        match DecPrivateModeCode::from_i64(i64::from(number)) {
            Some(code) => DecPrivateMode::Code(code),
            None => DecPrivateMode::Unspecified(number),
        }
    }
}

/// The mode of a number: by its code where it has a name.
impl From<u16> for TerminalMode {
    fn from(number: u16) -> Self {
        match TerminalModeCode::from_i64(i64::from(number)) {
            Some(code) => TerminalMode::Code(code),
            None => TerminalMode::Unspecified(number),
        }
    }
}

impl Default for CursorStyle {
    /// The terminal's own style.
    fn default() -> Self {
        CursorStyle::Default
    }
}

impl XtermKeyModifierResource {
    /// The resource of this number.
    pub fn parse(value: i64) -> Option<Self> {
        XtermKeyModifierResource::from_i64(value)
    }
}

/// Writes the number of the item.
impl fmt::Display for XtSmGraphicsItem {
    fn fmt(&self, f: &mut fmt::Formatter<'_>) -> fmt::Result {
        match self {
            XtSmGraphicsItem::NumberOfColorRegisters => 1.fmt(f),
            XtSmGraphicsItem::SixelGraphicsGeometry => 2.fmt(f),
            XtSmGraphicsItem::RegisGraphicsGeometry => 3.fmt(f),
            XtSmGraphicsItem::Unspecified(number) => number.fmt(f),
        }
    }
}

/// Writes the number, or the character of a byte.
impl fmt::Display for CsiParam {
    fn fmt(&self, f: &mut fmt::Formatter<'_>) -> fmt::Result {
        match self {
            CsiParam::Integer(number) => number.fmt(f),
            CsiParam::P(byte) => char::from(*byte).fmt(f),
        }
    }
}

/// Each part is written as what stands behind `ESC [`.
macro_rules! shown {
    ($($part:ident),*) => {
        $(impl fmt::Display for $part {
            /// Writes what stands behind `ESC [`.
            fn fmt(&self, f: &mut fmt::Formatter<'_>) -> fmt::Result {
                behind_csi(self.clone(), f)
            }
        })*
    };
}

shown!(
    Sgr,
    Cursor,
    Edit,
    Mode,
    Device,
    Window,
    Keyboard,
    MouseReport,
    Unspecified
);

/// Each part is an action.
macro_rules! from_parts {
    ($($part:ident as $variant:ident),*; boxed $($boxed:ident),*) => {
        $(impl From<$part> for CSI {
            fn from(part: $part) -> Self {
                CSI::$variant(part)
            }
        })*
        $(impl From<$boxed> for CSI {
            fn from(part: $boxed) -> Self {
                CSI::$boxed(Box::new(part))
            }
        })*
    };
}

from_parts!(Sgr as Sgr, Cursor as Cursor, Edit as Edit, Mode as Mode, Keyboard as Keyboard, MouseReport as Mouse;
    boxed Device, Window, Unspecified);
