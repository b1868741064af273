//! The names of the Rust crate termwiz 0.23: `use csicodec::termwiz::csi::*` stands for `use termwiz::escape::csi::*`, and
//! `csicodec::termwiz::esc` for `termwiz::escape::esc`. What differs is in the repository's docs/DIFFERENCES.md.
//!
//! ```
//! use csicodec::termwiz::csi::{CSI, CsiParam, Cursor, OneBased};
//!
//! let list = [CsiParam::Integer(5), CsiParam::P(b';'), CsiParam::Integer(7)];
//! let actions: Vec<CSI> = CSI::parse(&list, false, 'H').collect();
//! let place = Cursor::Position { line: OneBased::new(5), col: OneBased::new(7) };
//! assert_eq!(actions, [CSI::Cursor(place)]);
//! assert_eq!(actions[0].to_string(), "\x1b[5;7H");
//! ```

/// Control sequences, under the names of `termwiz::escape::csi`.
pub mod csi {
    pub use super::OneBased;
    pub use super::types::{CSI, Cursor, Unspecified, Window};
    pub use crate::{
        Blink, CharacterPath, ColorSpec, CsiParam, CursorStyle, CursorTabulationControl,
        DecPrivateMode, DecPrivateModeCode, Device, DeviceAttribute, DeviceAttributeCodes,
        DeviceAttributeFlags, DeviceAttributes, Edit, EraseInDisplay, EraseInLine, Font, Intensity,
        Keyboard, KittyKeyboardFlags, KittyKeyboardMode, Mode, Modifiers, MouseButton, MouseReport,
        Sgr, SrgbaTuple, TabulationClear, TerminalMode, TerminalModeCode, Underline, VerticalAlign,
        XtSmGraphics, XtSmGraphicsAction, XtSmGraphicsItem, XtSmGraphicsStatus,
        XtermKeyModifierResource,
    };
}

/// Escape sequences, under the names of `termwiz::escape::esc`.
pub mod esc {
    pub use crate::{Esc, EscCode};
}

use crate::CsiParam;
use alloc::string::{String, ToString};
use core::fmt;

/// A number from 1 to 4294967295: a line, a column or a margin of the page, in cells, of which the first is 1.
#[derive(Clone, Copy, Debug, PartialEq, Eq, PartialOrd, Ord, Hash)]
pub struct OneBased {
    value: u32,
}

impl OneBased {
    /// This number, which isn't 0. With debug assertions 0 panics, and else it counts as 1.
    pub fn new(value: u32) -> Self {
        debug_assert!(value != 0, "a number that counts from 1 isn't 0");
        OneBased {
            value: value.max(1),
        }
    }

    /// The number that counts from 1, of one that counts from 0; 4294967295 stays what it is.
    pub fn from_zero_based(value: u32) -> Self {
        OneBased {
            value: value.saturating_add(1),
        }
    }

    /// The number of a parameter, where 0 gives 1. `Err` for a byte and for what isn't from 0 to 4294967295.
    #[allow(clippy::result_unit_err)]
    pub fn from_esc_param(param: &CsiParam) -> Result<Self, ()> {
        OneBased::from_param_or(param, 1)
    }

    /// The same, but 0 gives 4294967295, as where a margin that is left out is the last line there is.
    #[allow(clippy::result_unit_err)]
    pub fn from_esc_param_with_big_default(param: &CsiParam) -> Result<Self, ()> {
        OneBased::from_param_or(param, u32::MAX)
    }

    /// The number of a parameter that may be left out, which gives 1.
    #[allow(clippy::result_unit_err)]
    pub fn from_optional_esc_param(param: Option<&CsiParam>) -> Result<Self, ()> {
        param.map_or(Ok(OneBased::new(1)), OneBased::from_esc_param)
    }

    fn from_param_or(param: &CsiParam, default: u32) -> Result<Self, ()> {
        let CsiParam::Integer(number) = param else {
            return Err(());
        };
        match u32::try_from(*number) {
            Ok(0) => Ok(OneBased::new(default)),
            Ok(value) => Ok(OneBased::new(value)),
            Err(_) => Err(()),
        }
    }

    /// The number, from 1 to 4294967295.
    pub fn as_one_based(&self) -> u32 {
        self.value
    }

    /// One less, for counting from 0.
    pub fn as_zero_based(&self) -> u32 {
        self.value - 1
    }
}

impl From<crate::OneBased> for OneBased {
    fn from(number: crate::OneBased) -> Self {
        OneBased::new(number.as_one_based())
    }
}

impl From<OneBased> for crate::OneBased {
    fn from(number: OneBased) -> Self {
        crate::OneBased::new(number.value).unwrap_or(crate::OneBased::FIRST)
    }
}

/// The bytes that have these tokens; none where no bytes do, as of two numbers side by side.
fn spelled(params: &[CsiParam], control: char) -> Option<String> {
    let mut text = String::from("\x1b[");
    let mut is_number = false;
    for param in params {
        match param {
            CsiParam::Integer(0..) if !is_number => is_number = true,
            CsiParam::P(0x20..=0x2f | 0x3a..=0x3f) => is_number = false,
            _ => return None,
        }
        text += &param.to_string();
    }
    text.push(control);
    matches!(control, '@'..='~').then_some(text)
}

/// What stands behind `ESC [` in a text.
pub(crate) fn behind_csi(action: impl Into<crate::CSI>, f: &mut fmt::Formatter<'_>) -> fmt::Result {
    f.write_str(&action.into().to_string()[2..])
}

/// Enumerations that hold a `OneBased`, with what turns them into the crate's own and back. Their variants mean what those of the crate do.
macro_rules! mirrored {
    ($(#[$doc:meta])* $name:ident:
        $($unit:ident)*; $($tuple:ident($inner:ty))*; $($record:ident { $($field:ident: $type:ty),* })*) => {
        $(#[$doc])*
        #[derive(Clone, Debug, PartialEq, Eq, Hash)]
        #[allow(missing_docs)]
        pub enum $name {
            $($unit,)* $($tuple($inner),)* $($record { $($field: $type),* },)*
        }

        impl From<crate::$name> for $name {
            fn from(it: crate::$name) -> Self {
                match it {
                    $(crate::$name::$unit => $name::$unit,)*
                    $(crate::$name::$tuple(value) => $name::$tuple(value.into()),)*
                    $(crate::$name::$record { $($field),* } => $name::$record { $($field: $field.into()),* },)*
                }
            }
        }

        impl From<$name> for crate::$name {
            fn from(it: $name) -> Self {
                match it {
                    $($name::$unit => crate::$name::$unit,)*
                    $($name::$tuple(value) => crate::$name::$tuple(value.into()),)*
                    $($name::$record { $($field),* } => crate::$name::$record { $($field: $field.into()),* },)*
                }
            }
        }

        impl fmt::Display for $name {
            /// Writes what stands behind `ESC [`.
            fn fmt(&self, f: &mut fmt::Formatter<'_>) -> fmt::Result {
                behind_csi(crate::$name::from(self.clone()), f)
            }
        }
    };
}

#[allow(clippy::useless_conversion)]
mod types {
    use super::{OneBased, behind_csi, spelled};
    use crate::{
        CharacterPath, CsiParam, CursorStyle, CursorTabulationControl, Device, Edit, Keyboard,
        Mode, MouseReport, Sgr, TabulationClear, actions,
    };
    use alloc::{boxed::Box, vec, vec::Vec};
    use core::fmt;

    mirrored! {
        /// What a sequence does with the cursor: [`crate::Cursor`] tells of each.
        Cursor:
        SaveCursor RestoreCursor RequestActivePositionReport;
        Up(u32) Down(u32) Right(u32) Left(u32) NextLine(u32) PrecedingLine(u32) CharacterAbsolute(OneBased)
        CharacterPositionAbsolute(OneBased) ForwardTabulation(u32) BackwardTabulation(u32) LineTabulation(u32)
        CharacterPositionForward(u32) CharacterPositionBackward(u32) LinePositionAbsolute(u32) LinePositionForward(u32)
        LinePositionBackward(u32) TabulationControl(CursorTabulationControl) TabulationClear(TabulationClear)
        CursorStyle(CursorStyle);
        Position { line: OneBased, col: OneBased }
        ActivePositionReport { line: OneBased, col: OneBased }
        CharacterAndLinePosition { line: OneBased, col: OneBased }
        SetTopAndBottomMargins { top: OneBased, bottom: OneBased }
        SetLeftAndRightMargins { left: OneBased, right: OneBased }
    }

    mirrored! {
        /// What a sequence asks of the window: [`crate::Window`] tells of each.
        Window:
        DeIconify Iconify RaiseWindow LowerWindow RefreshWindow RestoreMaximizedWindow MaximizeWindow MaximizeWindowVertically
        MaximizeWindowHorizontally UndoFullScreenMode ChangeToFullScreenMode ToggleFullScreen ReportWindowState
        ReportWindowPosition ReportTextAreaPosition ReportTextAreaSizePixels ReportWindowSizePixels ReportScreenSizePixels
        ReportCellSizePixels ReportTextAreaSizeCells ReportScreenSizeCells ReportIconLabel ReportWindowTitle
        PushIconAndWindowTitle PushIconTitle PushWindowTitle PopIconAndWindowTitle PopIconTitle PopWindowTitle;
        ;
        MoveWindow { x: i64, y: i64 }
        ResizeWindowPixels { width: Option<i64>, height: Option<i64> }
        ReportCellSizePixelsResponse { width: Option<i64>, height: Option<i64> }
        ResizeWindowCells { width: Option<i64>, height: Option<i64> }
        ChecksumRectangularArea { request_id: i64, page_number: i64, top: OneBased, left: OneBased, bottom: OneBased, right: OneBased }
    }

    /// A parameter list, or the remainder of one, that no rule reads: nothing of it is lost.
    #[derive(Clone, Debug, PartialEq, Eq, Hash)]
    pub struct Unspecified {
        /// The tokens, as they came.
        pub params: Vec<CsiParam>,
        /// What the caller of [`CSI::parse`] said of the list.
        pub parameters_truncated: bool,
        /// The final character.
        pub control: char,
    }

    impl fmt::Display for Unspecified {
        /// Writes what stands behind `ESC [`.
        fn fmt(&self, f: &mut fmt::Formatter<'_>) -> fmt::Result {
            self.params.iter().try_for_each(|param| param.fmt(f))?;
            self.control.fmt(f)
        }
    }

    /// One action of a control sequence: [`crate::CSI`] tells of each.
    #[derive(Clone, Debug, PartialEq, Eq, Hash)]
    #[allow(missing_docs)]
    pub enum CSI {
        Sgr(Sgr),
        Cursor(Cursor),
        Edit(Edit),
        Mode(Mode),
        Device(Box<Device>),
        Mouse(MouseReport),
        Window(Box<Window>),
        Keyboard(Keyboard),
        SelectCharacterPath(CharacterPath, i64),
        Unspecified(Box<Unspecified>),
    }

    impl CSI {
        /// The actions of a list of tokens before a final character. A list that no bytes spell, as two numbers side by side, is one
        /// `Unspecified`.
        pub fn parse(
            params: &[CsiParam],
            parameters_truncated: bool,
            control: char,
        ) -> impl Iterator<Item = CSI> + use<> {
            let whole = || crate::Unspecified {
                params: params.to_vec(),
                control,
            };
            let read = match spelled(params, control) {
                Some(text) => actions(text.as_bytes())
                    .map(|action| action.expect("the library has memory for a list"))
                    .collect(),
                None => vec![crate::CSI::from(whole())],
            };
            read.into_iter()
                .map(move |action| CSI::of(action, parameters_truncated))
        }

        fn of(action: crate::CSI, parameters_truncated: bool) -> Self {
            match action {
                crate::CSI::Sgr(sgr) => CSI::Sgr(sgr),
                crate::CSI::Cursor(cursor) => CSI::Cursor(cursor.into()),
                crate::CSI::Edit(edit) => CSI::Edit(edit),
                crate::CSI::Mode(mode) => CSI::Mode(mode),
                crate::CSI::Device(device) => CSI::Device(device),
                crate::CSI::Mouse(report) => CSI::Mouse(report),
                crate::CSI::Window(window) => CSI::Window(Box::new((*window).into())),
                crate::CSI::Keyboard(keyboard) => CSI::Keyboard(keyboard),
                crate::CSI::SelectCharacterPath(path, number) => {
                    CSI::SelectCharacterPath(path, number)
                }
                crate::CSI::Unspecified(unknown) => CSI::Unspecified(Box::new(Unspecified {
                    params: unknown.params,
                    parameters_truncated,
                    control: unknown.control,
                })),
            }
        }
    }

    /// Without what a caller said of a list that it couldn't keep whole.
    impl From<crate::CSI> for CSI {
        fn from(action: crate::CSI) -> Self {
            CSI::of(action, false)
        }
    }

    impl From<CSI> for crate::CSI {
        fn from(action: CSI) -> Self {
            match action {
                CSI::Sgr(sgr) => sgr.into(),
                CSI::Cursor(cursor) => crate::Cursor::from(cursor).into(),
                CSI::Edit(edit) => edit.into(),
                CSI::Mode(mode) => mode.into(),
                CSI::Device(device) => crate::CSI::Device(device),
                CSI::Mouse(report) => report.into(),
                CSI::Window(window) => crate::Window::from(*window).into(),
                CSI::Keyboard(keyboard) => keyboard.into(),
                CSI::SelectCharacterPath(path, number) => {
                    crate::CSI::SelectCharacterPath(path, number)
                }
                CSI::Unspecified(unknown) => crate::CSI::from(crate::Unspecified {
                    params: unknown.params,
                    control: unknown.control,
                }),
            }
        }
    }

    impl fmt::Display for CSI {
        fn fmt(&self, f: &mut fmt::Formatter<'_>) -> fmt::Result {
            crate::CSI::from(self.clone()).fmt(f)
        }
    }
}
