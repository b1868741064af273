//! The actions, under the names of the library and with its documentation. Written by tools/table.

use crate::{
    CursorStyle, CursorTabulationControl, DecPrivateModeCode, DeviceAttributeCodes,
    DeviceAttributeFlags, EraseInDisplay, EraseInLine, KittyKeyboardFlags, Modifiers, OneBased,
    Sgr, TabulationClear, TerminalModeCode, Unspecified, XtSmGraphics,
};
use alloc::boxed::Box;

/// What a sequence does with the cursor, with tab stops or with margins. The unit is the cell of one character. Counts
/// are 1 or more where they were read; a terminal takes 0 for 1, and so `Up(0)` is written `0A` and read back as
/// `Up(1)`. Lines and columns are counted from 1, at the top and at the left.
///
/// ```text
/// "\x1b[2A"          Up(2)
/// "\x1b[5;7H"        Position { line: 5, col: 7 }
/// "\x1b[r"           SetTopAndBottomMargins { top: 1, bottom: 4294967295 }
/// "\x1b[6n"          RequestActivePositionReport
/// ```
#[derive(Clone, Copy, Debug, PartialEq, Eq, Hash)]
#[cfg_attr(feature = "serde", derive(serde::Serialize, serde::Deserialize))]
#[non_exhaustive]
pub enum Cursor {
    /// CUU (ECMA-48, 8.3.22): this many lines up.
    Up(u32),
    /// CUD (ECMA-48, 8.3.19): this many lines down.
    Down(u32),
    /// CUF (ECMA-48, 8.3.20): this many columns to the right.
    Right(u32),
    /// CUB (ECMA-48, 8.3.18): this many columns to the left.
    Left(u32),
    /// CNL (ECMA-48, 8.3.12): to the start of the line this many lines down.
    NextLine(u32),
    /// CPL (ECMA-48, 8.3.13): to the start of the line this many lines up.
    PrecedingLine(u32),
    /// CHA (ECMA-48, 8.3.9): to this column.
    CharacterAbsolute(OneBased),
    /// HPA (ECMA-48, 8.3.57): to this column of the data.
    CharacterPositionAbsolute(OneBased),
    /// CUP (ECMA-48, 8.3.21): to this line and column.
    Position {
        /// The line.
        line: OneBased,
        /// The column.
        col: OneBased,
    },
    /// CPR (ECMA-48, 8.3.14): the terminal's answer, where the cursor is.
    ActivePositionReport {
        /// The line.
        line: OneBased,
        /// The column.
        col: OneBased,
    },
    /// HVP (ECMA-48, 8.3.63): to this line and column of the data.
    CharacterAndLinePosition {
        /// The line.
        line: OneBased,
        /// The column.
        col: OneBased,
    },
    /// CHT (ECMA-48, 8.3.10): on to this many character tab stops.
    ForwardTabulation(u32),
    /// CBT (ECMA-48, 8.3.7): back to this many character tab stops.
    BackwardTabulation(u32),
    /// CVT (ECMA-48, 8.3.23): down to this many line tab stops.
    LineTabulation(u32),
    /// HPR (ECMA-48, 8.3.59): this many columns on in the data.
    CharacterPositionForward(u32),
    /// HPB (ECMA-48, 8.3.58): this many columns back in the data.
    CharacterPositionBackward(u32),
    /// VPA (ECMA-48, 8.3.158): to this line of the data, in the same column. As termwiz has it, a count.
    LinePositionAbsolute(u32),
    /// VPR (ECMA-48, 8.3.160): this many lines on in the data.
    LinePositionForward(u32),
    /// VPB (ECMA-48, 8.3.159): this many lines back in the data.
    LinePositionBackward(u32),
    /// CTC (ECMA-48, 8.3.17): sets or clears tab stops.
    TabulationControl(CursorTabulationControl),
    /// TBC (ECMA-48, 8.3.154): clears tab stops.
    TabulationClear(TabulationClear),
    /// DECSTBM (DEC VT100): the first and the last line that scroll. A bottom of 4294967295 is the page's last line.
    SetTopAndBottomMargins {
        /// The first line.
        top: OneBased,
        /// The last line.
        bottom: OneBased,
    },
    /// DECSLRM (DEC VT420): the first and the last column that scroll. A right of 4294967295 is the page's last column.
    /// The margins from 1 to 4294967295 have no text of their own: theirs is that of `SaveCursor`.
    SetLeftAndRightMargins {
        /// The first column.
        left: OneBased,
        /// The last column.
        right: OneBased,
    },
    /// SCOSC (SCO console, ANSI.SYS): keeps the cursor's position.
    SaveCursor,
    /// SCORC (SCO console, ANSI.SYS): goes back to the position that was kept.
    RestoreCursor,
    /// DSR 6 (ECMA-48, 8.3.35): asks where the cursor is, for an `ActivePositionReport`.
    RequestActivePositionReport,
    /// DECSCUSR (DEC VT520): how the cursor looks.
    CursorStyle(CursorStyle),
}

/// What a sequence does with the characters of the page. The unit is the cell of one character. Counts are 1 or more
/// where they were read; a terminal takes 0 for 1, and so `Repeat(0)` is written `0b` and read back as `Repeat(1)`.
///
/// ```text
/// "\x1b[K"           EraseInLine(EraseToEndOfLine)
/// "\x1b[2J"          EraseInDisplay(EraseDisplay)
/// "\x1b[3L"          InsertLine(3)
/// ```
#[derive(Clone, Copy, Debug, PartialEq, Eq, Hash)]
#[cfg_attr(feature = "serde", derive(serde::Serialize, serde::Deserialize))]
#[non_exhaustive]
pub enum Edit {
    /// ICH (ECMA-48, 8.3.64): this many blanks at the cursor, and what stood there moves to the right.
    InsertCharacter(u32),
    /// IL (ECMA-48, 8.3.67): this many blank lines at the cursor's line, which moves down.
    InsertLine(u32),
    /// DCH (ECMA-48, 8.3.26): takes out this many characters from the cursor on, and what is behind them moves to the left.
    DeleteCharacter(u32),
    /// DL (ECMA-48, 8.3.32): takes out this many lines from the cursor's line on, and what is below moves up.
    DeleteLine(u32),
    /// ECH (ECMA-48, 8.3.38): blanks this many characters from the cursor on.
    EraseCharacter(u32),
    /// SU (ECMA-48, 8.3.147): moves what is shown up by this many lines.
    ScrollUp(u32),
    /// SD (ECMA-48, 8.3.113): moves what is shown down by this many lines.
    ScrollDown(u32),
    /// REP (ECMA-48, 8.3.103): the character before this sequence, this many times more.
    Repeat(u32),
    /// ED (ECMA-48, 8.3.39): blanks a part of the page.
    EraseInDisplay(EraseInDisplay),
    /// EL (ECMA-48, 8.3.41): blanks a part of the cursor's line.
    EraseInLine(EraseInLine),
}

/// A private mode.
///
/// ```text
/// DecPrivateMode::from(2004)         // Code(BracketedPaste)
/// DecPrivateMode::from(7777)         // Unspecified(7777)
/// ```
#[derive(Clone, Copy, Debug, PartialEq, Eq, Hash)]
#[cfg_attr(feature = "serde", derive(serde::Serialize, serde::Deserialize))]
pub enum DecPrivateMode {
    /// One that has a name.
    Code(DecPrivateModeCode),
    /// Any other number from 0 to 65535; `from` makes the one or the other of a number. The number of a mode that has a
    /// name is read back as its `Code`.
    Unspecified(u16),
}

/// A mode of the standard, or of a terminal that took a number beside it.
///
/// ```text
/// TerminalMode::from(4)              // Code(Insert)
/// TerminalMode::from(99)             // Unspecified(99)
/// ```
#[derive(Clone, Copy, Debug, PartialEq, Eq, Hash)]
#[cfg_attr(feature = "serde", derive(serde::Serialize, serde::Deserialize))]
pub enum TerminalMode {
    /// One that has a name.
    Code(TerminalModeCode),
    /// Any other number from 0 to 65535; `from` makes the one or the other of a number. The number of a mode that has a
    /// name is read back as its `Code`.
    Unspecified(u16),
}

/// Which keys `XtermKeyMode` is about (xterm, XTMODKEYS).
#[derive(Clone, Copy, Debug, PartialEq, Eq, Hash)]
#[cfg_attr(feature = "serde", derive(serde::Serialize, serde::Deserialize))]
#[non_exhaustive]
pub enum XtermKeyModifierResource {
    /// `modifyKeyboard`, number 0.
    Keyboard = 0,
    /// `modifyCursorKeys`, number 1.
    CursorKeys = 1,
    /// `modifyFunctionKeys`, number 2.
    FunctionKeys = 2,
    /// `modifyOtherKeys`, number 4.
    OtherKeys = 4,
}

impl XtermKeyModifierResource {
    /// Its number.
    pub fn to_i64(&self) -> i64 {
        match self {
            XtermKeyModifierResource::Keyboard => 0,
            XtermKeyModifierResource::CursorKeys => 1,
            XtermKeyModifierResource::FunctionKeys => 2,
            XtermKeyModifierResource::OtherKeys => 4,
        }
    }

    /// The one that has this number.
    pub fn from_i64(number: i64) -> Option<Self> {
        match number {
            0 => Some(XtermKeyModifierResource::Keyboard),
            1 => Some(XtermKeyModifierResource::CursorKeys),
            2 => Some(XtermKeyModifierResource::FunctionKeys),
            4 => Some(XtermKeyModifierResource::OtherKeys),
            _ => None,
        }
    }
}

/// What a sequence does with one mode of the terminal, and what xterm sends for a key with modifiers.
///
/// ```text
/// "\x1b[?25l"        ResetDecPrivateMode(Code(ShowCursor))
/// "\x1b[4h"          SetMode(Code(Insert))
/// "\x1b[?2004$p"     QueryDecPrivateMode(Code(BracketedPaste))
/// "\x1b[>4;2m"       XtermKeyMode { resource: OtherKeys, value: Some(2) }
/// ```
#[derive(Clone, Copy, Debug, PartialEq, Eq, Hash)]
#[cfg_attr(feature = "serde", derive(serde::Serialize, serde::Deserialize))]
#[non_exhaustive]
pub enum Mode {
    /// DECSET (xterm's name; SM in DEC VT510): the private mode is set.
    SetDecPrivateMode(DecPrivateMode),
    /// DECRST (xterm's name; RM in DEC VT510): the private mode is reset.
    ResetDecPrivateMode(DecPrivateMode),
    /// XTSAVE (xterm): whether the private mode is set is kept aside.
    SaveDecPrivateMode(DecPrivateMode),
    /// XTRESTORE (xterm): the private mode becomes what was kept aside.
    RestoreDecPrivateMode(DecPrivateMode),
    /// DECRQM (DEC VT300 and up): asks whether the private mode is set.
    QueryDecPrivateMode(DecPrivateMode),
    /// SM (ECMA-48, 8.3.125): the mode is set.
    SetMode(TerminalMode),
    /// RM (ECMA-48, 8.3.106): the mode is reset.
    ResetMode(TerminalMode),
    /// DECRQM (DEC VT300 and up): asks whether the mode is set.
    QueryMode(TerminalMode),
    /// XTMODKEYS (xterm): how modifiers are told with these keys.
    XtermKeyMode {
        /// The keys.
        resource: XtermKeyModifierResource,
        /// The new value, 0 or more where it was read from bytes; none sets the initial one. One below 0 isn't read back.
        value: Option<i64>,
    },
}

/// One extension that a terminal says it has.
#[derive(Clone, Copy, Debug, PartialEq, Eq, Hash)]
#[cfg_attr(feature = "serde", derive(serde::Serialize, serde::Deserialize))]
pub enum DeviceAttribute {
    /// One that has a name.
    Code(DeviceAttributeCodes),
    /// Any other token of the answer, but for `;`. The number of an extension that has a name is read back as its `Code`.
    Unspecified(CsiParam),
}

/// The answer to the primary device attributes (DA1; ECMA-48, 8.3.24): which terminal of DEC it is, or is like.
#[derive(Clone, Debug, PartialEq, Eq, Hash)]
#[cfg_attr(feature = "serde", derive(serde::Serialize, serde::Deserialize))]
#[non_exhaustive]
pub enum DeviceAttributes {
    /// `? 1 ; 2`: a VT100 with the advanced video option.
    Vt100WithAdvancedVideoOption,
    /// `? 1 ; 0`: a VT101 without options.
    Vt101WithNoOptions,
    /// `? 6`: a VT102.
    Vt102,
    /// `? 62` and extensions: the service class of the VT220.
    Vt220(DeviceAttributeFlags),
    /// `? 63` and extensions: the service class of the VT320.
    Vt320(DeviceAttributeFlags),
    /// `? 64` and extensions: the service class of the VT420.
    Vt420(DeviceAttributeFlags),
}

/// Requests to a terminal, and its answers.
///
/// ```text
/// "\x1b[c"           RequestPrimaryDeviceAttributes
/// "\x1b[?62;1;4c"    DeviceAttributes(Vt220(..)) of Code(Columns132) and Code(SixelGraphics)
/// "\x1b[!p"          SoftReset
/// ```
#[derive(Clone, Debug, PartialEq, Eq, Hash)]
#[cfg_attr(feature = "serde", derive(serde::Serialize, serde::Deserialize))]
#[non_exhaustive]
pub enum Device {
    /// DA1 (ECMA-48, 8.3.24; DEC VT100 and up): the answer to the primary device attributes.
    DeviceAttributes(DeviceAttributes),
    /// DECSTR (DEC VT220): modes, margins, attributes and character sets are as at first; what is shown stays.
    SoftReset,
    /// DA (ECMA-48, 8.3.24): what the terminal is.
    RequestPrimaryDeviceAttributes,
    /// DA2 (DEC VT220): its type, the version of its firmware, and its options.
    RequestSecondaryDeviceAttributes,
    /// DA3 (DEC VT420): its unit.
    RequestTertiaryDeviceAttributes,
    /// XTVERSION (xterm): its name and version.
    RequestTerminalNameAndVersion,
    /// DECREQTPARM (DEC VT100): asks for the parameters of the serial line. With 0 the terminal may also report unasked, with
    /// 1 only when asked. It is written as the report, DECREPTPARM, whose first number is this one and 2: no parity, 8 bits,
    /// 128 for sending and receiving (38400 baud in xterm; DEC's table ends at 120), 1 for a clock multiplier of 16, and no
    /// switches. So it isn't read back.
    RequestTerminalParameters(i64),
    /// DSR 5 (ECMA-48, 8.3.35): its state.
    StatusReport,
    /// XTSMGRAPHICS (xterm's ctlseqs): what it can draw, asked or answered.
    XtSmGraphics(XtSmGraphics),
}

/// What of the graphics is asked for or set: the first number of XTSMGRAPHICS (xterm's ctlseqs).
#[derive(Clone, Copy, Debug, PartialEq, Eq, Hash)]
#[cfg_attr(feature = "serde", derive(serde::Serialize, serde::Deserialize))]
#[non_exhaustive]
pub enum XtSmGraphicsItem {
    /// 1: how many colour registers there are.
    NumberOfColorRegisters,
    /// 2: how large an image of sixels can be, in pixels.
    SixelGraphicsGeometry,
    /// 3: how large an image of ReGIS can be, in pixels.
    RegisGraphicsGeometry,
    /// Any other number. 1 to 3 are read back as the items above, and a number below 0 isn't read back.
    Unspecified(i64),
}

/// What is done with the item: the second number of XTSMGRAPHICS, where it is a request.
#[derive(Clone, Copy, Debug, PartialEq, Eq, Hash)]
#[cfg_attr(feature = "serde", derive(serde::Serialize, serde::Deserialize))]
#[non_exhaustive]
pub enum XtSmGraphicsAction {
    /// 1: it is asked for.
    ReadAttribute = 1,
    /// 2: it is set back to what it was at first.
    ResetToDefault = 2,
    /// 3: it is set to the values.
    SetToValue = 3,
    /// 4: the most that it can be is asked for.
    ReadMaximumAllowedValue = 4,
}

impl XtSmGraphicsAction {
    /// Its number.
    pub fn to_i64(&self) -> i64 {
        match self {
            XtSmGraphicsAction::ReadAttribute => 1,
            XtSmGraphicsAction::ResetToDefault => 2,
            XtSmGraphicsAction::SetToValue => 3,
            XtSmGraphicsAction::ReadMaximumAllowedValue => 4,
        }
    }

    /// The one that has this number.
    pub fn from_i64(number: i64) -> Option<Self> {
        match number {
            1 => Some(XtSmGraphicsAction::ReadAttribute),
            2 => Some(XtSmGraphicsAction::ResetToDefault),
            3 => Some(XtSmGraphicsAction::SetToValue),
            4 => Some(XtSmGraphicsAction::ReadMaximumAllowedValue),
            _ => None,
        }
    }
}

/// What became of the request: the second number of XTSMGRAPHICS, where it is an answer.
#[derive(Clone, Copy, Debug, PartialEq, Eq, Hash)]
#[cfg_attr(feature = "serde", derive(serde::Serialize, serde::Deserialize))]
#[non_exhaustive]
pub enum XtSmGraphicsStatus {
    /// 0: it was done, and the values follow.
    Success = 0,
    /// 1: the terminal has no such item.
    InvalidItem = 1,
    /// 2: the terminal has no such action.
    InvalidAction = 2,
    /// 3: it could not be done.
    Failure = 3,
}

impl XtSmGraphicsStatus {
    /// Its number.
    pub fn to_i64(&self) -> i64 {
        match self {
            XtSmGraphicsStatus::Success => 0,
            XtSmGraphicsStatus::InvalidItem => 1,
            XtSmGraphicsStatus::InvalidAction => 2,
            XtSmGraphicsStatus::Failure => 3,
        }
    }

    /// The one that has this number.
    pub fn from_i64(number: i64) -> Option<Self> {
        match number {
            0 => Some(XtSmGraphicsStatus::Success),
            1 => Some(XtSmGraphicsStatus::InvalidItem),
            2 => Some(XtSmGraphicsStatus::InvalidAction),
            3 => Some(XtSmGraphicsStatus::Failure),
            _ => None,
        }
    }
}

/// A button.
#[derive(Clone, Copy, Debug, PartialEq, Eq, Hash)]
#[cfg_attr(feature = "serde", derive(serde::Serialize, serde::Deserialize))]
#[non_exhaustive]
pub enum MouseButton {
    /// Button 1, the left one: it goes down.
    Button1Press = 1,
    /// Button 2, the middle one: it goes down.
    Button2Press = 2,
    /// Button 3, the right one: it goes down.
    Button3Press = 3,
    /// Button 4, the wheel, up: it goes down.
    Button4Press = 4,
    /// Button 5, the wheel, down: it goes down.
    Button5Press = 5,
    /// Button 6, the wheel, to the left: it goes down.
    Button6Press = 6,
    /// Button 7, the wheel, to the right: it goes down.
    Button7Press = 7,
    /// Button 1, the left one: it goes up.
    Button1Release = 11,
    /// Button 2, the middle one: it goes up.
    Button2Release = 12,
    /// Button 3, the right one: it goes up.
    Button3Release = 13,
    /// Button 4, the wheel, up: it goes up.
    Button4Release = 14,
    /// Button 5, the wheel, down: it goes up.
    Button5Release = 15,
    /// Button 6, the wheel, to the left: it goes up.
    Button6Release = 16,
    /// Button 7, the wheel, to the right: it goes up.
    Button7Release = 17,
    /// Button 1, the left one: the mouse moves while it is down.
    Button1Drag = 21,
    /// Button 2, the middle one: the mouse moves while it is down.
    Button2Drag = 22,
    /// Button 3, the right one: the mouse moves while it is down.
    Button3Drag = 23,
    /// No button: the mouse moves.
    None = 0,
}

impl MouseButton {
    /// Its number.
    pub fn to_i64(&self) -> i64 {
        match self {
            MouseButton::Button1Press => 1,
            MouseButton::Button2Press => 2,
            MouseButton::Button3Press => 3,
            MouseButton::Button4Press => 4,
            MouseButton::Button5Press => 5,
            MouseButton::Button6Press => 6,
            MouseButton::Button7Press => 7,
            MouseButton::Button1Release => 11,
            MouseButton::Button2Release => 12,
            MouseButton::Button3Release => 13,
            MouseButton::Button4Release => 14,
            MouseButton::Button5Release => 15,
            MouseButton::Button6Release => 16,
            MouseButton::Button7Release => 17,
            MouseButton::Button1Drag => 21,
            MouseButton::Button2Drag => 22,
            MouseButton::Button3Drag => 23,
            MouseButton::None => 0,
        }
    }

    /// The one that has this number.
    pub fn from_i64(number: i64) -> Option<Self> {
        match number {
            1 => Some(MouseButton::Button1Press),
            2 => Some(MouseButton::Button2Press),
            3 => Some(MouseButton::Button3Press),
            4 => Some(MouseButton::Button4Press),
            5 => Some(MouseButton::Button5Press),
            6 => Some(MouseButton::Button6Press),
            7 => Some(MouseButton::Button7Press),
            11 => Some(MouseButton::Button1Release),
            12 => Some(MouseButton::Button2Release),
            13 => Some(MouseButton::Button3Release),
            14 => Some(MouseButton::Button4Release),
            15 => Some(MouseButton::Button5Release),
            16 => Some(MouseButton::Button6Release),
            17 => Some(MouseButton::Button7Release),
            21 => Some(MouseButton::Button1Drag),
            22 => Some(MouseButton::Button2Drag),
            23 => Some(MouseButton::Button3Drag),
            0 => Some(MouseButton::None),
            _ => None,
        }
    }
}

/// A report (xterm's ctlseqs, modes 1006 and 1016): the place, the button and what is held.
///
/// ```text
/// "\x1b[<0;5;6M"     SGR1006 { x: 5, y: 6, button: Button1Press, modifiers: NONE }
/// "\x1b[<4;5;6m"     SGR1006 { x: 5, y: 6, button: Button1Release, modifiers: SHIFT }
/// ```
#[derive(Clone, Copy, Debug, PartialEq, Eq, Hash)]
#[cfg_attr(feature = "serde", derive(serde::Serialize, serde::Deserialize))]
#[non_exhaustive]
pub enum MouseReport {
    /// In cells.
    SGR1006 {
        /// The column.
        x: u16,
        /// The line.
        y: u16,
        /// The button.
        button: MouseButton,
        /// What is held.
        modifiers: Modifiers,
    },
    /// In pixels. It is written as a report in cells is, and so is never read: which of the two modes the terminal is in
    /// stands in no report.
    SGR1016 {
        /// How far it is to the right.
        x_pixels: u16,
        /// How far it is down.
        y_pixels: u16,
        /// The button.
        button: MouseButton,
        /// What is held.
        modifiers: Modifiers,
    },
}

/// What is done to the window of a terminal, asked of it and answered: XTWINOPS (xterm's ctlseqs, "Window
/// manipulation"; the operations 1 to 8, 11, 13, 14, 18, 20 and 21 and their numbers come from dtterm), and DECRQCRA
/// (DEC VT420).
///
/// Sizes and places are of 64 bits and take any sign where a value is built by hand; what is read from a sequence is 0
/// or more, and one below 0 isn't read back. An absent number is one that the sequence leaves out: the terminal then
/// keeps that size as it is (xterm).
///
/// ```text
/// "\x1b[8;24;80t"            ResizeWindowCells { width: Some(80), height: Some(24) }
/// "\x1b[21t"                 ReportWindowTitle
/// "\x1b[1;1;1;1;9;9*y"       ChecksumRectangularArea of request 1 and page 1, from line 1 and column 1 to 9 and 9
/// ```
#[derive(Clone, Copy, Debug, PartialEq, Eq, Hash)]
#[cfg_attr(feature = "serde", derive(serde::Serialize, serde::Deserialize))]
#[non_exhaustive]
pub enum Window {
    /// 1: the window is opened again, if it was an icon.
    DeIconify,
    /// 2: it becomes an icon.
    Iconify,
    /// 3: it is moved; a place that a sequence leaves out is 0.
    MoveWindow {
        /// The left edge, in pixels from the screen's.
        x: i64,
        /// The upper edge, in pixels from the screen's.
        y: i64,
    },
    /// 4: the window gets this size, in pixels; 0 is that of the display (xterm).
    ResizeWindowPixels {
        /// The width, in pixels.
        width: Option<i64>,
        /// The height, in pixels, which a sequence names first.
        height: Option<i64>,
    },
    /// 5: it is put in front of the others.
    RaiseWindow,
    /// 6, alone: it is put behind the others.
    LowerWindow,
    /// 6, with a size: the answer to `ReportCellSizePixels`.
    ReportCellSizePixelsResponse {
        /// The width of a cell, in pixels.
        width: Option<i64>,
        /// Its height, in pixels, which a sequence names first.
        height: Option<i64>,
    },
    /// 7: it is drawn again.
    RefreshWindow,
    /// 8: the text area gets this size, in cells; 0 is that of the display (xterm).
    ResizeWindowCells {
        /// The columns.
        width: Option<i64>,
        /// The lines, which a sequence names first.
        height: Option<i64>,
    },
    /// 9 and 0: a window that was maximized gets its size back.
    RestoreMaximizedWindow,
    /// 9 and 1: it becomes as large as the screen.
    MaximizeWindow,
    /// 9 and 2: it becomes as high as the screen.
    MaximizeWindowVertically,
    /// 9 and 3: it becomes as wide as the screen.
    MaximizeWindowHorizontally,
    /// 10 and 0: full screen ends.
    UndoFullScreenMode,
    /// 10 and 1: full screen begins.
    ChangeToFullScreenMode,
    /// 10 and 2: full screen begins or ends.
    ToggleFullScreen,
    /// 11: asks whether the window is open or an icon; the answer is `CSI 1 t` or `CSI 2 t`, which are read back as `DeIconify`
    /// and `Iconify`.
    ReportWindowState,
    /// 13: asks for the window's place; the answer is `CSI 3 ; x ; y t`, in pixels, which is read back as `MoveWindow`.
    ReportWindowPosition,
    /// 13 and 2: asks for the place of the text area; the answer is the same.
    ReportTextAreaPosition,
    /// 14: asks for the size of the text area; the answer is `CSI 4 ; height ; width t`, in pixels, which is read back as
    /// `ResizeWindowPixels`.
    ReportTextAreaSizePixels,
    /// 14 and 2: asks for the size of the window; the answer is the same.
    ReportWindowSizePixels,
    /// 15: asks for the size of the screen; the answer is `CSI 5 ; height ; width t`, in pixels, which is read back as
    /// `RaiseWindow`.
    ReportScreenSizePixels,
    /// 16: asks for the size of a cell; the answer is `ReportCellSizePixelsResponse`.
    ReportCellSizePixels,
    /// 18: asks for the size of the text area; the answer is `CSI 8 ; lines ; columns t`, which is read back as
    /// `ResizeWindowCells`.
    ReportTextAreaSizeCells,
    /// 19: asks for the size of the screen in cells; the answer is `CSI 9 ; lines ; columns t`, which is unknown but where the
    /// lines are 0 to 3.
    ReportScreenSizeCells,
    /// 20: asks for the icon's label; the answer is `OSC L label ST`.
    ReportIconLabel,
    /// 21: asks for the window's title; the answer is `OSC l title ST`.
    ReportWindowTitle,
    /// 22 and 0: the icon's label and the window's title are put onto a stack.
    PushIconAndWindowTitle,
    /// 22 and 1: the icon's label is.
    PushIconTitle,
    /// 22 and 2: the window's title is.
    PushWindowTitle,
    /// 23 and 0: the icon's label and the window's title are taken off the stack.
    PopIconAndWindowTitle,
    /// 23 and 1: the icon's label is.
    PopIconTitle,
    /// 23 and 2: the window's title is.
    PopWindowTitle,
    /// DECRQCRA (DEC VT420): asks for the checksum of the characters in an area of a page, in cells; the answer is
    /// `DCS request_id ! ~ checksum ST`. A side that a sequence leaves out, or that is 0, is 1.
    ChecksumRectangularArea {
        /// Comes back with the answer, so that it can be told from others.
        request_id: i64,
        /// The page of the terminal's memory.
        page_number: i64,
        /// The first line.
        top: OneBased,
        /// The first column.
        left: OneBased,
        /// The last line.
        bottom: OneBased,
        /// The last column.
        right: OneBased,
    },
}

/// How flags change what the keyboard reports.
#[derive(Clone, Copy, Debug, PartialEq, Eq, Hash)]
#[cfg_attr(feature = "serde", derive(serde::Serialize, serde::Deserialize))]
#[non_exhaustive]
pub enum KittyKeyboardMode {
    /// They take the place of the old ones.
    AssignAll = 1,
    /// They are added.
    SetSpecified = 2,
    /// They are taken away.
    ClearSpecified = 3,
}

impl KittyKeyboardMode {
    /// Its number.
    pub fn to_i64(&self) -> i64 {
        match self {
            KittyKeyboardMode::AssignAll => 1,
            KittyKeyboardMode::SetSpecified => 2,
            KittyKeyboardMode::ClearSpecified => 3,
        }
    }

    /// The one that has this number.
    pub fn from_i64(number: i64) -> Option<Self> {
        match number {
            1 => Some(KittyKeyboardMode::AssignAll),
            2 => Some(KittyKeyboardMode::SetSpecified),
            3 => Some(KittyKeyboardMode::ClearSpecified),
            _ => None,
        }
    }
}

/// What the keyboard reports, set and asked for: kitty's keyboard protocol.
///
/// ```text
/// "\x1b[=1;1u"       SetKittyState { flags: DISAMBIGUATE_ESCAPE_CODES, mode: AssignAll }
/// "\x1b[<2u"         PopKittyState(2)
/// "\x1b[?u"          QueryKittySupport
/// ```
#[derive(Clone, Copy, Debug, PartialEq, Eq, Hash)]
#[cfg_attr(feature = "serde", derive(serde::Serialize, serde::Deserialize))]
#[non_exhaustive]
pub enum Keyboard {
    /// The flags change in this way.
    SetKittyState {
        /// The flags.
        flags: KittyKeyboardFlags,
        /// The way.
        mode: KittyKeyboardMode,
    },
    /// They are put onto a stack, and changed.
    PushKittyState {
        /// The flags.
        flags: KittyKeyboardFlags,
        /// The way.
        mode: KittyKeyboardMode,
    },
    /// This many are taken off the stack.
    PopKittyState(u32),
    /// Asks for the flags.
    QueryKittySupport,
    /// The answer.
    ReportKittyState(KittyKeyboardFlags),
}

/// SCP (ECMA-48, 8.3.111): the path of characters.
#[derive(Clone, Copy, Debug, PartialEq, Eq, Hash)]
#[cfg_attr(feature = "serde", derive(serde::Serialize, serde::Deserialize))]
#[non_exhaustive]
pub enum CharacterPath {
    /// As the terminal has it: 0, or no number, of freedesktop's recommendation on bidirectional text; ECMA-48 has 1 and 2 alone.
    ImplementationDefault = 0,
    /// From left to right, or from top to bottom.
    LeftToRightOrTopToBottom = 1,
    /// From right to left, or from bottom to top.
    RightToLeftOrBottomToTop = 2,
}

impl CharacterPath {
    /// Its number.
    pub fn to_i64(&self) -> i64 {
        match self {
            CharacterPath::ImplementationDefault => 0,
            CharacterPath::LeftToRightOrTopToBottom => 1,
            CharacterPath::RightToLeftOrBottomToTop => 2,
        }
    }

    /// The one that has this number.
    pub fn from_i64(number: i64) -> Option<Self> {
        match number {
            0 => Some(CharacterPath::ImplementationDefault),
            1 => Some(CharacterPath::LeftToRightOrTopToBottom),
            2 => Some(CharacterPath::RightToLeftOrBottomToTop),
            _ => None,
        }
    }
}

/// One token of what stands between `ESC [` and the final byte of a control sequence (ECMA-48, 5.4).
///
/// The bytes `ESC [ 3 8 ; 0 5 ; 1 m` have the tokens 38, `;`, 5, `;` and 1.
#[derive(Clone, Copy, Debug, PartialEq, Eq, Hash)]
#[cfg_attr(feature = "serde", derive(serde::Serialize, serde::Deserialize))]
pub enum CsiParam {
    /// The number of a longest run of digits. What is read is from 0 to `i64::MAX`, and doesn't tell
    /// how many zeros led it; a number below 0 can be made and printed, and is never read.
    Integer(i64),
    /// Any other byte by itself. What is read is one of `:` `;` `<` `=` `>` `?` or an intermediate
    /// byte from `' '` to `'/'`; any byte can be made and printed.
    P(u8),
}

/// One action of a control sequence (ECMA-48, 5.4). A sequence before `m`, `h` or `l` can
/// stand for several, and so can one that saves or restores private modes. It prints a sequence of its own, from `ESC [` on.
///
/// ```text
/// CSI::from(Cursor::Up(2))                                      // "\x1b[2A"
/// CSI::from(Mode::SetDecPrivateMode(DecPrivateMode::from(2004)))   // "\x1b[?2004h"
/// ```
#[derive(Clone, Debug, PartialEq, Eq, Hash)]
#[cfg_attr(feature = "serde", derive(serde::Serialize, serde::Deserialize))]
#[non_exhaustive]
#[repr(u8)]
pub enum CSI {
    /// SGR, select graphic rendition: an attribute of the text that follows.
    Sgr(Sgr),
    /// Moving the cursor, tab stops and margins.
    Cursor(Cursor),
    /// Inserting, deleting, erasing and scrolling.
    Edit(Edit),
    /// Setting, resetting, saving, restoring and asking for modes.
    Mode(Mode),
    /// A report of the mouse.
    Mouse(MouseReport),
    /// The keyboard's protocol of kitty: its flags set, asked and answered.
    Keyboard(Keyboard),
    /// SCP (ECMA-48, 8.3.111): the path of characters, and what becomes of those that are shown.
    SelectCharacterPath(CharacterPath, i64),
    /// What a terminal is, asked and answered.
    Device(Box<Device>),
    /// What is done to the terminal's window, and the checksum of an area of the page.
    Window(Box<Window>),
    /// What none of the rules reads.
    Unspecified(Box<Unspecified>),
}
