//! The attributes, and what has a name, under the names of the library and with its documentation. Written by tools/table.

use crate::SrgbaTuple;

/// The font of a character (ECMA-48, 8.3.117).
#[derive(Clone, Copy, Debug, PartialEq, Eq, Hash)]
#[cfg_attr(feature = "serde", derive(serde::Serialize, serde::Deserialize))]
pub enum Font {
    /// The primary font, code 10.
    Default,
    /// An alternative font by its number from 1 to 9, codes 11 to 19. Another number stands for no font.
    Alternate(u8),
}

/// An attribute of text: what one parameter of `CSI .. m` sets (SGR, "select graphic rendition"; ECMA-48, 8.3.117). It
/// holds for the characters that follow, until it is set anew.
///
/// ```text
/// "\x1b[1m"                 Intensity(Bold)
/// "\x1b[4:3m"               Underline(Curly)
/// "\x1b[31m"                Foreground(PaletteIndex(1))
/// "\x1b[48:2::1:2:3m"       Background(TrueColor(SrgbaTuple(1, 2, 3, 255)))
/// ```
#[derive(Clone, Copy, Debug, PartialEq, Eq, Hash)]
#[cfg_attr(feature = "serde", derive(serde::Serialize, serde::Deserialize))]
#[non_exhaustive]
pub enum Sgr {
    /// All attributes back to the default rendition.
    Reset,
    /// How strong the strokes are.
    Intensity(Intensity),
    /// The line below.
    Underline(Underline),
    /// The colour of that line (kitty, VTE); the default is the colour of the character.
    UnderlineColor(ColorSpec),
    /// Whether it blinks.
    Blink(Blink),
    /// Italicized or not.
    Italic(bool),
    /// Negative or positive image: whether the colours of character and ground change places.
    Inverse(bool),
    /// Concealed or revealed.
    Invisible(bool),
    /// Crossed out or not.
    StrikeThrough(bool),
    /// The font.
    Font(Font),
    /// The colour of the character.
    Foreground(ColorSpec),
    /// The colour of the ground behind it.
    Background(ColorSpec),
    /// A line above, or none.
    Overline(bool),
    /// Raised, lowered or on the line (mintty).
    VerticalAlign(VerticalAlign),
}

/// Which colour a sequence asks for.
///
/// ```text
/// "\x1b[39m"                Default, of the character
/// "\x1b[38:5:200m"          PaletteIndex(200)
/// "\x1b[38:2::1:2:3m"       TrueColor(SrgbaTuple(1, 2, 3, 255))
/// ```
#[derive(Clone, Copy, Debug, PartialEq, Eq, Hash)]
#[cfg_attr(feature = "serde", derive(serde::Serialize, serde::Deserialize))]
pub enum ColorSpec {
    /// The terminal's own: of the character code 39 and of the ground 49 (ECMA-48), of an underline 59 (kitty, VTE).
    Default,
    /// A place in the palette, 0 to 255. The first 16 have names (`AnsiColor`); how the others look is the terminal's
    /// choice, in xterm a cube of 216 colours and 24 greys.
    PaletteIndex(u8),
    /// A colour by its parts (ISO/IEC 8613-6, which is ITU-T T.416; with an alpha, WezTerm).
    TrueColor(SrgbaTuple),
}

/// How strong the strokes of a character are (ECMA-48, 8.3.117).
#[derive(Clone, Copy, Debug, PartialEq, Eq, Hash)]
#[cfg_attr(feature = "serde", derive(serde::Serialize, serde::Deserialize))]
#[non_exhaustive]
pub enum Intensity {
    /// Neither bold nor faint, code 22.
    Normal = 0,
    /// Bold or increased intensity, code 1.
    Bold = 1,
    /// Faint or decreased intensity, code 2.
    Half = 2,
}

impl Intensity {
    /// Its number.
    pub fn to_i64(&self) -> i64 {
        match self {
            Intensity::Normal => 0,
            Intensity::Bold => 1,
            Intensity::Half => 2,
        }
    }

    /// The one that has this number.
    pub fn from_i64(number: i64) -> Option<Self> {
        match number {
            0 => Some(Intensity::Normal),
            1 => Some(Intensity::Bold),
            2 => Some(Intensity::Half),
            _ => None,
        }
    }
}

/// The line below a character: 21 and 24 are from ECMA-48, 8.3.117, the kinds behind a colon from kitty and VTE.
#[derive(Clone, Copy, Debug, PartialEq, Eq, Hash)]
#[cfg_attr(feature = "serde", derive(serde::Serialize, serde::Deserialize))]
#[non_exhaustive]
pub enum Underline {
    /// No line, code 24 or `4:0`.
    None = 0,
    /// One line, code 4 or `4:1`.
    Single = 1,
    /// Two lines, code 21 or `4:2`.
    Double = 2,
    /// A wavy line, `4:3`.
    Curly = 3,
    /// A line of dots, `4:4`.
    Dotted = 4,
    /// A line of dashes, `4:5`.
    Dashed = 5,
}

impl Underline {
    /// Its number.
    pub fn to_i64(&self) -> i64 {
        match self {
            Underline::None => 0,
            Underline::Single => 1,
            Underline::Double => 2,
            Underline::Curly => 3,
            Underline::Dotted => 4,
            Underline::Dashed => 5,
        }
    }

    /// The one that has this number.
    pub fn from_i64(number: i64) -> Option<Self> {
        match number {
            0 => Some(Underline::None),
            1 => Some(Underline::Single),
            2 => Some(Underline::Double),
            3 => Some(Underline::Curly),
            4 => Some(Underline::Dotted),
            5 => Some(Underline::Dashed),
            _ => None,
        }
    }
}

/// Whether a character blinks, and how fast (ECMA-48, 8.3.117).
#[derive(Clone, Copy, Debug, PartialEq, Eq, Hash)]
#[cfg_attr(feature = "serde", derive(serde::Serialize, serde::Deserialize))]
#[non_exhaustive]
pub enum Blink {
    /// Steady, code 25.
    None = 0,
    /// Less than 150 times a minute, code 5.
    Slow = 1,
    /// 150 times a minute or more, code 6.
    Rapid = 2,
}

impl Blink {
    /// Its number.
    pub fn to_i64(&self) -> i64 {
        match self {
            Blink::None => 0,
            Blink::Slow => 1,
            Blink::Rapid => 2,
        }
    }

    /// The one that has this number.
    pub fn from_i64(number: i64) -> Option<Self> {
        match number {
            0 => Some(Blink::None),
            1 => Some(Blink::Slow),
            2 => Some(Blink::Rapid),
            _ => None,
        }
    }
}

/// Where on its line a character stands (mintty).
#[derive(Clone, Copy, Debug, PartialEq, Eq, Hash)]
#[cfg_attr(feature = "serde", derive(serde::Serialize, serde::Deserialize))]
#[non_exhaustive]
pub enum VerticalAlign {
    /// On the line, code 75.
    BaseLine = 0,
    /// Raised and small, code 73.
    SuperScript = 1,
    /// Lowered and small, code 74.
    SubScript = 2,
}

impl VerticalAlign {
    /// Its number.
    pub fn to_i64(&self) -> i64 {
        match self {
            VerticalAlign::BaseLine => 0,
            VerticalAlign::SuperScript => 1,
            VerticalAlign::SubScript => 2,
        }
    }

    /// The one that has this number.
    pub fn from_i64(number: i64) -> Option<Self> {
        match number {
            0 => Some(VerticalAlign::BaseLine),
            1 => Some(VerticalAlign::SuperScript),
            2 => Some(VerticalAlign::SubScript),
            _ => None,
        }
    }
}

/// How the cursor looks (DECSCUSR; DEC VT520, the bars xterm).
#[derive(Clone, Copy, Debug, PartialEq, Eq, Hash)]
#[cfg_attr(feature = "serde", derive(serde::Serialize, serde::Deserialize))]
#[non_exhaustive]
pub enum CursorStyle {
    /// As the user set the terminal up; by DEC a blinking block.
    Default = 0,
    /// A block that blinks.
    BlinkingBlock = 1,
    /// A block that doesn't.
    SteadyBlock = 2,
    /// A line below the character that blinks.
    BlinkingUnderline = 3,
    /// A line below the character that doesn't.
    SteadyUnderline = 4,
    /// A line before the character that blinks (xterm).
    BlinkingBar = 5,
    /// A line before the character that doesn't (xterm).
    SteadyBar = 6,
}

impl CursorStyle {
    /// Its number.
    pub fn to_i64(&self) -> i64 {
        match self {
            CursorStyle::Default => 0,
            CursorStyle::BlinkingBlock => 1,
            CursorStyle::SteadyBlock => 2,
            CursorStyle::BlinkingUnderline => 3,
            CursorStyle::SteadyUnderline => 4,
            CursorStyle::BlinkingBar => 5,
            CursorStyle::SteadyBar => 6,
        }
    }

    /// The one that has this number.
    pub fn from_i64(number: i64) -> Option<Self> {
        match number {
            0 => Some(CursorStyle::Default),
            1 => Some(CursorStyle::BlinkingBlock),
            2 => Some(CursorStyle::SteadyBlock),
            3 => Some(CursorStyle::BlinkingUnderline),
            4 => Some(CursorStyle::SteadyUnderline),
            5 => Some(CursorStyle::BlinkingBar),
            6 => Some(CursorStyle::SteadyBar),
            _ => None,
        }
    }
}

/// What happens to tab stops where the cursor is (CTC, cursor tabulation control; ECMA-48, 8.3.17). A character tab stop
/// is a column, a line tab stop a line.
#[derive(Clone, Copy, Debug, PartialEq, Eq, Hash)]
#[cfg_attr(feature = "serde", derive(serde::Serialize, serde::Deserialize))]
#[non_exhaustive]
pub enum CursorTabulationControl {
    /// A character tab stop is set in the cursor's column.
    SetCharacterTabStopAtActivePosition = 0,
    /// A line tab stop is set at the cursor's line.
    SetLineTabStopAtActiveLine = 1,
    /// The character tab stop in the cursor's column is cleared.
    ClearCharacterTabStopAtActivePosition = 2,
    /// The line tab stop at the cursor's line is cleared.
    ClearLineTabstopAtActiveLine = 3,
    /// All character tab stops of the cursor's line are cleared.
    ClearAllCharacterTabStopsAtActiveLine = 4,
    /// All character tab stops are cleared.
    ClearAllCharacterTabStops = 5,
    /// All line tab stops are cleared.
    ClearAllLineTabStops = 6,
}

impl CursorTabulationControl {
    /// Its number.
    pub fn to_i64(&self) -> i64 {
        match self {
            CursorTabulationControl::SetCharacterTabStopAtActivePosition => 0,
            CursorTabulationControl::SetLineTabStopAtActiveLine => 1,
            CursorTabulationControl::ClearCharacterTabStopAtActivePosition => 2,
            CursorTabulationControl::ClearLineTabstopAtActiveLine => 3,
            CursorTabulationControl::ClearAllCharacterTabStopsAtActiveLine => 4,
            CursorTabulationControl::ClearAllCharacterTabStops => 5,
            CursorTabulationControl::ClearAllLineTabStops => 6,
        }
    }

    /// The one that has this number.
    pub fn from_i64(number: i64) -> Option<Self> {
        match number {
            0 => Some(CursorTabulationControl::SetCharacterTabStopAtActivePosition),
            1 => Some(CursorTabulationControl::SetLineTabStopAtActiveLine),
            2 => Some(CursorTabulationControl::ClearCharacterTabStopAtActivePosition),
            3 => Some(CursorTabulationControl::ClearLineTabstopAtActiveLine),
            4 => Some(CursorTabulationControl::ClearAllCharacterTabStopsAtActiveLine),
            5 => Some(CursorTabulationControl::ClearAllCharacterTabStops),
            6 => Some(CursorTabulationControl::ClearAllLineTabStops),
            _ => None,
        }
    }
}

/// Which tab stops are cleared (TBC, tabulation clear; ECMA-48, 8.3.154).
#[derive(Clone, Copy, Debug, PartialEq, Eq, Hash)]
#[cfg_attr(feature = "serde", derive(serde::Serialize, serde::Deserialize))]
#[non_exhaustive]
pub enum TabulationClear {
    /// The character tab stop in the cursor's column.
    ClearCharacterTabStopAtActivePosition = 0,
    /// The line tab stop at the cursor's line.
    ClearLineTabStopAtActiveLine = 1,
    /// All character tab stops of the cursor's line.
    ClearCharacterTabStopsAtActiveLine = 2,
    /// All character tab stops.
    ClearAllCharacterTabStops = 3,
    /// All line tab stops.
    ClearAllLineTabStops = 4,
    /// All tab stops, of characters and of lines.
    ClearAllTabStops = 5,
}

impl TabulationClear {
    /// Its number.
    pub fn to_i64(&self) -> i64 {
        match self {
            TabulationClear::ClearCharacterTabStopAtActivePosition => 0,
            TabulationClear::ClearLineTabStopAtActiveLine => 1,
            TabulationClear::ClearCharacterTabStopsAtActiveLine => 2,
            TabulationClear::ClearAllCharacterTabStops => 3,
            TabulationClear::ClearAllLineTabStops => 4,
            TabulationClear::ClearAllTabStops => 5,
        }
    }

    /// The one that has this number.
    pub fn from_i64(number: i64) -> Option<Self> {
        match number {
            0 => Some(TabulationClear::ClearCharacterTabStopAtActivePosition),
            1 => Some(TabulationClear::ClearLineTabStopAtActiveLine),
            2 => Some(TabulationClear::ClearCharacterTabStopsAtActiveLine),
            3 => Some(TabulationClear::ClearAllCharacterTabStops),
            4 => Some(TabulationClear::ClearAllLineTabStops),
            5 => Some(TabulationClear::ClearAllTabStops),
            _ => None,
        }
    }
}

/// Which part of the cursor's line is erased (EL, erase in line; ECMA-48, 8.3.41). The cursor's own column is part of it.
#[derive(Clone, Copy, Debug, PartialEq, Eq, Hash)]
#[cfg_attr(feature = "serde", derive(serde::Serialize, serde::Deserialize))]
#[non_exhaustive]
pub enum EraseInLine {
    /// From the cursor to the end.
    EraseToEndOfLine = 0,
    /// From the start to the cursor.
    EraseToStartOfLine = 1,
    /// The whole line.
    EraseLine = 2,
}

impl EraseInLine {
    /// Its number.
    pub fn to_i64(&self) -> i64 {
        match self {
            EraseInLine::EraseToEndOfLine => 0,
            EraseInLine::EraseToStartOfLine => 1,
            EraseInLine::EraseLine => 2,
        }
    }

    /// The one that has this number.
    pub fn from_i64(number: i64) -> Option<Self> {
        match number {
            0 => Some(EraseInLine::EraseToEndOfLine),
            1 => Some(EraseInLine::EraseToStartOfLine),
            2 => Some(EraseInLine::EraseLine),
            _ => None,
        }
    }
}

/// Which part of the page is erased (ED, erase in page; ECMA-48, 8.3.39). The cursor's own place is part of it.
#[derive(Clone, Copy, Debug, PartialEq, Eq, Hash)]
#[cfg_attr(feature = "serde", derive(serde::Serialize, serde::Deserialize))]
#[non_exhaustive]
pub enum EraseInDisplay {
    /// From the cursor to the end.
    EraseToEndOfDisplay = 0,
    /// From the start to the cursor.
    EraseToStartOfDisplay = 1,
    /// The whole page.
    EraseDisplay = 2,
    /// The lines that have been scrolled off the top (xterm).
    EraseScrollback = 3,
}

impl EraseInDisplay {
    /// Its number.
    pub fn to_i64(&self) -> i64 {
        match self {
            EraseInDisplay::EraseToEndOfDisplay => 0,
            EraseInDisplay::EraseToStartOfDisplay => 1,
            EraseInDisplay::EraseDisplay => 2,
            EraseInDisplay::EraseScrollback => 3,
        }
    }

    /// The one that has this number.
    pub fn from_i64(number: i64) -> Option<Self> {
        match number {
            0 => Some(EraseInDisplay::EraseToEndOfDisplay),
            1 => Some(EraseInDisplay::EraseToStartOfDisplay),
            2 => Some(EraseInDisplay::EraseDisplay),
            3 => Some(EraseInDisplay::EraseScrollback),
            _ => None,
        }
    }
}

/// A private mode: one that `CSI ? .. h` sets and `CSI ? .. l` resets. Those of DEC (VT510, VT382) begin with the name that DEC gave
/// them; where the others are from is said at each.
#[derive(Clone, Copy, Debug, PartialEq, Eq, Hash)]
#[cfg_attr(feature = "serde", derive(serde::Serialize, serde::Deserialize))]
#[non_exhaustive]
pub enum DecPrivateModeCode {
    /// DECCKM: the arrow keys send application sequences.
    ApplicationCursorKeys = 1,
    /// DECANM: ANSI sequences; reset, the terminal is a VT52.
    DecAnsiMode = 2,
    /// DECCOLM: a line has 132 columns; reset, 80.
    Select132Columns = 3,
    /// DECSCLM: lines scroll smoothly; reset, by jumps.
    SmoothScroll = 4,
    /// DECSCNM: the screen is shown with its two colours exchanged.
    ReverseVideo = 5,
    /// DECOM: positions count from the margins, and the cursor stays within them.
    OriginMode = 6,
    /// DECAWM: text goes on in the next line at the end of one.
    AutoWrap = 7,
    /// DECARM: a key that is held down repeats.
    AutoRepeat = 8,
    /// The cursor blinks (AT&T 610; xterm).
    StartBlinkingCursor = 12,
    /// DECTCEM: the cursor is shown.
    ShowCursor = 25,
    /// A backspace at the start of a line goes to the end of the line above (xterm).
    ReverseWraparound = 45,
    /// The alternate screen (xterm).
    EnableAlternateScreen = 47,
    /// DECLRMM: left and right margins can be set.
    LeftRightMarginMode = 69,
    /// DECSDM: a sixel image is shown at the top left, and doesn't scroll.
    SixelDisplayMode = 80,
    /// Presses and releases of the mouse are reported (xterm).
    MouseTracking = 1000,
    /// The same, with text marked between both; it waits for the program's answer (xterm).
    HighlightMouseTracking = 1001,
    /// Motions with a button down are reported too (xterm).
    ButtonEventMouse = 1002,
    /// All motions are reported too (xterm).
    AnyEventMouse = 1003,
    /// Getting and losing the focus is reported (xterm).
    FocusTracking = 1004,
    /// Positions of the mouse are reported in UTF-8 (xterm).
    Utf8Mouse = 1005,
    /// Reports of the mouse are control sequences with numbers in cells (xterm).
    SGRMouse = 1006,
    /// The same with numbers in pixels (xterm).
    SGRPixelsMouse = 1016,
    /// The meta key puts an ESC ahead (xterm).
    XTermMetaSendsEscape = 1036,
    /// The alt key puts an ESC ahead (xterm).
    XTermAltSendsEscape = 1039,
    /// The alternate screen, cleared when it is left (xterm).
    OptEnableAlternateScreen = 1047,
    /// The cursor is saved, as by DECSC; reset, it is restored (xterm).
    SaveCursor = 1048,
    /// 1047 and 1048 in one, and the screen is cleared when it is entered (xterm).
    ClearAndEnableAlternateScreen = 1049,
    /// Each image of sixels or ReGIS has colours of its own (xterm).
    UsePrivateColorRegistersForEachGraphic = 1070,
    /// Text that is pasted comes between `CSI 200 ~` and `CSI 201 ~` (xterm).
    BracketedPaste = 2004,
    /// What is drawn is shown when this is reset (contour).
    SynchronizedOutput = 2026,
    /// How many cells a character takes goes by grapheme clusters (contour).
    GraphemeClustering = 2027,
    /// The escape key sends a sequence of its own (mintty).
    MinTTYApplicationEscapeKeyMode = 7727,
    /// The cursor stays to the right of an image of sixels (RLogin, xterm).
    SixelScrollsRight = 8452,
    /// Keys are reported with all that Windows says of them (Windows Terminal).
    Win32InputMode = 9001,
}

impl DecPrivateModeCode {
    /// Its number.
    pub fn to_i64(&self) -> i64 {
        match self {
            DecPrivateModeCode::ApplicationCursorKeys => 1,
            DecPrivateModeCode::DecAnsiMode => 2,
            DecPrivateModeCode::Select132Columns => 3,
            DecPrivateModeCode::SmoothScroll => 4,
            DecPrivateModeCode::ReverseVideo => 5,
            DecPrivateModeCode::OriginMode => 6,
            DecPrivateModeCode::AutoWrap => 7,
            DecPrivateModeCode::AutoRepeat => 8,
            DecPrivateModeCode::StartBlinkingCursor => 12,
            DecPrivateModeCode::ShowCursor => 25,
            DecPrivateModeCode::ReverseWraparound => 45,
            DecPrivateModeCode::EnableAlternateScreen => 47,
            DecPrivateModeCode::LeftRightMarginMode => 69,
            DecPrivateModeCode::SixelDisplayMode => 80,
            DecPrivateModeCode::MouseTracking => 1000,
            DecPrivateModeCode::HighlightMouseTracking => 1001,
            DecPrivateModeCode::ButtonEventMouse => 1002,
            DecPrivateModeCode::AnyEventMouse => 1003,
            DecPrivateModeCode::FocusTracking => 1004,
            DecPrivateModeCode::Utf8Mouse => 1005,
            DecPrivateModeCode::SGRMouse => 1006,
            DecPrivateModeCode::SGRPixelsMouse => 1016,
            DecPrivateModeCode::XTermMetaSendsEscape => 1036,
            DecPrivateModeCode::XTermAltSendsEscape => 1039,
            DecPrivateModeCode::OptEnableAlternateScreen => 1047,
            DecPrivateModeCode::SaveCursor => 1048,
            DecPrivateModeCode::ClearAndEnableAlternateScreen => 1049,
            DecPrivateModeCode::UsePrivateColorRegistersForEachGraphic => 1070,
            DecPrivateModeCode::BracketedPaste => 2004,
            DecPrivateModeCode::SynchronizedOutput => 2026,
            DecPrivateModeCode::GraphemeClustering => 2027,
            DecPrivateModeCode::MinTTYApplicationEscapeKeyMode => 7727,
            DecPrivateModeCode::SixelScrollsRight => 8452,
            DecPrivateModeCode::Win32InputMode => 9001,
        }
    }

    /// The one that has this number.
    pub fn from_i64(number: i64) -> Option<Self> {
        match number {
            1 => Some(DecPrivateModeCode::ApplicationCursorKeys),
            2 => Some(DecPrivateModeCode::DecAnsiMode),
            3 => Some(DecPrivateModeCode::Select132Columns),
            4 => Some(DecPrivateModeCode::SmoothScroll),
            5 => Some(DecPrivateModeCode::ReverseVideo),
            6 => Some(DecPrivateModeCode::OriginMode),
            7 => Some(DecPrivateModeCode::AutoWrap),
            8 => Some(DecPrivateModeCode::AutoRepeat),
            12 => Some(DecPrivateModeCode::StartBlinkingCursor),
            25 => Some(DecPrivateModeCode::ShowCursor),
            45 => Some(DecPrivateModeCode::ReverseWraparound),
            47 => Some(DecPrivateModeCode::EnableAlternateScreen),
            69 => Some(DecPrivateModeCode::LeftRightMarginMode),
            80 => Some(DecPrivateModeCode::SixelDisplayMode),
            1000 => Some(DecPrivateModeCode::MouseTracking),
            1001 => Some(DecPrivateModeCode::HighlightMouseTracking),
            1002 => Some(DecPrivateModeCode::ButtonEventMouse),
            1003 => Some(DecPrivateModeCode::AnyEventMouse),
            1004 => Some(DecPrivateModeCode::FocusTracking),
            1005 => Some(DecPrivateModeCode::Utf8Mouse),
            1006 => Some(DecPrivateModeCode::SGRMouse),
            1016 => Some(DecPrivateModeCode::SGRPixelsMouse),
            1036 => Some(DecPrivateModeCode::XTermMetaSendsEscape),
            1039 => Some(DecPrivateModeCode::XTermAltSendsEscape),
            1047 => Some(DecPrivateModeCode::OptEnableAlternateScreen),
            1048 => Some(DecPrivateModeCode::SaveCursor),
            1049 => Some(DecPrivateModeCode::ClearAndEnableAlternateScreen),
            1070 => Some(DecPrivateModeCode::UsePrivateColorRegistersForEachGraphic),
            2004 => Some(DecPrivateModeCode::BracketedPaste),
            2026 => Some(DecPrivateModeCode::SynchronizedOutput),
            2027 => Some(DecPrivateModeCode::GraphemeClustering),
            7727 => Some(DecPrivateModeCode::MinTTYApplicationEscapeKeyMode),
            8452 => Some(DecPrivateModeCode::SixelScrollsRight),
            9001 => Some(DecPrivateModeCode::Win32InputMode),
            _ => None,
        }
    }
}

/// A mode that `CSI .. h` sets and `CSI .. l` resets (SM and RM; ECMA-48, 8.3.125 and 8.3.106).
#[derive(Clone, Copy, Debug, PartialEq, Eq, Hash)]
#[cfg_attr(feature = "serde", derive(serde::Serialize, serde::Deserialize))]
#[non_exhaustive]
pub enum TerminalModeCode {
    /// KAM (ECMA-48, 7.2.11): the keyboard is locked.
    KeyboardAction = 2,
    /// IRM (ECMA-48, 7.2.10): characters move to the right what stands there; reset, they replace it.
    Insert = 4,
    /// BDSM (ECMA-48, 7.2.1): the terminal orders text of both directions.
    BiDirectionalSupportMode = 8,
    /// SRM (ECMA-48, 7.2.15): what is typed isn't shown by the terminal itself.
    SendReceive = 12,
    /// LNM (ECMA-48, 4th edition and before): a line feed goes to the start of the line as well.
    AutomaticNewline = 20,
    /// The cursor is shown (termwiz, which has it of Windows' terminal).
    ShowCursor = 25,
}

impl TerminalModeCode {
    /// Its number.
    pub fn to_i64(&self) -> i64 {
        match self {
            TerminalModeCode::KeyboardAction => 2,
            TerminalModeCode::Insert => 4,
            TerminalModeCode::BiDirectionalSupportMode => 8,
            TerminalModeCode::SendReceive => 12,
            TerminalModeCode::AutomaticNewline => 20,
            TerminalModeCode::ShowCursor => 25,
        }
    }

    /// The one that has this number.
    pub fn from_i64(number: i64) -> Option<Self> {
        match number {
            2 => Some(TerminalModeCode::KeyboardAction),
            4 => Some(TerminalModeCode::Insert),
            8 => Some(TerminalModeCode::BiDirectionalSupportMode),
            12 => Some(TerminalModeCode::SendReceive),
            20 => Some(TerminalModeCode::AutomaticNewline),
            25 => Some(TerminalModeCode::ShowCursor),
            _ => None,
        }
    }
}

/// An extension that a terminal names behind its service class, in its answer to the primary device attributes (DA1,
/// `CSI ? 62 ; .. c`; DEC VT220 and its successors).
#[derive(Clone, Copy, Debug, PartialEq, Eq, Hash)]
#[cfg_attr(feature = "serde", derive(serde::Serialize, serde::Deserialize))]
#[non_exhaustive]
pub enum DeviceAttributeCodes {
    /// Lines of 132 columns (DEC VT220).
    Columns132 = 1,
    /// A port for a printer (DEC VT220).
    Printer = 2,
    /// Drawings by ReGIS commands (DEC VT240, VT340).
    RegisGraphics = 3,
    /// Images by sixels (DEC VT240, VT340).
    SixelGraphics = 4,
    /// Selective erase: DECSCA protects characters from DECSED and DECSEL (DEC VT220).
    SelectiveErase = 6,
    /// User-defined keys (DECUDK; DEC VT220).
    UserDefinedKeys = 8,
    /// National replacement character sets, of 7 bits, one for each language (DEC VT220).
    NationalReplacementCharsets = 9,
    /// DEC's technical character set (DEC VT320).
    TechnicalCharacters = 15,
    /// User windows: several parts of the page are shown at once (DEC VT340).
    UserWindows = 18,
    /// The page scrolls to the left and right (DEC VT420).
    HorizontalScrolling = 21,
    /// The colours of ECMA-48, by `CSI .. m` (DEC VT525).
    AnsiColor = 22,
    /// Reports of the locator, a mouse or a tablet, in cells (DEC locator mode; xterm).
    AnsiTextLocator = 29,
}

impl DeviceAttributeCodes {
    /// Its number.
    pub fn to_i64(&self) -> i64 {
        match self {
            DeviceAttributeCodes::Columns132 => 1,
            DeviceAttributeCodes::Printer => 2,
            DeviceAttributeCodes::RegisGraphics => 3,
            DeviceAttributeCodes::SixelGraphics => 4,
            DeviceAttributeCodes::SelectiveErase => 6,
            DeviceAttributeCodes::UserDefinedKeys => 8,
            DeviceAttributeCodes::NationalReplacementCharsets => 9,
            DeviceAttributeCodes::TechnicalCharacters => 15,
            DeviceAttributeCodes::UserWindows => 18,
            DeviceAttributeCodes::HorizontalScrolling => 21,
            DeviceAttributeCodes::AnsiColor => 22,
            DeviceAttributeCodes::AnsiTextLocator => 29,
        }
    }

    /// The one that has this number.
    pub fn from_i64(number: i64) -> Option<Self> {
        match number {
            1 => Some(DeviceAttributeCodes::Columns132),
            2 => Some(DeviceAttributeCodes::Printer),
            3 => Some(DeviceAttributeCodes::RegisGraphics),
            4 => Some(DeviceAttributeCodes::SixelGraphics),
            6 => Some(DeviceAttributeCodes::SelectiveErase),
            8 => Some(DeviceAttributeCodes::UserDefinedKeys),
            9 => Some(DeviceAttributeCodes::NationalReplacementCharsets),
            15 => Some(DeviceAttributeCodes::TechnicalCharacters),
            18 => Some(DeviceAttributeCodes::UserWindows),
            21 => Some(DeviceAttributeCodes::HorizontalScrolling),
            22 => Some(DeviceAttributeCodes::AnsiColor),
            29 => Some(DeviceAttributeCodes::AnsiTextLocator),
            _ => None,
        }
    }
}
