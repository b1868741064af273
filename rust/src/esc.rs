//! Escape sequences, under the names of the library and with its documentation. Written by tools/table.

/// An escape sequence without its ESC, as ECMA-48 and ECMA-35 know them.
///
/// It prints ESC and its characters.
#[derive(Clone, Copy, Debug, PartialEq, Eq, Hash)]
#[cfg_attr(feature = "serde", derive(serde::Serialize, serde::Deserialize))]
pub enum Esc {
    /// Two bytes that are no [`EscCode`]. Each is printed as the character of that number, from
    /// U+0000 to U+00FF.
    Unspecified {
        /// What stands between ESC and the control, in ECMA-35 (13) a byte from 02/00 to 02/15.
        intermediate: Option<u8>,
        /// The last byte, which says with the intermediate what is asked for.
        control: u8,
    },
    /// The one or two characters of a code.
    Code(EscCode),
}

/// The codes of escape sequences. A code's number is that of its last character, and 256 times that of the one before it, if any.
#[derive(Clone, Copy, Debug, PartialEq, Eq, Hash)]
#[cfg_attr(feature = "serde", derive(serde::Serialize, serde::Deserialize))]
#[non_exhaustive]
pub enum EscCode {
    /// `ESC c`, RIS (ECMA-48): puts the terminal into the state that it has when it is switched on.
    FullReset = 0x63,
    /// `ESC D`, IND (DEC VT100; ECMA-48, 4th edition and before): moves the cursor down one line in its column, and
    /// scrolls up at the bottom margin. A VT52 takes it as a move to the left.
    Index = 0x44,
    /// `ESC E`, NEL (ECMA-48): moves the cursor to the start of the next line, and scrolls up at the bottom margin.
    NextLine = 0x45,
    /// `ESC F` (xterm's ctlseqs): moves the cursor to the lower left corner, where xterm is set up for programs that
    /// send it to any terminal (hpLowerleftBugCompat). ECMA-48 has SSA here, the start of a selected area.
    CursorPositionLowerLeft = 0x46,
    /// `ESC H`, HTS (ECMA-48): sets a tab stop in the cursor's column.
    HorizontalTabSet = 0x48,
    /// `ESC M`, RI (ECMA-48): moves the cursor up one line in its column, and scrolls down at the top margin.
    ReverseIndex = 0x4d,
    /// `ESC N`, SS2 (ECMA-48): the next character, and it alone, is taken from the set G2.
    SingleShiftG2 = 0x4e,
    /// `ESC O`, SS3 (ECMA-48): the next character, and it alone, is taken from the set G3.
    SingleShiftG3 = 0x4f,
    /// `ESC V`, SPA (ECMA-48): the cursor's place is the first of those that are guarded, against change by hand and
    /// against transfer.
    StartOfGuardedArea = 0x56,
    /// `ESC W`, EPA (ECMA-48): the cursor's place is the last of the guarded ones.
    EndOfGuardedArea = 0x57,
    /// `ESC X`, SOS (ECMA-48): opens a string of characters, up to `StringTerminator`. Terminals skip it.
    StartOfString = 0x58,
    /// `ESC Z`, DECID (DEC VT100): asks what terminal this is. The control sequence DA took its place. ECMA-48 has SCI
    /// here, of which the next byte is a part.
    ReturnTerminalId = 0x5a,
    /// `ESC \`, ST (ECMA-48): closes the string that a control such as OSC, DCS, SOS, PM or APC opened.
    StringTerminator = 0x5c,
    /// `ESC ^`, PM (ECMA-48): opens a privacy message, up to `StringTerminator`. Terminals skip it.
    PrivacyMessage = 0x5e,
    /// `ESC _`, APC (ECMA-48): opens a command to a program, up to `StringTerminator`. Most terminals skip it.
    ApplicationProgramCommand = 0x5f,
    /// `ESC k` (GNU Screen, tmux): opens a title of the window, up to `StringTerminator`.
    TmuxTitle = 0x6b,
    /// `ESC 6`, DECBI (DEC VT420): moves the cursor one column to the left, and at the left margin moves what stands
    /// within the margins one column to the right.
    DecBackIndex = 0x36,
    /// `ESC 7`, DECSC (DEC VT100): saves the cursor's position, and with it the attributes and the character sets.
    DecSaveCursorPosition = 0x37,
    /// `ESC 8`, DECRC (DEC VT100): restores what `DecSaveCursorPosition` saved.
    DecRestoreCursorPosition = 0x38,
    /// `ESC =`, DECKPAM (DEC VT100): the keys of the keypad send sequences of their own.
    DecApplicationKeyPad = 0x3d,
    /// `ESC >`, DECKPNM (DEC VT100): the keys of the keypad send the characters that stand on them.
    DecNormalKeyPad = 0x3e,
    /// `ESC ( 0`, SCS (DEC VT100): makes DEC's special graphics, with which lines are drawn, the set G0.
    DecLineDrawingG0 = 0x2830,
    /// `ESC ( A`, SCS (DEC VT100): makes the British characters the set G0.
    UkCharacterSetG0 = 0x2841,
    /// `ESC ( B`, SCS (DEC VT100): makes ASCII the set G0.
    AsciiCharacterSetG0 = 0x2842,
    /// `ESC ) 0`, SCS (DEC VT100): makes DEC's special graphics, with which lines are drawn, the set G1.
    DecLineDrawingG1 = 0x2930,
    /// `ESC ) A`, SCS (DEC VT100): makes the British characters the set G1.
    UkCharacterSetG1 = 0x2941,
    /// `ESC ) B`, SCS (DEC VT100): makes ASCII the set G1.
    AsciiCharacterSetG1 = 0x2942,
    /// `ESC # 8`, DECALN (DEC VT100): fills the screen with the letter E, to adjust the display by.
    DecScreenAlignmentDisplay = 0x2338,
    /// `ESC # 3`, DECDHL (DEC VT100): the cursor's line shows the top half of characters of double height and width.
    DecDoubleHeightTopHalfLine = 0x2333,
    /// `ESC # 4`, DECDHL (DEC VT100): the cursor's line shows the bottom half of characters of double height and width.
    DecDoubleHeightBottomHalfLine = 0x2334,
    /// `ESC # 5`, DECSWL (DEC VT100): the cursor's line shows characters of single height and width.
    DecSingleWidthLine = 0x2335,
    /// `ESC # 6`, DECDWL (DEC VT100): the cursor's line shows characters of double width and single height.
    DecDoubleWidthLine = 0x2336,
    /// `ESC O A` (DEC VT100): sent by a terminal for the arrow up, while its cursor keys are in application mode
    /// (DECCKM).
    ApplicationModeArrowUpPress = 0x4f41,
    /// `ESC O B` (DEC VT100): sent for the arrow down, in the same mode.
    ApplicationModeArrowDownPress = 0x4f42,
    /// `ESC O C` (DEC VT100): sent for the arrow to the right, in the same mode.
    ApplicationModeArrowRightPress = 0x4f43,
    /// `ESC O D` (DEC VT100): sent for the arrow to the left, in the same mode.
    ApplicationModeArrowLeftPress = 0x4f44,
    /// `ESC O H` (xterm's ctlseqs): sent for Home, in the same mode.
    ApplicationModeHomePress = 0x4f48,
    /// `ESC O F` (xterm's ctlseqs): sent for End, in the same mode.
    ApplicationModeEndPress = 0x4f46,
    /// `ESC O P` (xterm's ctlseqs): sent by a terminal for F1, on a DEC VT100 for PF1.
    F1Press = 0x4f50,
    /// `ESC O Q` (xterm's ctlseqs): sent for F2, on a DEC VT100 for PF2.
    F2Press = 0x4f51,
    /// `ESC O R` (xterm's ctlseqs): sent for F3, on a DEC VT100 for PF3.
    F3Press = 0x4f52,
    /// `ESC O S` (xterm's ctlseqs): sent for F4, on a DEC VT100 for PF4.
    F4Press = 0x4f53,
}

impl EscCode {
    /// Its number.
    pub fn to_i64(&self) -> i64 {
        match self {
            EscCode::FullReset => 99,
            EscCode::Index => 68,
            EscCode::NextLine => 69,
            EscCode::CursorPositionLowerLeft => 70,
            EscCode::HorizontalTabSet => 72,
            EscCode::ReverseIndex => 77,
            EscCode::SingleShiftG2 => 78,
            EscCode::SingleShiftG3 => 79,
            EscCode::StartOfGuardedArea => 86,
            EscCode::EndOfGuardedArea => 87,
            EscCode::StartOfString => 88,
            EscCode::ReturnTerminalId => 90,
            EscCode::StringTerminator => 92,
            EscCode::PrivacyMessage => 94,
            EscCode::ApplicationProgramCommand => 95,
            EscCode::TmuxTitle => 107,
            EscCode::DecBackIndex => 54,
            EscCode::DecSaveCursorPosition => 55,
            EscCode::DecRestoreCursorPosition => 56,
            EscCode::DecApplicationKeyPad => 61,
            EscCode::DecNormalKeyPad => 62,
            EscCode::DecLineDrawingG0 => 10288,
            EscCode::UkCharacterSetG0 => 10305,
            EscCode::AsciiCharacterSetG0 => 10306,
            EscCode::DecLineDrawingG1 => 10544,
            EscCode::UkCharacterSetG1 => 10561,
            EscCode::AsciiCharacterSetG1 => 10562,
            EscCode::DecScreenAlignmentDisplay => 9016,
            EscCode::DecDoubleHeightTopHalfLine => 9011,
            EscCode::DecDoubleHeightBottomHalfLine => 9012,
            EscCode::DecSingleWidthLine => 9013,
            EscCode::DecDoubleWidthLine => 9014,
            EscCode::ApplicationModeArrowUpPress => 20289,
            EscCode::ApplicationModeArrowDownPress => 20290,
            EscCode::ApplicationModeArrowRightPress => 20291,
            EscCode::ApplicationModeArrowLeftPress => 20292,
            EscCode::ApplicationModeHomePress => 20296,
            EscCode::ApplicationModeEndPress => 20294,
            EscCode::F1Press => 20304,
            EscCode::F2Press => 20305,
            EscCode::F3Press => 20306,
            EscCode::F4Press => 20307,
        }
    }

    /// The one that has this number.
    pub fn from_i64(number: i64) -> Option<Self> {
        match number {
            99 => Some(EscCode::FullReset),
            68 => Some(EscCode::Index),
            69 => Some(EscCode::NextLine),
            70 => Some(EscCode::CursorPositionLowerLeft),
            72 => Some(EscCode::HorizontalTabSet),
            77 => Some(EscCode::ReverseIndex),
            78 => Some(EscCode::SingleShiftG2),
            79 => Some(EscCode::SingleShiftG3),
            86 => Some(EscCode::StartOfGuardedArea),
            87 => Some(EscCode::EndOfGuardedArea),
            88 => Some(EscCode::StartOfString),
            90 => Some(EscCode::ReturnTerminalId),
            92 => Some(EscCode::StringTerminator),
            94 => Some(EscCode::PrivacyMessage),
            95 => Some(EscCode::ApplicationProgramCommand),
            107 => Some(EscCode::TmuxTitle),
            54 => Some(EscCode::DecBackIndex),
            55 => Some(EscCode::DecSaveCursorPosition),
            56 => Some(EscCode::DecRestoreCursorPosition),
            61 => Some(EscCode::DecApplicationKeyPad),
            62 => Some(EscCode::DecNormalKeyPad),
            10288 => Some(EscCode::DecLineDrawingG0),
            10305 => Some(EscCode::UkCharacterSetG0),
            10306 => Some(EscCode::AsciiCharacterSetG0),
            10544 => Some(EscCode::DecLineDrawingG1),
            10561 => Some(EscCode::UkCharacterSetG1),
            10562 => Some(EscCode::AsciiCharacterSetG1),
            9016 => Some(EscCode::DecScreenAlignmentDisplay),
            9011 => Some(EscCode::DecDoubleHeightTopHalfLine),
            9012 => Some(EscCode::DecDoubleHeightBottomHalfLine),
            9013 => Some(EscCode::DecSingleWidthLine),
            9014 => Some(EscCode::DecDoubleWidthLine),
            20289 => Some(EscCode::ApplicationModeArrowUpPress),
            20290 => Some(EscCode::ApplicationModeArrowDownPress),
            20291 => Some(EscCode::ApplicationModeArrowRightPress),
            20292 => Some(EscCode::ApplicationModeArrowLeftPress),
            20296 => Some(EscCode::ApplicationModeHomePress),
            20294 => Some(EscCode::ApplicationModeEndPress),
            20304 => Some(EscCode::F1Press),
            20305 => Some(EscCode::F2Press),
            20306 => Some(EscCode::F3Press),
            20307 => Some(EscCode::F4Press),
            _ => None,
        }
    }
}
