"""The enumerations, under the names of the library and with its documentation. Written by tools/table."""
from __future__ import annotations

from enum import IntEnum

__all__ = [
    "Blink",
    "CharacterPath",
    "CursorStyle",
    "CursorTabulationControl",
    "DecPrivateModeCode",
    "DeviceAttributeCodes",
    "EraseInDisplay",
    "EraseInLine",
    "EscCode",
    "Intensity",
    "KeyCode",
    "KittyKeyboardMode",
    "MouseButton",
    "OscKind",
    "TabulationClear",
    "TerminalModeCode",
    "Underline",
    "VerticalAlign",
    "XtSmGraphicsAction",
    "XtSmGraphicsItem",
    "XtSmGraphicsStatus",
    "XtermKeyModifierResource",
]


class Intensity(IntEnum):
    """How strong the strokes of a character are (ECMA-48, 8.3.117)."""

    #: Neither bold nor faint, code 22.
    Normal = 0
    #: Bold or increased intensity, code 1.
    Bold = 1
    #: Faint or decreased intensity, code 2.
    Half = 2


class Underline(IntEnum):
    """The line below a character: 21 and 24 are from ECMA-48, 8.3.117, the kinds behind a colon from kitty and VTE."""

    #: No line, code 24 or `4:0`.
    None_ = 0
    #: One line, code 4 or `4:1`.
    Single = 1
    #: Two lines, code 21 or `4:2`.
    Double = 2
    #: A wavy line, `4:3`.
    Curly = 3
    #: A line of dots, `4:4`.
    Dotted = 4
    #: A line of dashes, `4:5`.
    Dashed = 5


class Blink(IntEnum):
    """Whether a character blinks, and how fast (ECMA-48, 8.3.117)."""

    #: Steady, code 25.
    None_ = 0
    #: Less than 150 times a minute, code 5.
    Slow = 1
    #: 150 times a minute or more, code 6.
    Rapid = 2


class VerticalAlign(IntEnum):
    """Where on its line a character stands (mintty)."""

    #: On the line, code 75.
    BaseLine = 0
    #: Raised and small, code 73.
    SuperScript = 1
    #: Lowered and small, code 74.
    SubScript = 2


class CursorStyle(IntEnum):
    """How the cursor looks (DECSCUSR; DEC VT520, the bars xterm)."""

    #: As the user set the terminal up; by DEC a blinking block.
    Default = 0
    #: A block that blinks.
    BlinkingBlock = 1
    #: A block that doesn't.
    SteadyBlock = 2
    #: A line below the character that blinks.
    BlinkingUnderline = 3
    #: A line below the character that doesn't.
    SteadyUnderline = 4
    #: A line before the character that blinks (xterm).
    BlinkingBar = 5
    #: A line before the character that doesn't (xterm).
    SteadyBar = 6


class CursorTabulationControl(IntEnum):
    """What happens to tab stops where the cursor is (CTC, cursor tabulation control; ECMA-48, 8.3.17). A character tab stop is a
    column, a line tab stop a line.
    """

    #: A character tab stop is set in the cursor's column.
    SetCharacterTabStopAtActivePosition = 0
    #: A line tab stop is set at the cursor's line.
    SetLineTabStopAtActiveLine = 1
    #: The character tab stop in the cursor's column is cleared.
    ClearCharacterTabStopAtActivePosition = 2
    #: The line tab stop at the cursor's line is cleared.
    ClearLineTabstopAtActiveLine = 3
    #: All character tab stops of the cursor's line are cleared.
    ClearAllCharacterTabStopsAtActiveLine = 4
    #: All character tab stops are cleared.
    ClearAllCharacterTabStops = 5
    #: All line tab stops are cleared.
    ClearAllLineTabStops = 6


class TabulationClear(IntEnum):
    """Which tab stops are cleared (TBC, tabulation clear; ECMA-48, 8.3.154)."""

    #: The character tab stop in the cursor's column.
    ClearCharacterTabStopAtActivePosition = 0
    #: The line tab stop at the cursor's line.
    ClearLineTabStopAtActiveLine = 1
    #: All character tab stops of the cursor's line.
    ClearCharacterTabStopsAtActiveLine = 2
    #: All character tab stops.
    ClearAllCharacterTabStops = 3
    #: All line tab stops.
    ClearAllLineTabStops = 4
    #: All tab stops, of characters and of lines.
    ClearAllTabStops = 5


class EraseInLine(IntEnum):
    """Which part of the cursor's line is erased (EL, erase in line; ECMA-48, 8.3.41). The cursor's own column is part of it."""

    #: From the cursor to the end.
    EraseToEndOfLine = 0
    #: From the start to the cursor.
    EraseToStartOfLine = 1
    #: The whole line.
    EraseLine = 2


class EraseInDisplay(IntEnum):
    """Which part of the page is erased (ED, erase in page; ECMA-48, 8.3.39). The cursor's own place is part of it."""

    #: From the cursor to the end.
    EraseToEndOfDisplay = 0
    #: From the start to the cursor.
    EraseToStartOfDisplay = 1
    #: The whole page.
    EraseDisplay = 2
    #: The lines that have been scrolled off the top (xterm).
    EraseScrollback = 3


class DecPrivateModeCode(IntEnum):
    """A private mode: one that `CSI ? .. h` sets and `CSI ? .. l` resets. Those of DEC (VT510, VT382) begin with the name that DEC
    gave them; where the others are from is said at each.
    """

    #: DECCKM: the arrow keys send application sequences.
    ApplicationCursorKeys = 1
    #: DECANM: ANSI sequences; reset, the terminal is a VT52.
    DecAnsiMode = 2
    #: DECCOLM: a line has 132 columns; reset, 80.
    Select132Columns = 3
    #: DECSCLM: lines scroll smoothly; reset, by jumps.
    SmoothScroll = 4
    #: DECSCNM: the screen is shown with its two colours exchanged.
    ReverseVideo = 5
    #: DECOM: positions count from the margins, and the cursor stays within them.
    OriginMode = 6
    #: DECAWM: text goes on in the next line at the end of one.
    AutoWrap = 7
    #: DECARM: a key that is held down repeats.
    AutoRepeat = 8
    #: The cursor blinks (AT&T 610; xterm).
    StartBlinkingCursor = 12
    #: DECTCEM: the cursor is shown.
    ShowCursor = 25
    #: A backspace at the start of a line goes to the end of the line above (xterm).
    ReverseWraparound = 45
    #: The alternate screen (xterm).
    EnableAlternateScreen = 47
    #: DECLRMM: left and right margins can be set.
    LeftRightMarginMode = 69
    #: DECSDM: a sixel image is shown at the top left, and doesn't scroll.
    SixelDisplayMode = 80
    #: Presses and releases of the mouse are reported (xterm).
    MouseTracking = 1000
    #: The same, with text marked between both; it waits for the program's answer (xterm).
    HighlightMouseTracking = 1001
    #: Motions with a button down are reported too (xterm).
    ButtonEventMouse = 1002
    #: All motions are reported too (xterm).
    AnyEventMouse = 1003
    #: Getting and losing the focus is reported (xterm).
    FocusTracking = 1004
    #: Positions of the mouse are reported in UTF-8 (xterm).
    Utf8Mouse = 1005
    #: Reports of the mouse are control sequences with numbers in cells (xterm).
    SGRMouse = 1006
    #: The same with numbers in pixels (xterm).
    SGRPixelsMouse = 1016
    #: The meta key puts an ESC ahead (xterm).
    XTermMetaSendsEscape = 1036
    #: The alt key puts an ESC ahead (xterm).
    XTermAltSendsEscape = 1039
    #: The alternate screen, cleared when it is left (xterm).
    OptEnableAlternateScreen = 1047
    #: The cursor is saved, as by DECSC; reset, it is restored (xterm).
    SaveCursor = 1048
    #: 1047 and 1048 in one, and the screen is cleared when it is entered (xterm).
    ClearAndEnableAlternateScreen = 1049
    #: Each image of sixels or ReGIS has colours of its own (xterm).
    UsePrivateColorRegistersForEachGraphic = 1070
    #: Text that is pasted comes between `CSI 200 ~` and `CSI 201 ~` (xterm).
    BracketedPaste = 2004
    #: What is drawn is shown when this is reset (contour).
    SynchronizedOutput = 2026
    #: How many cells a character takes goes by grapheme clusters (contour).
    GraphemeClustering = 2027
    #: The escape key sends a sequence of its own (mintty).
    MinTTYApplicationEscapeKeyMode = 7727
    #: The cursor stays to the right of an image of sixels (RLogin, xterm).
    SixelScrollsRight = 8452
    #: Keys are reported with all that Windows says of them (Windows Terminal).
    Win32InputMode = 9001


class TerminalModeCode(IntEnum):
    """A mode that `CSI .. h` sets and `CSI .. l` resets (SM and RM; ECMA-48, 8.3.125 and 8.3.106)."""

    #: KAM (ECMA-48, 7.2.11): the keyboard is locked.
    KeyboardAction = 2
    #: IRM (ECMA-48, 7.2.10): characters move to the right what stands there; reset, they replace it.
    Insert = 4
    #: BDSM (ECMA-48, 7.2.1): the terminal orders text of both directions.
    BiDirectionalSupportMode = 8
    #: SRM (ECMA-48, 7.2.15): what is typed isn't shown by the terminal itself.
    SendReceive = 12
    #: LNM (ECMA-48, 4th edition and before): a line feed goes to the start of the line as well.
    AutomaticNewline = 20
    #: The cursor is shown (termwiz, which has it of Windows' terminal).
    ShowCursor = 25


class DeviceAttributeCodes(IntEnum):
    """An extension that a terminal names behind its service class, in its answer to the primary device attributes (DA1, `CSI ? 62 ;
    .. c`; DEC VT220 and its successors).
    """

    #: Lines of 132 columns (DEC VT220).
    Columns132 = 1
    #: A port for a printer (DEC VT220).
    Printer = 2
    #: Drawings by ReGIS commands (DEC VT240, VT340).
    RegisGraphics = 3
    #: Images by sixels (DEC VT240, VT340).
    SixelGraphics = 4
    #: Selective erase: DECSCA protects characters from DECSED and DECSEL (DEC VT220).
    SelectiveErase = 6
    #: User-defined keys (DECUDK; DEC VT220).
    UserDefinedKeys = 8
    #: National replacement character sets, of 7 bits, one for each language (DEC VT220).
    NationalReplacementCharsets = 9
    #: DEC's technical character set (DEC VT320).
    TechnicalCharacters = 15
    #: User windows: several parts of the page are shown at once (DEC VT340).
    UserWindows = 18
    #: The page scrolls to the left and right (DEC VT420).
    HorizontalScrolling = 21
    #: The colours of ECMA-48, by `CSI .. m` (DEC VT525).
    AnsiColor = 22
    #: Reports of the locator, a mouse or a tablet, in cells (DEC locator mode; xterm).
    AnsiTextLocator = 29


class XtermKeyModifierResource(IntEnum):
    """Which keys `XtermKeyMode` is about (xterm, XTMODKEYS)."""

    #: `modifyKeyboard`, number 0.
    Keyboard = 0
    #: `modifyCursorKeys`, number 1.
    CursorKeys = 1
    #: `modifyFunctionKeys`, number 2.
    FunctionKeys = 2
    #: `modifyOtherKeys`, number 4.
    OtherKeys = 4


class XtSmGraphicsAction(IntEnum):
    """What is done with the item: the second number of XTSMGRAPHICS, where it is a request."""

    #: 1: it is asked for.
    ReadAttribute = 1
    #: 2: it is set back to what it was at first.
    ResetToDefault = 2
    #: 3: it is set to the values.
    SetToValue = 3
    #: 4: the most that it can be is asked for.
    ReadMaximumAllowedValue = 4


class XtSmGraphicsStatus(IntEnum):
    """What became of the request: the second number of XTSMGRAPHICS, where it is an answer."""

    #: 0: it was done, and the values follow.
    Success = 0
    #: 1: the terminal has no such item.
    InvalidItem = 1
    #: 2: the terminal has no such action.
    InvalidAction = 2
    #: 3: it could not be done.
    Failure = 3


class MouseButton(IntEnum):
    """A button."""

    #: Button 1, the left one: it goes down.
    Button1Press = 1
    #: Button 2, the middle one: it goes down.
    Button2Press = 2
    #: Button 3, the right one: it goes down.
    Button3Press = 3
    #: Button 4, the wheel, up: it goes down.
    Button4Press = 4
    #: Button 5, the wheel, down: it goes down.
    Button5Press = 5
    #: Button 6, the wheel, to the left: it goes down.
    Button6Press = 6
    #: Button 7, the wheel, to the right: it goes down.
    Button7Press = 7
    #: Button 1, the left one: it goes up.
    Button1Release = 11
    #: Button 2, the middle one: it goes up.
    Button2Release = 12
    #: Button 3, the right one: it goes up.
    Button3Release = 13
    #: Button 4, the wheel, up: it goes up.
    Button4Release = 14
    #: Button 5, the wheel, down: it goes up.
    Button5Release = 15
    #: Button 6, the wheel, to the left: it goes up.
    Button6Release = 16
    #: Button 7, the wheel, to the right: it goes up.
    Button7Release = 17
    #: Button 1, the left one: the mouse moves while it is down.
    Button1Drag = 21
    #: Button 2, the middle one: the mouse moves while it is down.
    Button2Drag = 22
    #: Button 3, the right one: the mouse moves while it is down.
    Button3Drag = 23
    #: No button: the mouse moves.
    None_ = 0


class KittyKeyboardMode(IntEnum):
    """How flags change what the keyboard reports."""

    #: They take the place of the old ones.
    AssignAll = 1
    #: They are added.
    SetSpecified = 2
    #: They are taken away.
    ClearSpecified = 3


class CharacterPath(IntEnum):
    """SCP (ECMA-48, 8.3.111): the path of characters."""

    #: As the terminal has it: 0, or no number, of freedesktop's recommendation on bidirectional text; ECMA-48 has 1 and 2 alone.
    ImplementationDefault = 0
    #: From left to right, or from top to bottom.
    LeftToRightOrTopToBottom = 1
    #: From right to left, or from bottom to top.
    RightToLeftOrBottomToTop = 2


class EscCode(IntEnum):
    """The codes of escape sequences. A code's number is that of its last character, and 256 times that of the one before it, if any."""

    #: `ESC c`, RIS (ECMA-48): puts the terminal into the state that it has when it is switched on.
    FullReset = 99
    #: `ESC D`, IND (DEC VT100; ECMA-48, 4th edition and before): moves the cursor down one line in its column, and scrolls up at the
    #:bottom margin. A VT52 takes it as a move to the left.
    Index = 68
    #: `ESC E`, NEL (ECMA-48): moves the cursor to the start of the next line, and scrolls up at the bottom margin.
    NextLine = 69
    #: `ESC F` (xterm's ctlseqs): moves the cursor to the lower left corner, where xterm is set up for programs that send it to any
    #:terminal (hpLowerleftBugCompat). ECMA-48 has SSA here, the start of a selected area.
    CursorPositionLowerLeft = 70
    #: `ESC H`, HTS (ECMA-48): sets a tab stop in the cursor's column.
    HorizontalTabSet = 72
    #: `ESC M`, RI (ECMA-48): moves the cursor up one line in its column, and scrolls down at the top margin.
    ReverseIndex = 77
    #: `ESC N`, SS2 (ECMA-48): the next character, and it alone, is taken from the set G2.
    SingleShiftG2 = 78
    #: `ESC O`, SS3 (ECMA-48): the next character, and it alone, is taken from the set G3.
    SingleShiftG3 = 79
    #: `ESC V`, SPA (ECMA-48): the cursor's place is the first of those that are guarded, against change by hand and against transfer.
    StartOfGuardedArea = 86
    #: `ESC W`, EPA (ECMA-48): the cursor's place is the last of the guarded ones.
    EndOfGuardedArea = 87
    #: `ESC X`, SOS (ECMA-48): opens a string of characters, up to `StringTerminator`. Terminals skip it.
    StartOfString = 88
    #: `ESC Z`, DECID (DEC VT100): asks what terminal this is. The control sequence DA took its place. ECMA-48 has SCI here, of which
    #:the next byte is a part.
    ReturnTerminalId = 90
    #: `ESC \\`, ST (ECMA-48): closes the string that a control such as OSC, DCS, SOS, PM or APC opened.
    StringTerminator = 92
    #: `ESC ^`, PM (ECMA-48): opens a privacy message, up to `StringTerminator`. Terminals skip it.
    PrivacyMessage = 94
    #: `ESC _`, APC (ECMA-48): opens a command to a program, up to `StringTerminator`. Most terminals skip it.
    ApplicationProgramCommand = 95
    #: `ESC k` (GNU Screen, tmux): opens a title of the window, up to `StringTerminator`.
    TmuxTitle = 107
    #: `ESC 6`, DECBI (DEC VT420): moves the cursor one column to the left, and at the left margin moves what stands within the margins
    #:one column to the right.
    DecBackIndex = 54
    #: `ESC 7`, DECSC (DEC VT100): saves the cursor's position, and with it the attributes and the character sets.
    DecSaveCursorPosition = 55
    #: `ESC 8`, DECRC (DEC VT100): restores what `DecSaveCursorPosition` saved.
    DecRestoreCursorPosition = 56
    #: `ESC =`, DECKPAM (DEC VT100): the keys of the keypad send sequences of their own.
    DecApplicationKeyPad = 61
    #: `ESC >`, DECKPNM (DEC VT100): the keys of the keypad send the characters that stand on them.
    DecNormalKeyPad = 62
    #: `ESC ( 0`, SCS (DEC VT100): makes DEC's special graphics, with which lines are drawn, the set G0.
    DecLineDrawingG0 = 10288
    #: `ESC ( A`, SCS (DEC VT100): makes the British characters the set G0.
    UkCharacterSetG0 = 10305
    #: `ESC ( B`, SCS (DEC VT100): makes ASCII the set G0.
    AsciiCharacterSetG0 = 10306
    #: `ESC ) 0`, SCS (DEC VT100): makes DEC's special graphics, with which lines are drawn, the set G1.
    DecLineDrawingG1 = 10544
    #: `ESC ) A`, SCS (DEC VT100): makes the British characters the set G1.
    UkCharacterSetG1 = 10561
    #: `ESC ) B`, SCS (DEC VT100): makes ASCII the set G1.
    AsciiCharacterSetG1 = 10562
    #: `ESC # 8`, DECALN (DEC VT100): fills the screen with the letter E, to adjust the display by.
    DecScreenAlignmentDisplay = 9016
    #: `ESC # 3`, DECDHL (DEC VT100): the cursor's line shows the top half of characters of double height and width.
    DecDoubleHeightTopHalfLine = 9011
    #: `ESC # 4`, DECDHL (DEC VT100): the cursor's line shows the bottom half of characters of double height and width.
    DecDoubleHeightBottomHalfLine = 9012
    #: `ESC # 5`, DECSWL (DEC VT100): the cursor's line shows characters of single height and width.
    DecSingleWidthLine = 9013
    #: `ESC # 6`, DECDWL (DEC VT100): the cursor's line shows characters of double width and single height.
    DecDoubleWidthLine = 9014
    #: `ESC O A` (DEC VT100): sent by a terminal for the arrow up, while its cursor keys are in application mode (DECCKM).
    ApplicationModeArrowUpPress = 20289
    #: `ESC O B` (DEC VT100): sent for the arrow down, in the same mode.
    ApplicationModeArrowDownPress = 20290
    #: `ESC O C` (DEC VT100): sent for the arrow to the right, in the same mode.
    ApplicationModeArrowRightPress = 20291
    #: `ESC O D` (DEC VT100): sent for the arrow to the left, in the same mode.
    ApplicationModeArrowLeftPress = 20292
    #: `ESC O H` (xterm's ctlseqs): sent for Home, in the same mode.
    ApplicationModeHomePress = 20296
    #: `ESC O F` (xterm's ctlseqs): sent for End, in the same mode.
    ApplicationModeEndPress = 20294
    #: `ESC O P` (xterm's ctlseqs): sent by a terminal for F1, on a DEC VT100 for PF1.
    F1Press = 20304
    #: `ESC O Q` (xterm's ctlseqs): sent for F2, on a DEC VT100 for PF2.
    F2Press = 20305
    #: `ESC O R` (xterm's ctlseqs): sent for F3, on a DEC VT100 for PF3.
    F3Press = 20306
    #: `ESC O S` (xterm's ctlseqs): sent for F4, on a DEC VT100 for PF4.
    F4Press = 20307


class XtSmGraphicsItem(IntEnum):
    """What XTSMGRAPHICS asks about; another number stands for itself."""

    #: How many colours a picture can have.
    NumberOfColorRegisters = 1
    #: The largest picture in sixels, in pixels.
    SixelGraphicsGeometry = 2
    #: The largest picture in ReGIS, in pixels.
    RegisGraphicsGeometry = 3


class OscKind(IntEnum):
    """Which command an OSC is."""

    #: What no command reads; its text is all of it.
    Unknown = 0
    #: `0`: The window's title and the icon's name.
    TitleBoth = 16
    #: `1`: The icon's name.
    TitleIcon = 17
    #: `2`: The window's title.
    TitleWindow = 18
    #: `4`: The palette, from 0 to 255; xterm takes 256 and more for the special ones.
    ColorsIndexed = 32
    #: `5`: Those of text that is bold (0), underlined (1), blinking (2), inverse (3) or italic (4).
    ColorsSpecial = 33
    #: `104`: the same as at first.
    ResetColorsIndexed = 48
    #: `105`: the same as at first.
    ResetColorsSpecial = 49
    #: `10`: Text.
    ColorForeground = 64
    #: `11`: The background.
    ColorBackground = 65
    #: `12`: The text cursor.
    ColorCursor = 66
    #: `13`: The pointer.
    ColorPointerForeground = 67
    #: `14`: What is around the pointer.
    ColorPointerBackground = 68
    #: `15`: Text in a window of a Tektronix terminal.
    ColorTektronixForeground = 69
    #: `16`: Its background.
    ColorTektronixBackground = 70
    #: `17`: The background of what is selected.
    ColorHighlightBackground = 71
    #: `18`: The cursor of a Tektronix terminal.
    ColorTektronixCursor = 72
    #: `19`: Text that is selected.
    ColorHighlightForeground = 73
    #: `110`: the same as at first.
    ResetColorForeground = 80
    #: `111`: the same as at first.
    ResetColorBackground = 81
    #: `112`: the same as at first.
    ResetColorCursor = 82
    #: `113`: the same as at first.
    ResetColorPointerForeground = 83
    #: `114`: the same as at first.
    ResetColorPointerBackground = 84
    #: `115`: the same as at first.
    ResetColorTektronixForeground = 85
    #: `116`: the same as at first.
    ResetColorTektronixBackground = 86
    #: `117`: the same as at first.
    ResetColorHighlightBackground = 87
    #: `118`: the same as at first.
    ResetColorTektronixCursor = 88
    #: `119`: the same as at first.
    ResetColorHighlightForeground = 89
    #: `7`: As an address, `file://host/path` with `%` and two digits for other bytes.
    FolderAddress = 96
    #: `9;9`: As a path, with or without quotation marks (ConEmu, Windows Terminal).
    FolderPath = 97
    #: `133;A`: The prompt begins.
    PromptPrompt = 112
    #: `133;B`: The prompt is over, and the command line begins.
    PromptCommand = 113
    #: `133;C`: The output begins.
    PromptOutput = 114
    #: `133;D`: The command is over; its first field may be the status.
    PromptEnd = 115
    #: `133;I`: The command line begins, and ends with the line.
    PromptCommandLine = 116
    #: `133;L`: A new line, unless the cursor is at the beginning of one.
    PromptFreshLine = 117
    #: `133;N`: The last command is over, and a prompt begins.
    PromptNextPrompt = 118
    #: `133;P`: A prompt begins, of the kind that its fields say.
    PromptPromptPart = 119
    #: `633;A`: The prompt begins.
    EditorPrompt = 128
    #: `633;B`: The prompt is over, and the command line begins.
    EditorCommand = 129
    #: `633;C`: The output begins.
    EditorOutput = 130
    #: `633;D`: The command is over; its first field may be the status.
    EditorEnd = 131
    #: `633;E`: The command line itself, and a nonce.
    EditorCommandText = 132
    #: `633;F`: A prompt for a further line begins.
    EditorContinuation = 133
    #: `633;G`: It is over.
    EditorContinuationEnd = 134
    #: `633;H`: A prompt at the right begins.
    EditorRightPrompt = 135
    #: `633;I`: It is over.
    EditorRightPromptEnd = 136
    #: `633;P`: A property, `name=value`.
    EditorProperty = 137
    #: `9;4;0`: Not at all.
    ProgressOff = 144
    #: `9;4;1`: With a percentage.
    ProgressShown = 145
    #: `9;4;2`: As failed.
    ProgressFailed = 146
    #: `9;4;3`: Without a percentage.
    ProgressBusy = 147
    #: `9;4;4`: As paused.
    ProgressPaused = 148
    #: `8`: What is printed from now on leads to the second text, an address; the first has parameters. Without an address the link
    #:ends.
    Link = 160
    #: `52`: The clipboard, by the letters of the first text; the second is its content in base64, or `?`, a question for it.
    Clipboard = 161
    #: `22`: The shape of the pointer.
    Pointer = 162
    #: `99`: A notification of kitty: its metadata, and its text.
    KittyNotice = 163
    #: `777;notify`: A notification: its title, and its text.
    TitledNotice = 164
    #: `9`: A notification.
    Notice = 165


class KeyCode(IntEnum):
    """Which key it is. The same key of the keypad is another one."""

    #: The key of a character, as it types it without modifiers: `a`, also where shift makes it `A`. Where the encoding says only what
    #:is typed, it is that.
    Char = 0
    #: A function key, by its number.
    F = 1
    #: The return key.
    Enter = 2
    #: Esc.
    Escape = 3
    #: Tab; with shift it goes back.
    Tab = 4
    #: The key that erases to the left.
    Backspace = 5
    #: Insert.
    Insert = 6
    #: Delete.
    Delete = 7
    #: The arrow to the left.
    Left = 8
    #: The arrow to the right.
    Right = 9
    #: The arrow up.
    Up = 10
    #: The arrow down.
    Down = 11
    #: Page up, DEC's Prev Screen.
    PageUp = 12
    #: Page down, DEC's Next Screen.
    PageDown = 13
    #: Home, DEC's Find.
    Home = 14
    #: End, DEC's Select.
    End = 15
    #: Caps lock.
    CapsLock = 16
    #: Scroll lock.
    ScrollLock = 17
    #: Num lock.
    NumLock = 18
    #: Print screen.
    PrintScreen = 19
    #: Pause.
    Pause = 20
    #: The key of the menu, Apps of Windows.
    Menu = 21
    #: 0 on the keypad.
    Keypad0 = 22
    #: 1 on the keypad.
    Keypad1 = 23
    #: 2 on the keypad.
    Keypad2 = 24
    #: 3 on the keypad.
    Keypad3 = 25
    #: 4 on the keypad.
    Keypad4 = 26
    #: 5 on the keypad.
    Keypad5 = 27
    #: 6 on the keypad.
    Keypad6 = 28
    #: 7 on the keypad.
    Keypad7 = 29
    #: 8 on the keypad.
    Keypad8 = 30
    #: 9 on the keypad.
    Keypad9 = 31
    #: The decimal point on the keypad.
    KeypadDecimal = 32
    #: `/` on the keypad.
    KeypadDivide = 33
    #: `*` on the keypad.
    KeypadMultiply = 34
    #: `-` on the keypad.
    KeypadSubtract = 35
    #: `+` on the keypad.
    KeypadAdd = 36
    #: Enter on the keypad.
    KeypadEnter = 37
    #: `=` on the keypad.
    KeypadEqual = 38
    #: The separator on the keypad.
    KeypadSeparator = 39
    #: The arrow to the left on the keypad.
    KeypadLeft = 40
    #: The arrow to the right on the keypad.
    KeypadRight = 41
    #: The arrow up on the keypad.
    KeypadUp = 42
    #: The arrow down on the keypad.
    KeypadDown = 43
    #: Page up on the keypad.
    KeypadPageUp = 44
    #: Page down on the keypad.
    KeypadPageDown = 45
    #: Home on the keypad.
    KeypadHome = 46
    #: End on the keypad.
    KeypadEnd = 47
    #: Insert on the keypad.
    KeypadInsert = 48
    #: Delete on the keypad.
    KeypadDelete = 49
    #: The middle key of the keypad, 5 with num lock.
    KeypadBegin = 50
    #: Play.
    MediaPlay = 51
    #: Pause what plays.
    MediaPause = 52
    #: Play or pause.
    MediaPlayPause = 53
    #: Play backwards.
    MediaReverse = 54
    #: Stop what plays.
    MediaStop = 55
    #: Fast forward.
    MediaFastForward = 56
    #: Rewind.
    MediaRewind = 57
    #: The next track.
    MediaNext = 58
    #: The previous track.
    MediaPrevious = 59
    #: Record.
    MediaRecord = 60
    #: Less loud.
    LowerVolume = 61
    #: Louder.
    RaiseVolume = 62
    #: Silent.
    MuteVolume = 63
    #: The shift key on the left.
    LeftShift = 64
    #: The ctrl key on the left.
    LeftCtrl = 65
    #: The alt key on the left.
    LeftAlt = 66
    #: The super key on the left.
    LeftSuper = 67
    #: The hyper key on the left.
    LeftHyper = 68
    #: The meta key on the left.
    LeftMeta = 69
    #: The shift key on the right.
    RightShift = 70
    #: The ctrl key on the right.
    RightCtrl = 71
    #: The alt key on the right.
    RightAlt = 72
    #: The super key on the right.
    RightSuper = 73
    #: The hyper key on the right.
    RightHyper = 74
    #: The meta key on the right.
    RightMeta = 75
    #: AltGr (ISO level 3 shift).
    IsoLevel3Shift = 76
    #: ISO level 5 shift.
    IsoLevel5Shift = 77
    #: Tab on the keypad.
    KeypadTab = 78
    #: The space bar on the keypad.
    KeypadSpace = 79
    #: No key: text that comes without one, as of an input method (kitty).
    Text = 80
