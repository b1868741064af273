"""The actions, under the names of the library and with its documentation. Written by tools/table."""
from __future__ import annotations

from . import enums
from .forms import (
    Action,
    OfArea,
    OfAttributes,
    OfCellReport,
    OfColor,
    OfCount,
    OfDecPrivateMode,
    OfFlag,
    OfFont,
    OfGraphics,
    OfKittyFlags,
    OfKittyState,
    OfLeftAndRight,
    OfLineAndCol,
    OfMember,
    OfNumber,
    OfPath,
    OfPixelReport,
    OfPlace,
    OfResource,
    OfSize,
    OfTerminalMode,
    OfTopAndBottom,
    OfXAndY,
    Unspecified,
)
from .values import Group

__all__ = [
    "Cursor",
    "CursorAction",
    "Device",
    "DeviceAction",
    "Edit",
    "EditAction",
    "Keyboard",
    "KeyboardAction",
    "Mode",
    "ModeAction",
    "MouseReport",
    "MouseReportAction",
    "SelectCharacterPath",
    "Sgr",
    "SgrAction",
    "Unspecified",
    "Window",
    "WindowAction",
]


class SgrAction(Action):
    """Any action of Sgr."""


class Sgr(SgrAction, metaclass=Group):
    """An attribute of text: what one parameter of `CSI .. m` sets (SGR, "select graphic rendition"; ECMA-48, 8.3.117). It holds for
    the characters that follow, until it is set anew.

    >>> list(events("\\x1b[1;31m"))
    [Sgr.Intensity(value=<Intensity.Bold: 1>), Sgr.Foreground(color=PaletteColor(index=1))]
    """

    class Reset(SgrAction, kind=1):
        """All attributes back to the default rendition."""

    class Intensity(OfMember[enums.Intensity], SgrAction, kind=2, members=enums.Intensity):
        """How strong the strokes are."""

    class Underline(OfMember[enums.Underline], SgrAction, kind=3, members=enums.Underline):
        """The line below."""

    class UnderlineColor(OfColor, SgrAction, kind=4):
        """The colour of that line (kitty, VTE); the default is the colour of the character."""

    class Blink(OfMember[enums.Blink], SgrAction, kind=5, members=enums.Blink):
        """Whether it blinks."""

    class Italic(OfFlag, SgrAction, kind=6):
        """Italicized or not."""

    class Inverse(OfFlag, SgrAction, kind=7):
        """Negative or positive image: whether the colours of character and ground change places."""

    class Invisible(OfFlag, SgrAction, kind=8):
        """Concealed or revealed."""

    class StrikeThrough(OfFlag, SgrAction, kind=9):
        """Crossed out or not."""

    class Font(OfFont, SgrAction, kind=10):
        """The font."""

    class Foreground(OfColor, SgrAction, kind=11):
        """The colour of the character."""

    class Background(OfColor, SgrAction, kind=12):
        """The colour of the ground behind it."""

    class Overline(OfFlag, SgrAction, kind=13):
        """A line above, or none."""

    class VerticalAlign(OfMember[enums.VerticalAlign], SgrAction, kind=14, members=enums.VerticalAlign):
        """Raised, lowered or on the line (mintty)."""


class CursorAction(Action):
    """Any action of Cursor."""


class Cursor(CursorAction, metaclass=Group):
    """What a sequence does with the cursor, with tab stops or with margins. The unit is the cell of one character. Counts are 1 or
    more where they were read; a terminal takes 0 for 1, and so `Up(0)` is written `0A` and read back as `Up(1)`. Lines and
    columns are counted from 1, at the top and at the left.

    >>> list(events("\\x1b[2A\\x1b[5;7H"))
    [Cursor.Up(count=2), Cursor.Position(line=5, col=7)]
    """

    class Up(OfCount, CursorAction, kind=101):
        """CUU (ECMA-48, 8.3.22): this many lines up."""

    class Down(OfCount, CursorAction, kind=102):
        """CUD (ECMA-48, 8.3.19): this many lines down."""

    class Right(OfCount, CursorAction, kind=103):
        """CUF (ECMA-48, 8.3.20): this many columns to the right."""

    class Left(OfCount, CursorAction, kind=104):
        """CUB (ECMA-48, 8.3.18): this many columns to the left."""

    class NextLine(OfCount, CursorAction, kind=105):
        """CNL (ECMA-48, 8.3.12): to the start of the line this many lines down."""

    class PrecedingLine(OfCount, CursorAction, kind=106):
        """CPL (ECMA-48, 8.3.13): to the start of the line this many lines up."""

    class CharacterAbsolute(OfPlace, CursorAction, kind=107):
        """CHA (ECMA-48, 8.3.9): to this column."""

    class CharacterPositionAbsolute(OfPlace, CursorAction, kind=108):
        """HPA (ECMA-48, 8.3.57): to this column of the data."""

    class Position(OfLineAndCol, CursorAction, kind=109):
        """CUP (ECMA-48, 8.3.21): to this line and column."""

    class ActivePositionReport(OfLineAndCol, CursorAction, kind=110):
        """CPR (ECMA-48, 8.3.14): the terminal's answer, where the cursor is."""

    class CharacterAndLinePosition(OfLineAndCol, CursorAction, kind=111):
        """HVP (ECMA-48, 8.3.63): to this line and column of the data."""

    class ForwardTabulation(OfCount, CursorAction, kind=112):
        """CHT (ECMA-48, 8.3.10): on to this many character tab stops."""

    class BackwardTabulation(OfCount, CursorAction, kind=113):
        """CBT (ECMA-48, 8.3.7): back to this many character tab stops."""

    class LineTabulation(OfCount, CursorAction, kind=114):
        """CVT (ECMA-48, 8.3.23): down to this many line tab stops."""

    class CharacterPositionForward(OfCount, CursorAction, kind=115):
        """HPR (ECMA-48, 8.3.59): this many columns on in the data."""

    class CharacterPositionBackward(OfCount, CursorAction, kind=116):
        """HPB (ECMA-48, 8.3.58): this many columns back in the data."""

    class LinePositionAbsolute(OfCount, CursorAction, kind=117):
        """VPA (ECMA-48, 8.3.158): to this line of the data, in the same column. As termwiz has it, a count."""

    class LinePositionForward(OfCount, CursorAction, kind=118):
        """VPR (ECMA-48, 8.3.160): this many lines on in the data."""

    class LinePositionBackward(OfCount, CursorAction, kind=119):
        """VPB (ECMA-48, 8.3.159): this many lines back in the data."""

    class TabulationControl(OfMember[enums.CursorTabulationControl], CursorAction, kind=120, members=enums.CursorTabulationControl):
        """CTC (ECMA-48, 8.3.17): sets or clears tab stops."""

    class TabulationClear(OfMember[enums.TabulationClear], CursorAction, kind=121, members=enums.TabulationClear):
        """TBC (ECMA-48, 8.3.154): clears tab stops."""

    class SetTopAndBottomMargins(OfTopAndBottom, CursorAction, kind=122):
        """DECSTBM (DEC VT100): the first and the last line that scroll. A bottom of 4294967295 is the page's last line."""

    class SetLeftAndRightMargins(OfLeftAndRight, CursorAction, kind=123):
        """DECSLRM (DEC VT420): the first and the last column that scroll. A right of 4294967295 is the page's last column. The
        margins from 1 to 4294967295 have no text of their own: theirs is that of `SaveCursor`.
        """

    class SaveCursor(CursorAction, kind=124):
        """SCOSC (SCO console, ANSI.SYS): keeps the cursor's position."""

    class RestoreCursor(CursorAction, kind=125):
        """SCORC (SCO console, ANSI.SYS): goes back to the position that was kept."""

    class RequestActivePositionReport(CursorAction, kind=126):
        """DSR 6 (ECMA-48, 8.3.35): asks where the cursor is, for an `ActivePositionReport`."""

    class CursorStyle(OfMember[enums.CursorStyle], CursorAction, kind=127, members=enums.CursorStyle):
        """DECSCUSR (DEC VT520): how the cursor looks."""


class EditAction(Action):
    """Any action of Edit."""


class Edit(EditAction, metaclass=Group):
    """What a sequence does with the characters of the page. The unit is the cell of one character. Counts are 1 or more where they
    were read; a terminal takes 0 for 1, and so `Repeat(0)` is written `0b` and read back as `Repeat(1)`.

    >>> list(events("\\x1b[K"))
    [Edit.EraseInLine(value=<EraseInLine.EraseToEndOfLine: 0>)]
    """

    class InsertCharacter(OfCount, EditAction, kind=201):
        """ICH (ECMA-48, 8.3.64): this many blanks at the cursor, and what stood there moves to the right."""

    class InsertLine(OfCount, EditAction, kind=202):
        """IL (ECMA-48, 8.3.67): this many blank lines at the cursor's line, which moves down."""

    class DeleteCharacter(OfCount, EditAction, kind=203):
        """DCH (ECMA-48, 8.3.26): takes out this many characters from the cursor on, and what is behind them moves to the left."""

    class DeleteLine(OfCount, EditAction, kind=204):
        """DL (ECMA-48, 8.3.32): takes out this many lines from the cursor's line on, and what is below moves up."""

    class EraseCharacter(OfCount, EditAction, kind=205):
        """ECH (ECMA-48, 8.3.38): blanks this many characters from the cursor on."""

    class ScrollUp(OfCount, EditAction, kind=206):
        """SU (ECMA-48, 8.3.147): moves what is shown up by this many lines."""

    class ScrollDown(OfCount, EditAction, kind=207):
        """SD (ECMA-48, 8.3.113): moves what is shown down by this many lines."""

    class Repeat(OfCount, EditAction, kind=208):
        """REP (ECMA-48, 8.3.103): the character before this sequence, this many times more."""

    class EraseInDisplay(OfMember[enums.EraseInDisplay], EditAction, kind=209, members=enums.EraseInDisplay):
        """ED (ECMA-48, 8.3.39): blanks a part of the page."""

    class EraseInLine(OfMember[enums.EraseInLine], EditAction, kind=210, members=enums.EraseInLine):
        """EL (ECMA-48, 8.3.41): blanks a part of the cursor's line."""


class ModeAction(Action):
    """Any action of Mode."""


class Mode(ModeAction, metaclass=Group):
    """What a sequence does with one mode of the terminal, and what xterm sends for a key with modifiers.

    >>> list(events("\\x1b[?25l"))
    [Mode.ResetDecPrivateMode(mode=<DecPrivateModeCode.ShowCursor: 25>)]
    """

    class SetDecPrivateMode(OfDecPrivateMode, ModeAction, kind=301):
        """DECSET (xterm's name; SM in DEC VT510): the private mode is set."""

    class ResetDecPrivateMode(OfDecPrivateMode, ModeAction, kind=302):
        """DECRST (xterm's name; RM in DEC VT510): the private mode is reset."""

    class SaveDecPrivateMode(OfDecPrivateMode, ModeAction, kind=303):
        """XTSAVE (xterm): whether the private mode is set is kept aside."""

    class RestoreDecPrivateMode(OfDecPrivateMode, ModeAction, kind=304):
        """XTRESTORE (xterm): the private mode becomes what was kept aside."""

    class QueryDecPrivateMode(OfDecPrivateMode, ModeAction, kind=305):
        """DECRQM (DEC VT300 and up): asks whether the private mode is set."""

    class SetMode(OfTerminalMode, ModeAction, kind=306):
        """SM (ECMA-48, 8.3.125): the mode is set."""

    class ResetMode(OfTerminalMode, ModeAction, kind=307):
        """RM (ECMA-48, 8.3.106): the mode is reset."""

    class QueryMode(OfTerminalMode, ModeAction, kind=308):
        """DECRQM (DEC VT300 and up): asks whether the mode is set."""

    class XtermKeyMode(OfResource, ModeAction, kind=309):
        """XTMODKEYS (xterm): how modifiers are told with these keys."""


class DeviceAction(Action):
    """Any action of Device."""


class Device(DeviceAction, metaclass=Group):
    """Requests to a terminal, and its answers.

    >>> list(events("\\x1b[c\\x1b[?62;4c"))
    [Device.RequestPrimaryDeviceAttributes(), Device.Vt220(attributes=(<DeviceAttributeCodes.SixelGraphics: 4>,))]
    """

    class Vt100WithAdvancedVideoOption(DeviceAction, kind=401):
        """`? 1 ; 2`: a VT100 with the advanced video option."""

    class Vt101WithNoOptions(DeviceAction, kind=402):
        """`? 1 ; 0`: a VT101 without options."""

    class Vt102(DeviceAction, kind=403):
        """`? 6`: a VT102."""

    class Vt220(OfAttributes, DeviceAction, kind=404):
        """`? 62` and extensions: the service class of the VT220."""

    class Vt320(OfAttributes, DeviceAction, kind=405):
        """`? 63` and extensions: the service class of the VT320."""

    class Vt420(OfAttributes, DeviceAction, kind=406):
        """`? 64` and extensions: the service class of the VT420."""

    class SoftReset(DeviceAction, kind=407):
        """DECSTR (DEC VT220): modes, margins, attributes and character sets are as at first; what is shown stays."""

    class RequestPrimaryDeviceAttributes(DeviceAction, kind=408):
        """DA (ECMA-48, 8.3.24): what the terminal is."""

    class RequestSecondaryDeviceAttributes(DeviceAction, kind=409):
        """DA2 (DEC VT220): its type, the version of its firmware, and its options."""

    class RequestTertiaryDeviceAttributes(DeviceAction, kind=410):
        """DA3 (DEC VT420): its unit."""

    class RequestTerminalNameAndVersion(DeviceAction, kind=411):
        """XTVERSION (xterm): its name and version."""

    class RequestTerminalParameters(OfNumber, DeviceAction, kind=412):
        """DECREQTPARM (DEC VT100): asks for the parameters of the serial line. With 0 the terminal may also report unasked, with 1
        only when asked. It is written as the report, DECREPTPARM, whose first number is this one and 2: no parity, 8 bits, 128
        for sending and receiving (38400 baud in xterm; DEC's table ends at 120), 1 for a clock multiplier of 16, and no switches.
        So it isn't read back.
        """

    class StatusReport(DeviceAction, kind=413):
        """DSR 5 (ECMA-48, 8.3.35): its state."""

    class XtSmGraphics(OfGraphics, DeviceAction, kind=414):
        """XTSMGRAPHICS (xterm's ctlseqs): what it can draw, asked or answered."""


class MouseReportAction(Action):
    """Any action of MouseReport."""


class MouseReport(MouseReportAction, metaclass=Group):
    """A report (xterm's ctlseqs, modes 1006 and 1016): the place, the button and what is held.

    >>> list(events("\\x1b[<0;5;6M"))
    [MouseReport.SGR1006(x=5, y=6, button=<MouseButton.Button1Press: 1>, modifiers=<Modifiers.NONE: 0>)]
    """

    class SGR1006(OfCellReport, MouseReportAction, kind=501):
        """In cells."""

    class SGR1016(OfPixelReport, MouseReportAction, kind=502):
        """In pixels. It is written as a report in cells is, and so is never read: which of the two modes the terminal is in stands
        in no report.
        """


class WindowAction(Action):
    """Any action of Window."""


class Window(WindowAction, metaclass=Group):
    """What is done to the window of a terminal, asked of it and answered: XTWINOPS (xterm's ctlseqs, "Window manipulation"; the
    operations 1 to 8, 11, 13, 14, 18, 20 and 21 and their numbers come from dtterm), and DECRQCRA (DEC VT420).

    Sizes and places are of 64 bits and take any sign where a value is built by hand; what is read from a sequence is 0 or more,
    and one below 0 isn't read back. An absent number is one that the sequence leaves out: the terminal then keeps that size as it
    is (xterm).

    >>> list(events("\\x1b[8;24;80t"))
    [Window.ResizeWindowCells(width=80, height=24)]
    """

    class DeIconify(WindowAction, kind=601):
        """1: the window is opened again, if it was an icon."""

    class Iconify(WindowAction, kind=602):
        """2: it becomes an icon."""

    class MoveWindow(OfXAndY, WindowAction, kind=603):
        """3: it is moved; a place that a sequence leaves out is 0."""

    class ResizeWindowPixels(OfSize, WindowAction, kind=604):
        """4: the window gets this size, in pixels; 0 is that of the display (xterm)."""

    class RaiseWindow(WindowAction, kind=605):
        """5: it is put in front of the others."""

    class LowerWindow(WindowAction, kind=606):
        """6, alone: it is put behind the others."""

    class ReportCellSizePixelsResponse(OfSize, WindowAction, kind=607):
        """6, with a size: the answer to `ReportCellSizePixels`."""

    class RefreshWindow(WindowAction, kind=608):
        """7: it is drawn again."""

    class ResizeWindowCells(OfSize, WindowAction, kind=609):
        """8: the text area gets this size, in cells; 0 is that of the display (xterm)."""

    class RestoreMaximizedWindow(WindowAction, kind=610):
        """9 and 0: a window that was maximized gets its size back."""

    class MaximizeWindow(WindowAction, kind=611):
        """9 and 1: it becomes as large as the screen."""

    class MaximizeWindowVertically(WindowAction, kind=612):
        """9 and 2: it becomes as high as the screen."""

    class MaximizeWindowHorizontally(WindowAction, kind=613):
        """9 and 3: it becomes as wide as the screen."""

    class UndoFullScreenMode(WindowAction, kind=614):
        """10 and 0: full screen ends."""

    class ChangeToFullScreenMode(WindowAction, kind=615):
        """10 and 1: full screen begins."""

    class ToggleFullScreen(WindowAction, kind=616):
        """10 and 2: full screen begins or ends."""

    class ReportWindowState(WindowAction, kind=617):
        """11: asks whether the window is open or an icon; the answer is `CSI 1 t` or `CSI 2 t`, which are read back as `DeIconify`
        and `Iconify`.
        """

    class ReportWindowPosition(WindowAction, kind=618):
        """13: asks for the window's place; the answer is `CSI 3 ; x ; y t`, in pixels, which is read back as `MoveWindow`."""

    class ReportTextAreaPosition(WindowAction, kind=619):
        """13 and 2: asks for the place of the text area; the answer is the same."""

    class ReportTextAreaSizePixels(WindowAction, kind=620):
        """14: asks for the size of the text area; the answer is `CSI 4 ; height ; width t`, in pixels, which is read back as
        `ResizeWindowPixels`.
        """

    class ReportWindowSizePixels(WindowAction, kind=621):
        """14 and 2: asks for the size of the window; the answer is the same."""

    class ReportScreenSizePixels(WindowAction, kind=622):
        """15: asks for the size of the screen; the answer is `CSI 5 ; height ; width t`, in pixels, which is read back as
        `RaiseWindow`.
        """

    class ReportCellSizePixels(WindowAction, kind=623):
        """16: asks for the size of a cell; the answer is `ReportCellSizePixelsResponse`."""

    class ReportTextAreaSizeCells(WindowAction, kind=624):
        """18: asks for the size of the text area; the answer is `CSI 8 ; lines ; columns t`, which is read back as
        `ResizeWindowCells`.
        """

    class ReportScreenSizeCells(WindowAction, kind=625):
        """19: asks for the size of the screen in cells; the answer is `CSI 9 ; lines ; columns t`, which is unknown but where the
        lines are 0 to 3.
        """

    class ReportIconLabel(WindowAction, kind=626):
        """20: asks for the icon's label; the answer is `OSC L label ST`."""

    class ReportWindowTitle(WindowAction, kind=627):
        """21: asks for the window's title; the answer is `OSC l title ST`."""

    class PushIconAndWindowTitle(WindowAction, kind=628):
        """22 and 0: the icon's label and the window's title are put onto a stack."""

    class PushIconTitle(WindowAction, kind=629):
        """22 and 1: the icon's label is."""

    class PushWindowTitle(WindowAction, kind=630):
        """22 and 2: the window's title is."""

    class PopIconAndWindowTitle(WindowAction, kind=631):
        """23 and 0: the icon's label and the window's title are taken off the stack."""

    class PopIconTitle(WindowAction, kind=632):
        """23 and 1: the icon's label is."""

    class PopWindowTitle(WindowAction, kind=633):
        """23 and 2: the window's title is."""

    class ChecksumRectangularArea(OfArea, WindowAction, kind=634):
        """DECRQCRA (DEC VT420): asks for the checksum of the characters in an area of a page, in cells; the answer is `DCS
        request_id ! ~ checksum ST`. A side that a sequence leaves out, or that is 0, is 1.
        """


class KeyboardAction(Action):
    """Any action of Keyboard."""


class Keyboard(KeyboardAction, metaclass=Group):
    """What the keyboard reports, set and asked for: kitty's keyboard protocol.

    >>> list(events("\\x1b[<2u"))
    [Keyboard.PopKittyState(count=2)]
    """

    class SetKittyState(OfKittyState, KeyboardAction, kind=701):
        """The flags change in this way."""

    class PushKittyState(OfKittyState, KeyboardAction, kind=702):
        """They are put onto a stack, and changed."""

    class PopKittyState(OfCount, KeyboardAction, kind=703):
        """This many are taken off the stack."""

    class QueryKittySupport(KeyboardAction, kind=704):
        """Asks for the flags."""

    class ReportKittyState(OfKittyFlags, KeyboardAction, kind=705):
        """The answer."""


class SelectCharacterPath(OfPath, kind=801):
    """SCP (ECMA-48, 8.3.111): the path of characters, and what becomes of those that are shown."""
