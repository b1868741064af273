"""Control sequences of terminals as typed actions, and untrusted text made safe, over a proved library.

>>> import csicodec
>>> csicodec.strip("a\\x1b]0;title\\x07b")
'ab'
>>> [action for action in csicodec.events(b"\\x1b[5;7H")]
[Cursor.Position(line=5, col=7)]
"""
TYPE_CHECKING = False
if TYPE_CHECKING:
    from .actions import *  # noqa: F403
    from .encoding import encode, encode_compact, is_canonical
    from .enums import *  # noqa: F403
    from .error import CodecError, FieldError
    from .event import ControlString, Esc, Event, Malformed, Text, UnknownEsc
    from .forms import Action
    from .input import Dialect, Input, InputEvent, InputKey, InputParser, inputs
    from .key import Key, KeyEncoding, KeyEvent, KeyParser, keys
    from .known_kinds import KnownKind
    from .library import Data
    from .lines import HtmlWriter, Overwriter
    from .parser import Parser, events
    from .program import explain
    from .sequences import Known, known
    from .span import Span, SpanKind, spans
    from .strings import Osc, OscReader, osc
    from .text import Cleaner, Filter, Stripper, clean, compact, filter, html, normalise, overwrite, strip
    from .values import Color, DefaultColor, KeyModifiers, KittyKeyboardFlags, Modifiers, PaletteColor, Token, TrueColor

__version__ = "1.27.0"
# fmt: off
__all__ = [
    "Action", "Blink", "CharacterPath", "Cleaner", "CodecError", "Color", "ControlString", "Cursor", "CursorAction", "CursorStyle",
    "CursorTabulationControl", "Data", "DecPrivateModeCode", "DefaultColor", "Device", "DeviceAction", "DeviceAttributeCodes",
    "Dialect", "Edit", "EditAction", "EraseInDisplay", "EraseInLine", "Esc", "EscCode", "Event", "FieldError", "Filter", "HtmlWriter", "Input",
    "InputEvent", "InputKey", "InputParser", "Intensity", "Key", "KeyCode", "KeyEncoding", "KeyEvent", "KeyModifiers", "KeyParser",
    "Keyboard", "KeyboardAction", "KittyKeyboardFlags", "KittyKeyboardMode", "Known", "KnownKind", "Malformed", "Mode",
    "ModeAction", "Modifiers", "MouseButton", "MouseReport", "MouseReportAction", "Osc", "OscKind", "OscReader", "Overwriter", "PaletteColor",
    "Parser", "SelectCharacterPath", "Sgr", "SgrAction", "Span", "SpanKind", "Stripper", "TabulationClear", "TerminalModeCode", "Text", "Token",
    "TrueColor", "Underline", "UnknownEsc", "Unspecified", "VerticalAlign", "Window", "WindowAction", "XtSmGraphicsAction",
    "XtSmGraphicsItem", "XtSmGraphicsStatus", "XtermKeyModifierResource", "clean", "compact", "encode", "encode_compact", "events",
    "explain", "filter", "html", "inputs", "is_canonical", "keys", "known", "normalise", "osc", "overwrite", "spans", "strip",
]
# fmt: on
#: The modules that have these names, those first that are loaded soonest. A name is loaded when it is first asked for, so that a program
#: which strips doesn't load the actions.
_MODULES = ("text", "error", "program", "values", "enums", "forms", "actions", "encoding", "event", "parser", "known_kinds", "sequences", "span", "input", "key", "strings", "lines")


def __getattr__(name: str) -> object:
    if name in __all__:
        from importlib import import_module

        for module in _MODULES:
            found = vars(import_module(f"{__name__}.{module}"))
            if name in found:
                return globals().setdefault(name, found[name])
    raise AttributeError(f"module {__name__!r} has no attribute {name!r}")


def __dir__() -> "list[str]":
    return sorted({*globals(), *__all__})
