"""The events of a stream beside actions."""
from __future__ import annotations

from typing import Union

from .enums import EscCode
from .error import FieldError
from .forms import Action
from .values import Value


class Text(Value):
    """Characters, C0 controls other than ESC, and DEL. Bytes that aren't UTF-8 are kept as surrogates: `bytes(text)` has them all."""

    __slots__ = __match_args__ = ("text",)
    text: str

    def __init__(self, text: str) -> None:
        self._set_of("text", text, str)

    def __bytes__(self) -> bytes:
        return self.text.encode("utf-8", "surrogateescape")


class Esc(Value):
    """An escape sequence that has a code."""

    __slots__ = __match_args__ = ("code",)
    code: EscCode

    def __init__(self, code: EscCode) -> None:
        self._set_member("code", code, EscCode)

    def __bytes__(self) -> bytes:
        return b"\x1b" + self.code.to_bytes(2, "big").lstrip(b"\0")


class UnknownEsc(Value):
    """An escape sequence without a code: its intermediate character, or '', and its final one."""

    __slots__ = __match_args__ = ("intermediate", "final")
    intermediate: str
    final: str

    def __init__(self, intermediate: str, final: str) -> None:
        self._set_of("intermediate", intermediate, str)
        self._set_of("final", final, str)

    def __bytes__(self) -> bytes:
        return b"\x1b" + (self.intermediate + self.final).encode("latin-1")


class ControlString(Value):
    """A piece of a control string: what opened it (OSC, DCS, SOS, PM, APC), its data without what opens and closes it, and whether it is
    the first and the last piece. A cancelled string has no last piece.
    """

    __slots__ = __match_args__ = ("kind", "data", "first", "last")
    kind: str
    data: bytes
    first: bool
    last: bool

    def __init__(self, kind: str, data: bytes, first: bool = True, last: bool = True) -> None:
        if kind not in STRINGS.values():
            raise FieldError(f"ControlString: kind must be OSC, DCS, SOS, PM or APC, not {kind!r}")
        self._set("kind", kind)
        self._set_of("data", data, bytes)
        self._set_of("first", first, bool)
        self._set_of("last", last, bool)


class Malformed(Value):
    """A malformed control, or a piece of it."""

    __slots__ = __match_args__ = ("data",)
    data: bytes

    def __init__(self, data: bytes) -> None:
        self._set_of("data", data, bytes)


#: An event: one of these, or an action of a control sequence.
Event = Union[Text, Action, Esc, UnknownEsc, ControlString, Malformed]
#: What each character behind ESC opens.
STRINGS = {ord("]"): "OSC", ord("P"): "DCS", ord("X"): "SOS", ord("^"): "PM", ord("_"): "APC"}
