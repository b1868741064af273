"""A stream as spans: which of its bytes are text, and which a control."""
from __future__ import annotations

from enum import IntEnum
from typing import Iterator

from . import library
from .library import Data, bytes_of
from .values import Value


class SpanKind(IntEnum):
    """What a span is."""

    #: Characters, C0 controls other than ESC, and DEL.
    Text = 0
    #: One whole control sequence.
    Csi = 1
    #: One whole escape sequence: ESC, at most one intermediate byte (20 to 2f), and a final byte (30 to 7e).
    Esc = 2
    #: A control string (ECMA-48, 5.6), or as much of it as there is: OSC, DCS, SOS, PM or APC, with its end.
    Str = 3
    #: A malformed control, or as much of it as there is. A terminal may still carry it out.
    Other = 4


_KINDS = tuple(SpanKind)


class Span(Value):
    """Some bytes of a stream, and what they are."""

    __slots__ = __match_args__ = ("kind", "data")
    kind: SpanKind
    data: bytes

    def __init__(self, kind: SpanKind, data: bytes) -> None:
        self._set_member("kind", kind, SpanKind)
        self._set_of("data", data, bytes)


def spans(data: Data) -> Iterator[Span]:
    """The spans of a whole stream: joined they are its bytes. A control sequence of more than 65,536 bytes is `Other`, and so is one with
    a control in it, which `events` carries out.

    >>> from csicodec import spans
    >>> [(span.kind.name, span.data) for span in spans(b"a\\x1b[1mb\\x1b(0")]
    [('Text', b'a'), ('Csi', b'\\x1b[1m'), ('Text', b'b'), ('Esc', b'\\x1b(0')]
    """
    return _spans(bytes_of(data))


def _spans(held: bytes) -> Iterator[Span]:
    begin, mode, at = library.address_of(held), 0, 0
    while at < len(held):
        answer = library.span(mode, library.LIMIT, begin + at, len(held) - at)
        # What is cut off, and nothing follows, is malformed.
        kind, used = (SpanKind.Other, len(held) - at) if answer.status else (_KINDS[answer.kind], answer.used)
        yield Span._sure(kind, held[at : at + used])
        mode, at = answer.mode, at + used
