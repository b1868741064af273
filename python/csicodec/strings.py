"""What control strings say: titles, links, the clipboard, colours, folders, marks of shells."""
from __future__ import annotations

from typing import List, Optional

from . import library
from .enums import OscKind
from .event import ControlString, Event
from .library import Data, bytes_of
from .values import Value


class Osc(Value):
    """What an OSC says: its command, and the texts behind that, as they stand there; None where there is none. An unknown command has all
    bytes as its first text.
    """

    __slots__ = __match_args__ = ("kind", "first", "second")
    kind: OscKind
    first: Optional[bytes]
    second: Optional[bytes]

    def __init__(self, kind: OscKind, first: Optional[bytes] = None, second: Optional[bytes] = None) -> None:
        self._set_member("kind", kind, OscKind)
        self._set_of("first", first, bytes, type(None))
        self._set_of("second", second, bytes, type(None))

    @property
    def fields(self) -> List[bytes]:
        """The fields of the first text."""
        return [] if self.first is None else self.first.split(b";")


def osc(content: Data) -> Osc:
    """What an OSC says, by its content: the bytes between `ESC ]` and what ends it.

    >>> from csicodec import osc
    >>> osc("2;vim")
    Osc(kind=<OscKind.TitleWindow: 18>, first=b'vim', second=None)
    >>> osc("8;id=1;https://a.example/").second
    b'https://a.example/'
    """
    held = bytes_of(content)
    said = library.osc(held, len(held))
    two = said.texts == 2
    first = held[said.first : said.second - 1 if two else len(held)] if said.texts else None
    return Osc._sure(OscKind(said.kind), first, held[said.second :] if two else None)


class OscReader:
    """Joins the pieces of each OSC among events. A content of more than `limit` bytes isn't told.

    >>> from csicodec import OscReader, Parser
    >>> parser, reader = Parser(), OscReader()
    >>> [said for piece in ("\\x1b]2;a ti", "tle\\a") for event in parser.feed(piece) for said in reader.take(event)]
    [Osc(kind=<OscKind.TitleWindow: 18>, first=b'a title', second=None)]
    """

    def __init__(self, limit: int = library.LIMIT) -> None:
        self._limit, self._held, self._fits = library.limit_of(limit), b"", False

    def take(self, event: Event) -> List[Osc]:
        """What the OSC says that is over with this event, if one is."""
        if not isinstance(event, Value):
            raise TypeError(f"an event is required, not {type(event).__name__}")
        if not isinstance(event, ControlString) or event.kind != "OSC":
            self._fits = False
            return []
        if event.first:
            self._held, self._fits = b"", True
        self._fits = self._fits and len(self._held) + len(event.data) <= self._limit
        if self._fits:
            self._held += event.data
        return [osc(self._held)] if event.last and self._fits else []
