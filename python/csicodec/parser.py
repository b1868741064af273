"""The events of a terminal's stream, whole or as it comes."""
from __future__ import annotations

import struct
from ctypes import byref
from itertools import chain
from typing import Any, Dict, Iterator, List, Tuple

from . import library
from .encoding import ACTION, PARAM, actions_of
from .enums import EscCode
from .event import STRINGS, ControlString, Esc, Event, Malformed, Text, UnknownEsc
from .library import Data, Room, bytes_of

# The struct csicodec_listed of system/python.c, and where the bytes stand that say which event it is.
_TOLD = struct.Struct("=IIQQIIIIII")
_KEY = struct.Struct("=40xII")
_TEXT, _ACTIONS, _ESC, _STRING = 1, 2, 3, 4
#: How many bytes of a whole stream are passed at a time, and how many events are told by one call.
_CHUNK, _EVENTS = 65536, 1024
#: The events of short texts and sequences are kept by their bytes, at most so many: streams repeat few of them.
_KEPT, _SHORT = 8192, 128
_Found = List[Tuple[Event, ...]]
#: The second ones are those of parsers that read as terminals do, which the field as_terminals of a stream says: the word with this number.
_kept: Tuple[Dict[bytes, Tuple[Event, ...]], Dict[bytes, Tuple[Event, ...]]] = ({}, {})
_AS_TERMINALS = 4
_codes: Dict[int, Esc] = {int(code): Esc(code) for code in EscCode}


class _Room:
    """Room for what one call tells: events, and the actions and tokens of those that are control sequences."""

    __slots__ = ("told", "actions", "params", "telling", "pointer")

    def __init__(self, actions: int = 1024, params: int = 512) -> None:
        self.told, self.actions, self.params = Room(_EVENTS * _TOLD.size), Room(actions * ACTION.size), Room(params * PARAM.size)
        self.telling = library.Telling(
            told=self.told.at,
            told_room=_EVENTS,
            actions=self.actions.at,
            actions_room=actions,
            params=self.params.at,
            params_room=params,
        )
        self.pointer = byref(self.telling)

    def read(self, stream: library.Stream, held: bytes, found: _Found) -> Tuple[library.Stream, bytes]:
        """Appends what is found of some bytes; answers the stream behind them, and the bytes that wait, or that there is no room for."""
        telling = self.telling
        telling.stream = stream
        while held:
            telling.bytes, telling.len = held, len(held)
            library.tell(self.pointer)
            found += self._told(held, telling.count)
            held = held[telling.used :]
            if telling.count < _EVENTS:
                break
        return library.Stream.from_buffer_copy(telling.stream), held

    def _told(self, held: bytes, count: int) -> _Found:
        """The events that were told of these bytes: those that are kept, and those that are made anew."""
        kept = _kept[self.telling.stream.words[_AS_TERMINALS]]
        keys = _KEY.iter_unpack(memoryview(self.told.held)[: count * _TOLD.size])
        found: List[Any] = list(map(kept.get, [held[begin:end] for begin, end in keys]))
        number = -1
        for _ in range(found.count(None)):
            number = found.index(None, number + 1)
            found[number] = self._made(number, held, kept)
        return found

    def _made(self, number: int, held: bytes, kept: Dict[bytes, Tuple[Event, ...]]) -> Tuple[Event, ...]:
        """The event with this number, or the actions, which are kept if their bytes are few."""
        kind, code, at, length, first, count, begins, ends, _, _ = _TOLD.unpack_from(self.told.held, number * _TOLD.size)
        piece = held[at : at + length]
        made: Tuple[Event, ...]
        if kind == _TEXT:
            made = (Text._sure(piece.decode("utf-8", "surrogateescape")),)
        elif kind == _ACTIONS:
            made = tuple(actions_of(self.actions.held, first, count, self.params.held))
        elif kind == _ESC:
            made = (_codes.get(code) or UnknownEsc(chr(first) if first else "", chr(count)),)
        elif kind == _STRING:
            return (ControlString._sure(STRINGS[first], piece, begins == 1, ends == 1),)
        else:
            return (Malformed(piece),)
        if 0 < length <= _SHORT:
            if len(kept) >= _KEPT:
                kept.clear()
            kept[piece] = made
        return made


#: Room that no call uses just now.
_rooms: List[_Room] = []


def _read(stream: library.Stream, held: bytes, found: _Found) -> Tuple[library.Stream, bytes]:
    """Appends what is found of some bytes; answers the stream behind them, and the bytes that wait."""
    room = own = _rooms.pop() if _rooms else _Room()
    stream, held = room.read(stream, held, found)
    while room.telling.actions_needed or room.telling.params_needed:
        room = _Room(max(1024, room.telling.actions_needed), max(512, room.telling.params_needed))
        stream, held = room.read(stream, held, found)
    _rooms.append(own)
    return stream, held


class Parser:
    """Reads a stream as it comes.

    >>> from csicodec import Cursor, Parser, Text
    >>> parser = Parser()
    >>> parser.feed(b"one\\x1b[5")
    [Text(text='one')]
    >>> parser.feed(b";7H")
    [Cursor.Position(line=5, col=7)]

    What waits for more bytes is kept: fewer than `limit` bytes of a control sequence, or 3 of a character. A longer control sequence is
    `Malformed`. `finish` gives what is left at the end; behind it, and behind a `with`, the parser can begin anew.

    With `as_terminals` actions are those that terminals take a sequence for. They are others only where some of its parameters aren't read:
    an unknown attribute is an action of its own, and the next one goes on; one that is left out is the default.

    >>> Parser(as_terminals=True).feed(b"\\x1b[;B")
    [Cursor.Down(count=1)]
    """

    def __init__(self, limit: int = library.LIMIT, as_terminals: bool = False) -> None:
        self._limit, self._as_terminals = library.limit_of(limit), library.is_on("as_terminals", as_terminals)
        self._begin()

    def _begin(self) -> None:
        self._stream, self._rest = library.Stream(), b""
        library.begin(byref(self._stream), self._limit)
        self._stream.words[_AS_TERMINALS] = self._as_terminals

    def feed(self, data: Data) -> List[Event]:
        """The events of the next bytes, or characters, as far as they don't depend on what follows."""
        return list(chain.from_iterable(self._found(bytes_of(data))))

    def _found(self, given: bytes) -> _Found:
        """The same, as tuples: the actions of each sequence, and each other event."""
        found: _Found = []
        for at in range(0, len(given), _CHUNK):
            self._stream, self._rest = _read(self._stream, self._rest + given[at : at + _CHUNK], found)
        return found

    def finish(self) -> List[Event]:
        """What is left at the end of the stream: the beginning of a control, or of a character."""
        left = self._rest
        self._begin()
        if not left:
            return []
        return [Malformed(left)] if left[0] == 0x1B else [Text(left.decode("utf-8", "surrogateescape"))]

    def __enter__(self) -> Parser:
        return self

    def __exit__(self, *_: object) -> None:
        self._begin()


def events(data: Data, as_terminals: bool = False) -> Iterator[Event]:
    """The events of a whole stream; `as_terminals` is that of a `Parser`.

    >>> from csicodec import Sgr, Text, events
    >>> for event in events("\\x1b[1mbold"):
    ...     print(event)
    Sgr.Intensity(value=<Intensity.Bold: 1>)
    Text(text='bold')

    With `match` (Python 3.10): `case Cursor.Position(line, col): ..`
    """
    return chain.from_iterable(chain.from_iterable(_pieces(Parser(as_terminals=as_terminals), bytes_of(data))))


def _pieces(parser: Parser, held: bytes) -> Iterator[_Found]:
    for at in range(0, len(held), _CHUNK):
        yield parser._found(held[at : at + _CHUNK])
    yield [tuple(parser.finish())]
