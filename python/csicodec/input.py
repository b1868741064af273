"""What a terminal sends to a program: keys, the mouse, answers, pasted text."""
from __future__ import annotations

from enum import IntEnum
from typing import Iterator, List, Union

from . import library
from .encoding import ACTION, PARAM, actions_of
from .enums import EscCode
from .event import STRINGS, ControlString, Esc, Event, Malformed, Text, UnknownEsc
from .library import Data, Room, bytes_of
from .values import Group, Value

_LARGEST_16 = (1 << 16) - 1
# enum csicodec_event_kind and enum csicodec_input_kind.
_TEXT, _ACTIONS, _ESC, _STRING, _OTHER, _CONTROL, _SS3, _LINUX, _RXVT, _MOUSE, _ALT, _ESCAPE, _MODIFIED, _FOCUS = range(1, 15)


class Dialect(IntEnum):
    """How a terminal reports the mouse, where it doesn't by a control sequence."""

    #: The three characters of a report are a byte each.
    Input = 1
    #: They are in UTF-8, as while mode 1005 is set.
    Utf8Input = 2


class InputKey(Value):
    """Any event that only a terminal sends."""


class OfCharacter(InputKey):
    __slots__ = __match_args__ = ("character",)
    character: str

    def __init__(self, character: str) -> None:
        self._set_of("character", character, str)


class Input(InputKey, metaclass=Group):
    """What only a terminal sends. Most keys are control sequences: `known` has their names.

    >>> from csicodec import inputs
    >>> list(inputs(b"\\x1bOP\\x1bx\\x1b[M !\\x22"))
    [Input.Ss3(character='P'), Input.Alt(character='x'), Input.Mouse(button=0, column=1, line=2)]
    """

    class Ss3(OfCharacter):
        """SS3 (`ESC O`) and this character, from ' ' to '~': a key of the keypad, an arrow, or F1 to F4."""

    class Linux(OfCharacter):
        """`ESC [ [` and this character, from ' ' to '~': F1 to F5 of Linux' console are 'A' to 'E'."""

    class Alt(OfCharacter):
        """ESC and this character: a key with alt."""

    class Modified(InputKey):
        """A key with modifiers that xterm sends as `CSI number ; modifiers character`, in another form: `ESC O 5 P` (Konsole), `ESC O 1 ; 5 P`
        (VTE before 0.38), `ESC ESC [ A`, `ESC ESC O A` and `ESC ESC [ 5 ~` (rxvt, iTerm2), the last three with alt. The modifiers are 1 and
        more than the sum of shift (1), alt (2), ctrl (4) and super (8).
        """

        __slots__ = __match_args__ = ("number", "modifiers", "character")
        number: int
        modifiers: int
        character: str

        def __init__(self, number: int, modifiers: int, character: str) -> None:
            self._set_whole("number", number, 0, 99)
            self._set_whole("modifiers", modifiers, 2, 9)
            self._set_of("character", character, str)

    class FocusGained(InputKey):
        """`ESC [ I`: the terminal got the focus, as mode 1004 has it."""

    class Rxvt(InputKey):
        """`ESC [`, this number, of one digit or two, and `$`: a key with shift, of rxvt."""

        __slots__ = __match_args__ = ("number",)
        number: int

        def __init__(self, number: int) -> None:
            self._set_whole("number", number, 0, 99)

    class Mouse(InputKey):
        """`ESC [ M` and three characters. The button has 4 for shift, 8 for alt and 16 for control; it is 3 for a release, 32 more for a
        movement, and 64 for a wheel. Column and line are from 1.
        """

        __slots__ = __match_args__ = ("button", "column", "line")
        button: int
        column: int
        line: int

        def __init__(self, button: int, column: int, line: int) -> None:
            self._set_whole("button", button, 0, _LARGEST_16)
            self._set_whole("column", column, 0, _LARGEST_16)
            self._set_whole("line", line, 0, _LARGEST_16)

    class Escape(InputKey):
        """ESC alone: the key."""


#: An event of what a terminal sends: one of these, or what a stream for a terminal has too.
InputEvent = Union[Event, InputKey]


def _key(kind: int, value: int, held: bytes, dialect: Dialect) -> InputKey:
    """The key or the report that some bytes are."""
    if kind == _RXVT:
        return Input.Rxvt(value)
    if kind == _MOUSE:
        numbers = held[3:].decode("utf-8") if dialect == Dialect.Utf8Input else held[3:].decode("latin-1")
        return Input.Mouse(*[max(0, ord(character) - 32) for character in numbers])
    if kind == _ESCAPE:
        return Input.Escape()
    if kind == _FOCUS:
        return Input.FocusGained()
    if kind == _MODIFIED:
        number, modifiers = (held[3:-1], b"3") if held[1:2] == b"\x1b" else (b"", held[-2:-1])
        return Input.Modified(int(number or b"1"), int(modifiers), chr(value))
    return {_SS3: Input.Ss3, _LINUX: Input.Linux, _ALT: Input.Alt}[kind](chr(value))


class InputParser:
    """Reads what a terminal sends, as it comes. An ESC at the end of the bytes waits, as it may be a key or the first byte of another: if
    nothing follows in time, call `pause`.

    >>> from csicodec import InputParser
    >>> parser = InputParser()
    >>> parser.feed(b"a\\x1b"), parser.pause()
    ([Text(text='a')], [Input.Escape()])
    """

    def __init__(self, dialect: Dialect = Dialect.Input, limit: int = library.LIMIT) -> None:
        self._dialect, self._limit, self._counts = Dialect(dialect), library.limit_of(limit), (32, 32)
        self._begin()

    def _begin(self) -> None:
        self._mode, self._looked, self._rest, self._string = 0, 0, b"", ""

    def feed(self, data: Data) -> List[InputEvent]:
        """The events of the next bytes, or characters, as far as they don't depend on what follows."""
        events: List[InputEvent] = []
        held = self._rest + bytes_of(data)
        begin, at = library.address_of(held), 0
        actions, params = Room(self._counts[0] * ACTION.size), Room(self._counts[1] * PARAM.size)
        while at < len(held):
            given = (self._dialect, self._mode, self._limit, self._looked, begin + at, len(held) - at)
            answer = library.receive(*given, actions.at, actions.size // ACTION.size, params.at, params.size // PARAM.size)
            if answer.status == library.MEMORY:
                raise MemoryError("csicodec: the C library gave no memory")
            if answer.actions * ACTION.size > actions.size or answer.params * PARAM.size > params.size:
                actions, params = Room(answer.actions * ACTION.size), Room(answer.params * PARAM.size)
                continue
            self._mode, self._looked = answer.mode, answer.looked
            if answer.status:
                break
            piece, at = held[at : at + answer.used], at + answer.used
            if answer.kind == _ACTIONS:
                events += actions_of(actions.held, 0, answer.actions, params.held)
            else:
                events.append(self._event(answer, piece))
        self._rest = held[at:]
        return events

    def _event(self, answer: library.Received, piece: bytes) -> InputEvent:
        """The event of some bytes that aren't a control sequence."""
        kind = answer.kind
        if kind == _TEXT:
            return Text(piece.decode("utf-8", "surrogateescape"))
        if kind == _CONTROL:
            return Text(chr(answer.value))
        if kind == _STRING:
            return self._piece(piece)
        if kind == _ESC:
            code = library.esc(piece[1] if len(piece) > 2 else 0, piece[-1])
            return Esc(EscCode(code)) if code else UnknownEsc(piece[1:-1].decode("latin-1"), chr(piece[-1]))
        return Malformed(piece) if kind == _OTHER else _key(kind, answer.value, piece, self._dialect)

    def _piece(self, piece: bytes) -> ControlString:
        """A piece of a control string, without what opens and closes it."""
        first, last = len(piece) > 1 and piece[0] == 0x1B and piece[1] in STRINGS, self._mode == 0
        if first:
            self._string, piece = STRINGS[piece[1]], piece[2:]
        if last:
            piece = piece[:-1] if piece[-1:] == b"\a" else piece[:-2]
        return ControlString(self._string, piece, first, last)

    def pause(self) -> List[InputEvent]:
        """What waits, where nothing more came in time: ESC alone is a key, and so is ESC with one character, and SS3 with a digit. Else it goes on
        waiting."""
        events: List[InputEvent] = []
        answer = library.pause(self._rest, len(self._rest))
        while not answer.status:
            held, self._rest = self._rest[: answer.used], self._rest[answer.used :]
            self._mode, self._looked = 0, 0
            events += [_key(answer.kind, answer.value, held, self._dialect), *self.feed(b"")]
            answer = library.pause(self._rest, len(self._rest))
        return events

    def finish(self) -> List[InputEvent]:
        """What is left at the end, as a key, as text or as malformed."""
        events, left = self.pause(), self._rest
        self._begin()
        if left:
            events.append(Malformed(left) if left[0] == 0x1B else Text(left.decode("utf-8", "surrogateescape")))
        return events

    def __enter__(self) -> InputParser:
        return self

    def __exit__(self, *_: object) -> None:
        self._begin()


def inputs(data: Data, dialect: Dialect = Dialect.Input) -> Iterator[InputEvent]:
    """The events of all that a terminal sent. An ESC at the end is a key.

    >>> from csicodec import inputs
    >>> list(inputs(b"\\x1b[A\\x1b"))
    [Cursor.Up(count=1), Input.Escape()]
    """
    return _inputs(InputParser(dialect), bytes_of(data))


def _inputs(parser: InputParser, held: bytes) -> Iterator[InputEvent]:
    yield from parser.feed(held)
    yield from parser.finish()
