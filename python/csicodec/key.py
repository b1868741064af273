"""Keys as one type, in each encoding of KeyEncoding."""
from __future__ import annotations

from ctypes import c_uint32
from enum import IntEnum
from typing import Iterator, List, Union

from . import library
from .enums import KeyCode
from .library import Data, bytes_of
from .span import SpanKind
from .values import KeyModifiers, Value

#: How many characters a key types at most.
_MOST = 32
#: The status where what stands there is no key, and where it depends on what follows.
_NO_ACTION, _TRUNCATED = 6, 4


class KeyEvent(IntEnum):
    """What happens to a key."""

    #: It goes down. All encodings but kitty's and Win32's know only this.
    Press = 0
    #: It is held down.
    Repeat = 1
    #: It goes up.
    Release = 2


class KeyEncoding(IntEnum):
    """How a terminal said which key it is."""

    #: Characters, controls, ESC ahead for alt, SS3 and xterm's control sequences with modifiers.
    Legacy = 0
    #: xterm's resource modifyOtherKeys.
    ModifyOtherKeys = 1
    #: kitty's protocol.
    Kitty = 2
    #: Win32-input-mode, of Windows' console.
    Win32 = 3
    #: What rxvt has of its own.
    Rxvt = 4
    #: What Linux' console has of its own.
    Linux = 5


class Key(Value):
    """A key that was pressed, repeated or released. `value` is the character of `KeyCode.Char` and the number of `KeyCode.F`, both as text,
    and '' of other keys; `text` is what the key types, where the encoding says that.
    """

    __slots__ = __match_args__ = ("code", "value", "modifiers", "event", "encoding", "text")
    code: KeyCode
    value: str
    modifiers: KeyModifiers
    event: KeyEvent
    encoding: KeyEncoding
    text: str

    def __init__(
        self,
        code: KeyCode,
        value: str = "",
        modifiers: KeyModifiers = KeyModifiers.NONE,
        event: KeyEvent = KeyEvent.Press,
        encoding: KeyEncoding = KeyEncoding.Legacy,
        text: str = "",
    ) -> None:
        self._set_member("code", code, KeyCode)
        self._set_of("value", value, str)
        self._set_member("modifiers", modifiers, KeyModifiers)
        self._set_member("event", event, KeyEvent)
        self._set_member("encoding", encoding, KeyEncoding)
        self._set_of("text", text, str)


def _key_of(given: library.Key, typed: List[int]) -> Key:
    code = KeyCode(given.code)
    value = chr(given.value) if code == KeyCode.Char else str(given.value) if code == KeyCode.F else ""
    text = "".join(map(chr, typed[: given.typed]))
    return Key._sure(code, value, KeyModifiers(given.modifiers), KeyEvent(given.event), KeyEncoding(given.encoding), text)


class KeyParser:
    """Reads the keys of what a terminal sends, as it comes; what isn't read as a key, as most answers, comes as its bytes. An ESC
    at the end waits, as it may be the first byte of another key: if nothing follows in time, call `pause`.

    >>> from csicodec import KeyParser
    >>> parser = KeyParser()
    >>> [key.code.name for key in parser.feed(b"\\x1b[A\\x1b") + parser.pause()]
    ['Up', 'Escape']
    """

    def __init__(self) -> None:
        self._rest, self._mode = b"", 0

    def feed(self, data: Data) -> List[Union[Key, bytes]]:
        """The keys of the next bytes, or characters, as far as they don't depend on what follows."""
        self._rest += bytes_of(data)
        return self._read(True)

    def pause(self) -> List[Union[Key, bytes]]:
        """What waits, where nothing more came in time: ESC alone is a key, and so is ESC with one character. Else it goes on waiting."""
        return self._read(False)

    def finish(self) -> List[Union[Key, bytes]]:
        """What is left at the end: keys, and bytes that are none."""
        found = self._read(False)
        left, self._rest, self._mode = self._rest, b"", 0
        return [*found, left] if left else found

    def __enter__(self) -> KeyParser:
        return self

    def __exit__(self, *_: object) -> None:
        self._rest, self._mode = b"", 0

    def _string(self, begin: int, size: int) -> int:
        """How many bytes go on with the string that is open, or open one: 0 if none does. The mode says whether it is open behind them."""
        span = library.span(self._mode, library.LIMIT, begin, size)
        if span.status:
            return 0
        is_string = span.kind == SpanKind.Str
        self._mode = span.mode if is_string else 0
        used: int = span.used if is_string else 0
        return used

    def _read(self, more: bool) -> List[Union[Key, bytes]]:
        found: List[Union[Key, bytes]] = []
        held, at, typed = self._rest, 0, (c_uint32 * _MOST)()
        begin = library.address_of(held)
        while at < len(held):
            if self._mode:
                used = self._string(begin + at, len(held) - at)
                if used:
                    found.append(held[at : at + used])
                elif self._mode:
                    break
                at += used
                continue
            given = library.key(more, begin + at, len(held) - at, typed, _MOST)
            if given.status == _TRUNCATED:
                break
            if given.status not in (0, _NO_ACTION):
                raise library.refusal(given)
            found.append(held[at : at + given.used] if given.status else _key_of(given, list(typed)))
            if given.status:
                self._string(begin + at, given.used)
            at += given.used
        self._rest = held[at:]
        return found


def keys(data: Data) -> Iterator[Union[Key, bytes]]:
    """The keys of all that a terminal sent; what isn't read as one comes as its bytes. An ESC at the end is a key, but in a control string.

    >>> from csicodec import keys
    >>> [(key.code.name, key.value) for key in keys(b"a\\x1bOP\\x1b[1;5A\\x1b")]
    [('Char', 'a'), ('F', '1'), ('Up', ''), ('Escape', '')]
    """
    return _keys(bytes_of(data))


def _keys(held: bytes) -> Iterator[Union[Key, bytes]]:
    parser = KeyParser()
    yield from parser.feed(held)
    yield from parser.finish()
