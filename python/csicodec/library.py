"""The calls of the shared library, which lies beside this file, and the room that they write into."""
from __future__ import annotations

import ctypes
import os
from ctypes import POINTER, Structure, c_char, c_char_p, c_size_t, c_uint8, c_uint32, c_uint64, c_void_p
from typing import Any, Callable, List, Optional, Tuple, Union

from .error import CodecError

#: What a stream, or a text, is taken from.
Data = Union[str, bytes, bytearray, memoryview]
#: The most bytes that a control sequence may have, where the caller names no limit.
LIMIT = 65536
#: The status when memory was refused.
MEMORY = 5
#: A few words for each status of the library.
STATUS = ("done", "not a sequence", "bad byte", "number too large", "truncated", "no memory", "no action", "bad state")
#: How much room is kept for the next call.
_KEPT = 16384


class Normalised(Structure):
    _fields_ = [("status", c_uint32), ("start", c_size_t), ("at", c_size_t), ("needed", c_size_t)]


class Encoded(Structure):
    _fields_ = [("status", c_uint32), ("at", c_size_t), ("needed", c_size_t)]


class Judged(Structure):
    _fields_ = [("status", c_uint32), ("canonical", c_uint32)]


class Known(Structure):
    _fields_ = [("kind", c_uint32), ("count", c_uint32), ("values", c_uint32 * 12)]


class Desk(Structure):
    """What is to be left of texts, and room (csicodec_desk of system/python.c)."""

    _fields_ = [("styles", c_uint32), ("depth", c_uint32), ("links", c_uint32), ("room", c_char * _KEPT)]


class Stream(Structure):
    _fields_ = [("words", c_uint64 * 11)]


class Telling(Structure):
    """A stream, bytes, and room for their events (csicodec_telling of system/python.c)."""

    _fields_ = [
        ("stream", Stream),
        ("bytes", c_char_p),
        ("len", c_size_t),
        ("told", c_void_p),
        ("told_room", c_size_t),
        ("actions", c_void_p),
        ("actions_room", c_size_t),
        ("params", c_void_p),
        ("params_room", c_size_t),
        ("count", c_size_t),
        ("used", c_size_t),
        ("actions_needed", c_size_t),
        ("params_needed", c_size_t),
    ]


class Filtered(Structure):
    _fields_ = [("status", c_uint32), ("mode", c_uint32), ("used", c_size_t), ("needed", c_size_t)]


class Stripped(Structure):
    _fields_ = [("status", c_uint32), ("needed", c_size_t)]


class Cleaning(Structure):
    _fields_ = [("mode", c_uint32), ("titled", c_uint32), ("styled", c_uint32), ("held", c_uint32)]


class Cleaned(Structure):
    _fields_ = [("status", c_uint32), ("state", Cleaning), ("used", c_size_t), ("needed", c_size_t)]


class Markup(Structure):
    _fields_ = [("links", c_uint32), ("classes", c_uint32), ("fragment", c_uint32), ("no_overwrite", c_uint32)]


class Key(Structure):
    _fields_ = [
        ("status", c_uint32),
        ("code", c_uint32),
        ("value", c_uint32),
        ("modifiers", c_uint32),
        ("event", c_uint32),
        ("encoding", c_uint32),
        ("typed", c_size_t),
        ("used", c_size_t),
    ]


class Osc(Structure):
    _fields_ = [("kind", c_uint32), ("texts", c_uint32), ("first", c_size_t), ("second", c_size_t)]


class Spanned(Structure):
    _fields_ = [("status", c_uint32), ("kind", c_uint32), ("mode", c_uint32), ("used", c_size_t)]


class Received(Structure):
    _fields_ = [
        ("status", c_uint32),
        ("kind", c_uint32),
        ("mode", c_uint32),
        ("value", c_uint32),
        ("looked", c_size_t),
        ("used", c_size_t),
        ("actions", c_size_t),
        ("params", c_size_t),
    ]


def _call(name: str, result: Any, *arguments: Any) -> Callable[..., Any]:
    call = getattr(_library, f"csicodec_{name}")
    call.restype, call.argtypes = result, arguments
    return call  # type: ignore[no-any-return]


def _beside() -> ctypes.CDLL:
    name = os.path.join(os.path.dirname(os.path.abspath(__file__)), "csicodec.dll" if os.name == "nt" else "libcsicodec.so")
    try:
        return ctypes.CDLL(name)
    except OSError as error:
        raise ImportError(f"csicodec has no library for this machine (it is for Linux on x86_64 and aarch64, and for Windows on x86_64): {error}") from None


_library = _beside()
# Bytes, a list of structs, and room are each an address and a length; a state is a struct.
_BYTES, _LIST, _ROOM = (c_char_p, c_size_t), (c_char_p, c_size_t), (c_void_p, c_size_t)
_STATE = POINTER(Cleaning)
version = _call("version", c_uint32)
normalise = _call("normalise", Normalised, *_BYTES, *_ROOM)
encode = _call("encode", Encoded, *_LIST, *_LIST, *_ROOM)
encode_compact = _call("encode_compact", Encoded, *_LIST, *_LIST, *_ROOM)
is_canonical = _call("is_canonical", Judged, c_char_p, *_LIST)
known = _call("known", Known, c_char_p, *_LIST)
filter_step = _call("filter", Filtered, c_uint32, c_size_t, *_BYTES, *_ROOM)
compact_step = _call("compact", Filtered, c_uint32, c_size_t, *_BYTES, *_ROOM)
compact_semicolons_step = _call("compact_semicolons", Filtered, c_uint32, c_size_t, *_BYTES, *_ROOM)
strip = _call("strip", Stripped, *_BYTES, *_ROOM)
clean_with = _call("clean_with", Stripped, c_uint32, c_uint32, *_BYTES, *_ROOM)
strip_step = _call("strip_step", Cleaned, _STATE, *_BYTES, *_ROOM)
clean_step = _call("clean_step", Cleaned, c_uint32, _STATE, *_BYTES, *_ROOM)
clean_end = _call("clean_end", Stripped, _STATE, *_BYTES, *_ROOM)
html = _call("html", Stripped, POINTER(Markup), POINTER(c_uint32), c_size_t, *_BYTES, *_ROOM)
compact_whole = _call("compact_whole", Stripped, c_uint32, *_BYTES, *_ROOM)
overwrite = _call("overwrite", Stripped, c_uint32, *_BYTES, *_ROOM)
key = _call("key", Key, c_uint32, *_ROOM, POINTER(c_uint32), c_size_t)
osc = _call("osc", Osc, *_BYTES)
span = _call("span", Spanned, c_uint32, c_size_t, *_ROOM)
esc = _call("esc", c_uint32, c_uint8, c_uint8)
receive = _call("input", Received, c_uint32, c_uint32, c_size_t, c_size_t, *_ROOM, *_ROOM, *_ROOM)
pause = _call("pause", Received, *_BYTES)
begin = _call("begin", None, POINTER(Stream), c_size_t)
# What these take ctypes passes at once.
left, tell = _library.csicodec_left, _library.csicodec_tell
left.restype, tell.restype = c_char_p, None


def bytes_of(data: Data, errors: str = "surrogateescape") -> bytes:
    """The bytes of a stream or a text."""
    if isinstance(data, str):
        return data.encode("utf-8", errors)
    if isinstance(data, bytes):
        return data
    try:
        return bytes(memoryview(data))
    except TypeError:
        raise TypeError(f"a str or bytes-like object is required, not {type(data).__name__}") from None


def limit_of(limit: int) -> int:
    """A limit, if it is one."""
    if not isinstance(limit, int):
        raise TypeError(f"limit must be int, not {type(limit).__name__}")
    if limit < 1:
        raise ValueError(f"limit must be 1 or more, not {limit}")
    return limit


def is_on(name: str, value: bool) -> bool:
    """An option that is on or off."""
    if not isinstance(value, bool):
        raise TypeError(f"{name} must be bool, not {type(value).__name__}")
    return value


def address_of(held: bytes) -> int:
    """Where C finds bytes, as long as the caller keeps them."""
    return ctypes.cast(c_char_p(held), c_void_p).value or 0


class Room:
    """Room for so many bytes, which `held` has, and what C is passed of it."""

    __slots__ = ("size", "held", "at", "length")

    def __init__(self, size: int) -> None:
        self.size, self.held = size, ctypes.create_string_buffer(size)
        self.at, self.length = c_void_p(ctypes.addressof(self.held)), c_size_t(size)

    def front(self, length: int) -> bytes:
        """A copy of so many bytes."""
        return self.held[:length]  # type: ignore[return-value]


class TextCall:
    """What is left of texts, by a call that takes few arguments, with the desks that no thread uses just now: taking one from the list and putting
    it back are each one step.
    """

    def __init__(self, *styled: int) -> None:
        """Of plain text, or of text with the styles of a depth and with links or without."""
        self._desks, self._styled, self._left = [ctypes.byref(Desk(bool(styled), *styled))], styled, left

    def text(self, text: str) -> str:
        """What is left of a text. Most texts are short, where a call of Python costs as much as one of C, so that this doesn't use `written`."""
        held = text.encode("utf-8", "surrogatepass")
        length = len(held)
        if length > _KEPT:
            return self.whole(held).decode()
        try:
            desk = self._desks.pop()
        except IndexError:
            return self.whole(held).decode()
        out: Optional[bytes] = self._left(held, length, desk)
        self._desks.append(desk)
        return self.whole(held).decode() if out is None else out.decode()

    def written(self, held: bytes) -> bytes:
        """What is left of some bytes."""
        if len(held) > _KEPT:
            return self.whole(held)
        try:
            desk = self._desks.pop()
        except IndexError:
            return self.whole(held)
        out: Optional[bytes] = self._left(held, len(held), desk)
        self._desks.append(desk)
        return self.whole(held) if out is None else out

    def whole(self, held: bytes) -> bytes:
        """The same, however long it is."""
        call = clean_with if self._styled else strip
        return written(call, len(held) + 64, *self._styled, held, len(held))[0]


#: Room that no call uses just now.
_rooms: List[Room] = []


def _kept_room() -> Room:
    """Room that is kept. Another thread may take the last one between a look and a step, so there is no look."""
    try:
        return _rooms.pop()
    except IndexError:
        return Room(_KEPT)


def refusal(answer: Any) -> Exception:
    """The exception for an answer that isn't OK."""
    if answer.status == MEMORY:
        return MemoryError("csicodec: the C library gave no memory")
    start, at = getattr(answer, "start", 0), getattr(answer, "at", 0)
    place = f"byte {start + at}: " if isinstance(answer, Normalised) else f"action {at}: " if isinstance(answer, Encoded) else ""
    return CodecError(f"{place}{STATUS[answer.status]}", start, at, answer.status)


def written(call: Callable[..., Any], size: int, *given: Any) -> Tuple[bytes, Any]:
    """What a call writes into room of so many bytes, or of more where it says that it needs more, and its answer."""
    room = Room(size) if size > _KEPT else _kept_room()
    answer = call(*given, room.at, room.length)
    if not answer.status and answer.needed > room.size:
        room = Room(answer.needed)
        answer = call(*given, room.at, room.length)
    if answer.status:
        raise refusal(answer)
    out = room.front(answer.needed)
    if room.size == _KEPT:
        _rooms.append(room)
    return out, answer
