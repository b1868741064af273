"""Untrusted text made safe, and streams in other spellings."""
from __future__ import annotations

import re
from collections.abc import Iterable as IterableOf
from ctypes import byref, c_uint32
from typing import Any, AnyStr, Dict, Iterable, Optional, Tuple

from . import library
from .library import Data, bytes_of, is_on, written

_DEPTHS: Dict[Optional[int], int] = {None: 0, 256: 1, 16: 2}
# A text of which each character is printable, but for newlines at the end, is left as it is: this is asked in strip and clean themselves,
# since one more call of Python is a tenth of what a short text costs.
_STRIP = library.TextCall()
_CLEAN = {(depth, links): library.TextCall(depth, links) for depth in _DEPTHS.values() for links in (False, True)}
#: What strip and clean leave as it is.
_PLAIN = b"\t\n" + bytes(range(0x20, 0x7F))

#: How many bytes of a long text one call takes.
_PIECE = 1 << 20

#: The bytes of a control sequence between ESC [ and its final byte.
_PARAMETERS = bytes(range(0x20, 0x40))
_SPELLINGS = {"filter": library.filter_step, "compact": library.compact_step, "semicolons": library.compact_semicolons_step}


def _in_pieces(held: bytes, stream: "Filter | Stripper") -> bytes:
    """What becomes of bytes, a piece at a time: Python sees a signal, as that of Ctrl-C, between two calls of C alone."""
    return b"".join([*(stream.feed(held[at : at + _PIECE]) for at in range(0, len(held), _PIECE)), stream.finish()])


def _is_plain_ascii(held: bytes) -> bool:
    return not held.translate(None, _PLAIN)


def _bytes(text: Data) -> bytes:
    return bytes_of(text, "surrogatepass")


def _like(text: Any, out: bytes) -> Any:
    return out.decode("utf-8", "surrogateescape") if isinstance(text, str) else out


def _depth(colors: Optional[int]) -> int:
    if colors not in _DEPTHS:
        raise ValueError(f"colors must be None, 256 or 16, not {colors!r}")
    return _DEPTHS[colors]


def strip(text: AnyStr) -> AnyStr:
    """The visible text: no control but newline and tab. A str gives a str, and bytes give bytes, in which bytes that aren't UTF-8 become U+FFFD.

    >>> strip("\\x1b[1mbold\\x1b]0;a title\\a and plain")
    'bold and plain'
    """
    if isinstance(text, str):
        if text.rstrip("\n").isprintable():
            return text
        return _STRIP.text(text) if len(text) <= _PIECE else _in_pieces(_bytes(text), Stripper()).decode()
    held = bytes_of(text)
    if _is_plain_ascii(held):
        return held
    return _STRIP.written(held) if len(held) <= _PIECE else _in_pieces(held, Stripper())


def clean(text: AnyStr, *, colors: Optional[int] = None, links: bool = False) -> AnyStr:
    """The visible text with its known styles (SGR), except the one that conceals text (8), other fonts (11 to 20), and 26, 50 to 52, 54 and
    60 to 65. None is left open at the end.

    `colors=256` makes each true colour the nearest of places 16 to 255, and `colors=16` each colour the nearest of the first 16;
    `links` keeps links (OSC 8) to a host by http or https whose address is at most 2,083 visible ASCII characters, without a
    user's name.

    >>> clean("\\x1b[1;8mbold\\x1b[5;7H")
    '\\x1b[1mbold\\x1b[0m'
    """
    call = _CLEAN[_depth(colors), is_on("links", links)]
    if isinstance(text, str):
        return text if text.rstrip("\n").isprintable() else call.text(text)
    held = bytes_of(text)
    return held if _is_plain_ascii(held) else call.written(held)


def _number(color: str) -> int:
    """The number of a colour."""
    if not isinstance(color, str) or not re.fullmatch("#[0-9a-fA-F]{6}", color):
        raise ValueError(f"a colour of a palette must be as '#rrggbb', not {color!r}")
    return int(color[1:], 16)


def html(text: AnyStr, *, links: bool = False, classes: bool = False, fragment: bool = False, overwrite: bool = True, palette: Iterable[str] = ()) -> AnyStr:
    """A page of HTML with the text, its colours and its styles, each line as it stands when it ends. Nothing of the text gets into a tag,
    but addresses with `links`, with which text stays that was written over, as with `overwrite=False`.

    `fragment=True` gives a piece for a `<pre>` in a page of your own, `classes=True` CSS classes in place of styles. `palette` has 16
    colours as '#rrggbb', or 18 with the page's own colour of text and its background.

    >>> html("10%\\r\\x1b[1m<b>\\x1b[m", fragment=True)
    '<span style="font-weight:bold;">&lt;b&gt;</span>'
    """
    if not isinstance(palette, IterableOf):
        raise TypeError(f"palette must be colours, not {type(palette).__name__}")
    numbers = [_number(color) for color in palette]
    if len(numbers) not in (0, 16, 18):
        raise ValueError(f"a palette has 16 or 18 colours, not {len(numbers)}")
    markup, held = library.Markup(is_on("links", links), is_on("classes", classes), is_on("fragment", fragment), not is_on("overwrite", overwrite)), _bytes(text)
    given = (byref(markup), (c_uint32 * len(numbers))(*numbers), len(numbers), held, len(held))
    return _like(text, written(library.html, 4 * len(held) + 1024, *given)[0])  # type: ignore[no-any-return]


def overwrite(text: AnyStr, *, styles: bool = False) -> AnyStr:
    """Each line as it stands when it ends: what a carriage return, a backspace or an erase hides in it is gone. Once a line has more than
    512 columns, nothing in it but blanks is overwritten or erased. It is plain text, with `styles` the sequences (SGR) too that set how
    characters look.

    >>> overwrite("10%\\r20%\\r\\x1b[Kdone\\n")
    'done\\n'
    """
    held = _bytes(text)
    return _like(text, written(library.overwrite, len(held) + 64, is_on("styles", styles), held, len(held))[0])  # type: ignore[no-any-return]


def normalise(sequences: AnyStr) -> AnyStr:
    """The normal form of control sequences, one after the other. Other bytes are refused, with their place.

    >>> normalise(b"\\x1b[01;3m")
    b'\\x1b[1m\\x1b[3m'
    >>> normalise(b"\\x1b[1mx")
    Traceback (most recent call last):
        ...
    csicodec.error.CodecError: byte 4: not a sequence
    """
    held = _bytes(sequences)
    return _like(sequences, written(library.normalise, 2 * len(held) + 64, held, len(held))[0])  # type: ignore[no-any-return]


class _Steps:
    """What comes in pieces, of which some bytes wait for those that follow."""

    _rest: bytes
    _looked: int
    #: How many bytes at the front are the beginning of a character.
    _held = 0

    def _begin(self) -> None:
        self._rest, self._looked = b"", 0

    def _step(self, held: bytes) -> Tuple[bytes, Any]:
        """What is written of these bytes, and the library's answer."""
        raise NotImplementedError

    def _waits(self, held: bytes) -> bool:
        """Whether a control sequence, of which some bytes were looked at, isn't over in these."""
        looked = self._looked - self._held
        if looked < 2 or len(held) - self._held >= library.LIMIT or not held.startswith(b"\x1b[", self._held):
            return False
        return not held[self._looked :].translate(None, _PARAMETERS)

    def feed(self, data: Data) -> bytes:
        """What becomes of the next bytes, or characters, as far as it doesn't depend on what follows."""
        held = self._rest + bytes_of(data)
        if not held or self._waits(held):
            self._rest, self._looked = held, len(held)
            return b""
        out, answer = self._step(held)
        self._rest = held[answer.used :]
        self._looked = len(self._rest)
        return out

    def __exit__(self, *_: object) -> None:
        self._begin()


class Filter(_Steps):
    """Writes a stream as it comes with each control sequence in its normal form, and every other byte as it was.

    >>> it = Filter()
    >>> it.feed(b"a\\x1b[0") + it.feed(b"1;3mb") + it.finish()
    b'a\\x1b[1m\\x1b[3mb'

    `Filter.compact()` writes the shortest spelling that is found instead, never a longer one. Behind `finish`, and behind a `with`, a
    filter can begin anew.
    """

    _spelling = "filter"

    def __init__(self) -> None:
        self._begin()

    @classmethod
    def compact(cls, *, semicolons: bool = False) -> Filter:
        """A filter that writes the shortest spelling, with `semicolons` also in colours where colons are as short."""
        it = cls()
        it._spelling = "semicolons" if is_on("semicolons", semicolons) else "compact"
        return it

    def _begin(self) -> None:
        super()._begin()
        self._mode = 0

    def _step(self, held: bytes) -> Tuple[bytes, Any]:
        out, answer = written(_SPELLINGS[self._spelling], 2 * len(held) + 64, self._mode, library.LIMIT, held, len(held))
        self._mode = answer.mode
        return out, answer

    def finish(self) -> bytes:
        """What is left at the end, as it came."""
        left = self._rest
        self._begin()
        return left

    def __enter__(self) -> Filter:
        return self


def filter(stream: AnyStr) -> AnyStr:
    """A whole stream with each control sequence in its normal form.

    >>> filter("a\\x1b[01mb")
    'a\\x1b[1mb'
    """
    held = _bytes(stream)
    return _like(stream, _in_pieces(held, Filter()) if b"\x1b" in held else held)  # type: ignore[no-any-return]


def compact(stream: AnyStr, *, semicolons: bool = False) -> AnyStr:
    """A whole stream for a terminal in fewer bytes, as the program `csicodec compact` writes it: in the place of control sequences that stand
    side by side one may stand that is read as the same actions. It is never longer.

    >>> compact("\\x1b[0;01mred\\x1b[10;1H")
    '\\x1b[;1mred\\x1b[10H'
    >>> compact("\\x1b[2m\\x1b[3mfaint")
    '\\x1b[2;3mfaint'
    """
    held, is_so = _bytes(stream), is_on("semicolons", semicolons)
    out = written(library.compact_whole, len(held), is_so, held, len(held))[0] if b"\x1b" in held else held
    return _like(stream, out)  # type: ignore[no-any-return]


class _Cleaning(_Steps):
    """What is left of a stream as it comes, with its styles in one of the depths of colours, or without any."""

    _depth: Optional[int] = None

    def _begin(self) -> None:
        super()._begin()
        self._state, self._held = library.Cleaning(), 0

    def _step(self, held: bytes) -> Tuple[bytes, Any]:
        given = (byref(self._state), held, len(held))
        if self._depth is None:
            out, answer = written(library.strip_step, len(held) + 64, *given)
        else:
            out, answer = written(library.clean_step, len(held) + 64, self._depth, *given)
        self._state, self._held = answer.state, answer.state.held
        return out, answer

    def finish(self) -> bytes:
        """What ends the stream: U+FFFD for the beginning of a character, and a reset if a style is open."""
        out, _ = written(library.clean_end, 64, byref(self._state), self._rest, len(self._rest))
        self._begin()
        return out


class Stripper(_Cleaning):
    """`strip` for a stream as it comes; together the pieces are what one call for the whole writes.

    >>> it = Stripper()
    >>> it.feed(b"a\\x1b[3") + it.feed(b"1mb\\xc3") + it.feed(b"\\xa9") + it.finish()
    b'ab\\xc3\\xa9'

    Behind `finish`, and behind a `with`, it can begin anew.
    """

    def __init__(self) -> None:
        self._begin()

    def __enter__(self) -> Stripper:
        return self


class Cleaner(_Cleaning):
    """`clean` for a stream as it comes, with `colors` as there; together the pieces are what one call for the whole writes. No links pass.

    >>> it = Cleaner()
    >>> it.feed(b"a\\x1b[3") + it.feed(b"1mb\\xc3") + it.feed(b"\\xa9") + it.finish()
    b'a\\x1b[31mb\\xc3\\xa9\\x1b[0m'

    Behind `finish`, and behind a `with`, it can begin anew. The argument `styles` is that of versions before 1.25, in which `Cleaner()` was
    what `Stripper()` is now. It warns: `styles=True` says nothing more, and for `styles=False` take `Stripper()`.
    """

    def __init__(self, *, styles: Optional[bool] = None, colors: Optional[int] = None) -> None:
        depth = _depth(colors)
        if styles is not None:
            from warnings import warn

            warn("Cleaner keeps styles, so styles=True can go, and Stripper is for styles=False", DeprecationWarning, stacklevel=2)
        self._depth = depth if styles is None or is_on("styles", styles) else None
        self._begin()

    def __enter__(self) -> Cleaner:
        return self
