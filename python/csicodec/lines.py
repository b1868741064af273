"""Pages of HTML, and overwritten lines, of a stream as it comes."""
from __future__ import annotations

import re
from typing import Iterable, List, Tuple

from . import library
from .library import Data, bytes_of
from .span import SpanKind
from .text import html, overwrite

#: How many bytes are looked at together, at most.
_PIECE = 65536
#: Sequences that can set how characters look or graphic sets, and SO and SI, with the places where they stand.
_Sequences = List[Tuple[int, bytes]]
#: What may save the cursor's place or begin insert mode (DECSC, SCOSC, SM, DECSET 1048 and 1049), and what ends both (RIS, DECSTR).
_KEEPS = re.compile(rb"\x1b(?:7|\[[0-9;:]*[sh]|\[\?[0-9;]*104[89][0-9;]*h)")
_RESETS = (b"\x1bc", b"\x1b[!p")
#: SO and SI, which shift G1 and G0 in, and what designates these (SCS).
_SHIFTS = re.compile(rb"[\x0e\x0f]")
_DESIGNATES = re.compile(rb"\x1b([()])(.)", re.DOTALL)


class _Lines:
    """Writes the lines of a stream, each as it stands when it ends. Behind a newline of text outside of a title nothing is left of a line but how
    further characters look (`NewLine` of csicodec_overwrite's Line.antt) and the graphic sets, so that whole lines can be written by
    themselves, behind the sequences that set these. Where a place is saved or insert mode has begun, that is left too, and what follows is held up to a reset or the end.
    """

    #: What stands ahead of all lines, and behind them.
    _ahead = _behind = b""

    def _begin(self) -> None:
        self._look, self._rest, self._mode, self._is_begun = b"", b"", 0, False
        self._is_title = self._keeps = False
        self._sets = {b"(": b"", b")": b"", b"\x0e": b""}
        self._held: List[bytes] = []
        self._sequences: List[bytes] = []

    def _write(self, lines: bytes) -> bytes:
        """What is written of whole lines."""
        raise NotImplementedError

    def __copy__(self) -> _Lines:
        other = object.__new__(type(self))
        vars(other).update(vars(self), _held=list(self._held), _sequences=list(self._sequences), _sets=dict(self._sets))
        return other

    def feed(self, data: Data) -> bytes:
        """What becomes of the next bytes, or characters, as far as they are whole lines."""
        given = bytes_of(data)
        return b"".join([self._first(), *(self._lines(given[at : at + _PIECE]) for at in range(0, len(given), _PIECE))])

    def finish(self) -> bytes:
        """The last line, and what stands behind all lines."""
        out = self._first() + self._write(b"".join([*self._sets.values(), self._look, *self._held, self._rest])) + self._behind
        self._begin()
        return out

    def _first(self) -> bytes:
        is_begun, self._is_begun = self._is_begun, True
        return b"" if is_begun else self._ahead

    def _lines(self, piece: bytes) -> bytes:
        held = self._rest + piece
        used, cut, sequences = self._cut(held)
        self._rest = held[used:]
        if not cut:
            self._held.append(held[:used])
            self._sequences += [it for _, it in sequences]
            return b""
        out = self._write(b"".join([*self._sets.values(), self._look, *self._held, held[:cut]]))
        self._set_look([*self._sequences, *(it for at, it in sequences if at < cut)])
        self._held = [held[cut:used]]
        self._sequences = [it for at, it in sequences if at >= cut]
        return out

    def _cut(self, held: bytes) -> Tuple[int, int, _Sequences]:
        """How many bytes are in whole spans, how many of them end with the last newline that ends a line, and which sequences there are."""
        begin, used, cut = library.address_of(held), 0, 0
        sequences: _Sequences = []
        while used < len(held):
            span = library.span(self._mode, library.LIMIT, begin + used, len(held) - used)
            if span.status:
                break
            end = used + span.used
            if span.kind != SpanKind.Text:
                self._is_title = span.kind == SpanKind.Esc and held[used:end] == b"\x1bk"
                if span.kind in (SpanKind.Csi, SpanKind.Esc) and not self._is_title:
                    sequences.append((used, held[used:end]))
                    self._keeps = held[used:end] not in _RESETS and (self._keeps or bool(_KEEPS.fullmatch(held, used, end)))
            elif not self._is_title:
                sequences += [(it.start(), it[0]) for it in _SHIFTS.finditer(held, used, end)]
                if not self._keeps:
                    cut = held.rfind(b"\n", used, end) + 1 or cut
            self._mode, used = span.mode, end
        return used, cut, sequences

    def _set_sets(self, sequences: List[bytes]) -> None:
        """Behind these sequences: what designates graphic sets other than ASCII, and shifts G1 in."""
        for it in sequences:
            if it in _RESETS:
                self._sets = dict.fromkeys(self._sets, b"")
            elif found := _DESIGNATES.fullmatch(it):
                self._sets[found[1]] = it if found[2] in (b"0", b"A") else b""
            elif it in (b"\x0e", b"\x0f"):
                self._sets[b"\x0e"] = it if it == b"\x0e" else b""

    def _set_look(self, sequences: List[bytes]) -> None:
        """Behind these sequences: the one with which the library writes how a character looks."""
        self._set_sets(sequences)
        if sequences:
            shown = overwrite(b"".join([self._look, *sequences, b"\nX"]), styles=True)
            self._look = shown[shown.rfind(b"\n") + 1 : shown.rfind(b"X")]

    def __exit__(self, *_: object) -> None:
        self._begin()


class Overwriter(_Lines):
    """`overwrite` for a stream as it comes: it holds a line, and behind a saved place or in insert mode all that follows.

    >>> from csicodec import Overwriter
    >>> it = Overwriter()
    >>> it.feed("10%\\r20%") + it.feed("\\r\\x1b[Kdone\\nnext") + it.finish()
    b'done\\nnext'

    Behind `finish`, and behind a `with`, it can begin anew.
    """

    def __init__(self, *, styles: bool = False) -> None:
        self._styles = styles
        self._write(b"")
        self._begin()

    def _write(self, lines: bytes) -> bytes:
        return overwrite(lines, styles=self._styles)

    def __enter__(self) -> Overwriter:
        return self


class HtmlWriter(_Lines):
    """`html` for a stream as it comes: it holds a line, and behind a saved place or in insert mode all that follows. Links don't pass.

    >>> from csicodec import HtmlWriter
    >>> it = HtmlWriter(fragment=True)
    >>> it.feed("10%\\r\\x1b[1m<b>\\n&") + it.finish()
    b'<span style="font-weight:bold;">&lt;b&gt;</span>\\n<span style="font-weight:bold;">&amp;</span>'

    Behind `finish`, and behind a `with`, it can begin anew.
    """

    def __init__(self, *, classes: bool = False, fragment: bool = False, palette: Iterable[str] = ()) -> None:
        self._classes, self._palette = classes, tuple(palette)
        mark = "\ue000".encode()
        self._ahead, self._behind = html(mark, classes=classes, fragment=fragment, palette=self._palette).split(mark)
        self._begin()

    def _write(self, lines: bytes) -> bytes:
        return html(lines, classes=self._classes, fragment=True, palette=self._palette)

    def __enter__(self) -> HtmlWriter:
        return self
