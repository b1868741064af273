"""Shows a log with its styles, its lines numbered, and a word marked wherever it stands, also where the style changes within it.

    python3 log_view.py FILE [WORD]
"""
import re
import sys
from typing import Dict, Iterator, List, NamedTuple, Tuple

from csicodec import Sgr, SgrAction, Text, encode_compact, events


class Piece(NamedTuple):
    """Text in one style: the attributes that are set, by their kind."""

    text: str
    style: Tuple[SgrAction, ...]


def styled_lines(log: bytes) -> Iterator[List[Piece]]:
    """The lines of a log, each as pieces. What isn't text or an attribute doesn't show."""
    line: List[Piece] = []
    style: Dict[type, SgrAction] = {}
    for event in events(log):
        if isinstance(event, Sgr.Reset):
            style = {}
        elif isinstance(event, Sgr):
            style[type(event)] = event
        elif isinstance(event, Text):
            first, *others = event.text.split("\n")
            line.append(Piece(first, tuple(style.values())))
            for text in others:
                yield line
                line = [Piece(text, tuple(style.values()))]
    if any(piece.text for piece in line):
        yield line


def marked(line: List[Piece], word: str) -> Iterator[Piece]:
    """The pieces of a line, cut where the word begins and ends, which is inverted."""
    text = "".join(piece.text for piece in line)
    inside = {place for found in re.finditer(re.escape(word), text) for place in range(*found.span())} if word else set()
    at = 0
    for piece in line:
        for is_marked, part in _parts(piece.text, at, inside):
            yield Piece(part, piece.style + (Sgr.Inverse(True),) if is_marked else piece.style)
        at += len(piece.text)


def _parts(text: str, at: int, inside: "set[int]") -> Iterator[Tuple[bool, str]]:
    begin = 0
    for end in range(1, len(text) + 1):
        is_marked = at + begin in inside
        if end == len(text) or (at + end in inside) != is_marked:
            yield is_marked, text[begin:end]
            begin = end


def main(path: str, word: str = "") -> None:
    with open(path, "rb") as file:
        for number, line in enumerate(styled_lines(file.read()), 1):
            shown = b"".join(
                encode_compact([*piece.style]) + "".join(c for c in piece.text if c.isprintable() or c == "\t").encode("utf-8", "replace") + b"\x1b[m"
                for piece in marked(line, word)
            )
            sys.stdout.buffer.write(b"%6d  %s\n" % (number, shown))


if __name__ == "__main__":
    main(*sys.argv[1:])
