"""Parts of files that are else by hand: lines between two that stand there by hand."""
import sys
from dataclasses import dataclass


@dataclass(frozen=True)
class Part:
    """The lines behind those of `after`, each found behind the one before, and ahead of the next that is `until`, or up to the end."""
    lines: list
    after: tuple = ()
    until: str | None = None

    def find(self, lines, wanted, start):
        """The place of a line from there on."""
        if wanted not in lines[start:]:
            raise ValueError(f"it has no line {wanted!r}" + (" behind those before it" if start else ""))
        return lines.index(wanted, start)

    def span(self, lines):
        """The places of the first line of the part, and of the one behind it."""
        start = 0
        for mark in self.after:
            start = self.find(lines, mark, start) + 1
        return start, len(lines) - 1 if self.until is None else self.find(lines, self.until, start)


def with_parts(path, text, parts):
    """The text of a file with these parts in the place of what stands there."""
    lines = text.split("\n")
    for part in parts:
        try:
            start, end = part.span(lines)
        except ValueError as error:
            sys.exit(f"table: {path}: {error}, where table/ has a part of it")
        lines[start:end] = part.lines
    return "\n".join(lines)
