"""Control sequences without an action, as the rows of docs/SEQUENCES.md know them."""
from __future__ import annotations

from typing import Iterable, Optional, Tuple

from . import library
from .encoding import rows_of
from .forms import Unspecified
from .known_kinds import KnownKind
from .values import Value


class Known(Value):
    """What is known of a sequence without an action: which it is, and its values in the order of its row, with what stands for each number
    that was left out.
    """

    __slots__ = __match_args__ = ("kind", "values")
    kind: KnownKind
    values: Tuple[int, ...]

    def __init__(self, kind: KnownKind, values: Iterable[int]) -> None:
        self._set_member("kind", kind, KnownKind)
        self._set("values", tuple(values))


def known(action: Unspecified) -> Optional[Known]:
    """The row that reads the list, if one does, and its values.

    >>> from csicodec import events, known
    >>> [action] = events("\\x1b[?2K")
    >>> known(action)
    Known(kind=<KnownKind.DECSEL: 10002>, values=(2,))
    """
    if not isinstance(action, Unspecified):
        raise TypeError(f"an Unspecified is required, not {type(action).__name__}")
    row, _, params, count = rows_of([action])
    answer = library.known(row, params, count)
    return Known(answer.kind, answer.values[: answer.count]) if answer.kind else None
