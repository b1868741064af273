"""Actions as the library's structs, and as bytes."""
from __future__ import annotations

import struct
from collections.abc import Iterable as IterableOf
from typing import Any, Iterable, List, Sequence, Tuple

from . import library
from .actions import SelectCharacterPath  # noqa: F401: with its module each kind is known.
from .error import CodecError
from .forms import KINDS, Action, Params, Row
from .values import Token

#: The structs csicodec_action and csicodec_param.
ACTION = struct.Struct("=IIqqIIIIQQBBBBHBB")
PARAM = struct.Struct("=Qq")


def _action_of(row: Row, params: Any) -> Action:
    """The action of a struct that the library made, whose tokens are among these."""
    tokens: Sequence[Token] = ()
    if row.len:
        of_it = memoryview(params)[row.place * PARAM.size : (row.place + row.len) * PARAM.size]
        tokens = [chr(value) if kind else value for kind, value in PARAM.iter_unpack(of_it)]
    return KINDS[row.kind]._of(row, tokens)


def actions_of(rows: Any, first: int, count: int, params: Any) -> List[Action]:
    """The actions of so many structs, from this one on."""
    places = range(first * ACTION.size, (first + count) * ACTION.size, ACTION.size)
    return [_action_of(Row._make(ACTION.unpack_from(rows, place)), params) for place in places]


def rows_of(actions: Iterable[Action]) -> Tuple[bytes, int, bytes, int]:
    """The structs of actions and of their tokens, and how many there are of both."""
    params: Params = []
    rows: List[bytes] = []
    if not isinstance(actions, IterableOf):
        raise TypeError(f"an iterable of actions is required, not {type(actions).__name__}")
    for action in actions:
        if not isinstance(action, Action):
            raise TypeError(f"an action of csicodec is required, not {type(action).__name__}")
        rows.append(ACTION.pack(*action._row(params)))
    return b"".join(rows), len(rows), b"".join([PARAM.pack(*param) for param in params]), len(params)


def _encoded(call: Any, actions: Iterable[Action]) -> bytes:
    rows = rows_of(actions)
    return library.written(call, rows[1] * 16 + 64, *rows)[0]


def encode(actions: Iterable[Action]) -> bytes:
    """The texts of the actions, joined.

    >>> from csicodec import Cursor, Sgr, encode
    >>> encode([Sgr.Italic(True), Cursor.Position(line=5, col=7)])
    b'\\x1b[3m\\x1b[5;7H'
    """
    return _encoded(library.encode, actions)


def encode_compact(actions: Iterable[Action]) -> bytes:
    """The same actions in a text that is no longer, if each is read back from its own text.

    >>> from csicodec import Sgr, encode_compact
    >>> encode_compact([Sgr.Reset(), Sgr.Italic(True)])
    b'\\x1b[;3m'
    """
    return _encoded(library.encode_compact, actions)


def is_canonical(action: Action) -> bool:
    """Whether the text of an action is read as this one action.

    >>> from csicodec import Cursor, is_canonical
    >>> is_canonical(Cursor.Up(2))
    True
    >>> is_canonical(Cursor.SetLeftAndRightMargins(left=1, right=4294967295))
    False
    """
    rows, _, params, count = rows_of([action])
    answer = library.is_canonical(rows, params, count)
    if answer.status:
        raise CodecError(library.STATUS[answer.status], status=answer.status)
    return bool(answer.canonical)
