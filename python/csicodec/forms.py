"""The forms of actions: which fields an action has, what they may be, and how they stand in a struct of the library."""
from __future__ import annotations

from enum import IntEnum
from typing import ClassVar, Dict, Generic, Iterable, List, NamedTuple, Optional, Sequence, Tuple, Type, TypeVar, Union

from . import enums
from .error import FieldError
from .values import Color, DefaultColor, KittyKeyboardFlags, Modifiers, PaletteColor, Token, TrueColor, Value

_LARGEST_16, _LARGEST_32, _LARGEST_64 = (1 << 16) - 1, (1 << 32) - 1, (1 << 63) - 1
_SMALLEST_64 = ~_LARGEST_64
#: Tokens as the library has them: 0 and a number, or 1 and a byte.
Params = List[Tuple[int, int]]
Member = TypeVar("Member", bound=IntEnum)


class Row(NamedTuple):
    """The fields of a struct csicodec_action, in their order."""

    kind: int
    final: int = 0
    first: int = 0
    second: int = 0
    top: int = 0
    left: int = 0
    bottom: int = 0
    right: int = 0
    place: int = 0
    len: int = 0
    red: int = 0
    green: int = 0
    blue: int = 0
    alpha: int = 0
    modifiers: int = 0
    button: int = 0
    absent: int = 0


def named(kind: Type[Member], number: int) -> Union[Member, int]:
    """The member with this number, or the number, if none has it."""
    try:
        return kind(number)
    except ValueError:
        return number


class Action(Value):
    """What one control sequence, or a part of it, does. `bytes(action)` is its text."""

    _kind: ClassVar[int]

    def __init_subclass__(cls, kind: Optional[int] = None) -> None:
        super().__init_subclass__()
        if kind is not None:
            cls._kind = kind
            KINDS[kind] = cls

    def _row(self, params: Params) -> Row:
        """Its struct. Tokens of it go behind the params that are there."""
        return Row(self._kind)

    @classmethod
    def _of(cls, row: Row, tokens: Sequence[Token]) -> Action:
        """The action of a struct that the library made, with its tokens."""
        return cls()

    def __bytes__(self) -> bytes:
        from .encoding import encode

        return encode([self])

    @property
    def is_canonical(self) -> bool:
        """Whether its text is read as this action and nothing else. This holds for all actions that are read, except left and right
        margins from 1 to 4294967295 (DECSLRM) and requests for the terminal's parameters (DECREQTPARM).
        """
        from .encoding import is_canonical

        return is_canonical(self)


#: The action of each kind of struct.
KINDS: Dict[int, Type[Action]] = {}


# ---- numbers, and what stands as a number


class OfNumbers(Action):
    """Its fields are the numbers of the struct, from `first` on."""

    def _set_numbers(self, low: int, high: int, **fields: int) -> None:
        for field, value in fields.items():
            self._set_whole(field, value, low, high)

    def _set_code(self, field: str, value: int, kind: Type[IntEnum], low: int, high: int) -> None:
        """Sets a field to the member of an enumeration with this number, or to the number, if none has it."""
        self._set_whole(field, value, low, high)
        self._set(field, named(kind, value))

    def _row(self, params: Params) -> Row:
        return Row(self._kind, 0, *map(int, self._values()))

    @classmethod
    def _of(cls, row: Row, tokens: Sequence[Token]) -> Action:
        return cls._sure(*row[2:8])


class OfCount(OfNumbers):
    __slots__ = __match_args__ = ("count",)
    count: int

    def __init__(self, count: int) -> None:
        self._set_numbers(0, _LARGEST_32, count=count)


class OfPlace(OfNumbers):
    __slots__ = __match_args__ = ("place",)
    place: int

    def __init__(self, place: int) -> None:
        self._set_numbers(1, _LARGEST_32, place=place)


class OfNumber(OfNumbers):
    __slots__ = __match_args__ = ("number",)
    number: int

    def __init__(self, number: int) -> None:
        self._set_numbers(_SMALLEST_64, _LARGEST_64, number=number)


class OfFont(OfNumbers):
    __slots__ = __match_args__ = ("number",)
    number: int

    def __init__(self, number: int) -> None:
        self._set_numbers(0, 9, number=number)


class OfLineAndCol(OfNumbers):
    __slots__ = __match_args__ = ("line", "col")
    line: int
    col: int

    def __init__(self, line: int, col: int) -> None:
        self._set_numbers(1, _LARGEST_32, line=line, col=col)


class OfTopAndBottom(OfNumbers):
    __slots__ = __match_args__ = ("top", "bottom")
    top: int
    bottom: int

    def __init__(self, top: int, bottom: int) -> None:
        self._set_numbers(1, _LARGEST_32, top=top, bottom=bottom)


class OfLeftAndRight(OfNumbers):
    __slots__ = __match_args__ = ("left", "right")
    left: int
    right: int

    def __init__(self, left: int, right: int) -> None:
        self._set_numbers(1, _LARGEST_32, left=left, right=right)


class OfXAndY(OfNumbers):
    __slots__ = __match_args__ = ("x", "y")
    x: int
    y: int

    def __init__(self, x: int, y: int) -> None:
        self._set_numbers(_SMALLEST_64, _LARGEST_64, x=x, y=y)


class OfArea(OfNumbers):
    __slots__ = __match_args__ = ("request_id", "page_number", "top", "left", "bottom", "right")
    request_id: int
    page_number: int
    top: int
    left: int
    bottom: int
    right: int

    def __init__(self, request_id: int, page_number: int, top: int, left: int, bottom: int, right: int) -> None:
        self._set_numbers(_SMALLEST_64, _LARGEST_64, request_id=request_id, page_number=page_number)
        self._set_numbers(1, _LARGEST_32, top=top, left=left, bottom=bottom, right=right)


class _OfNamed(OfNumbers):
    """The same, where a number stands for something else, which the constructor makes of it."""

    @classmethod
    def _of(cls, row: Row, tokens: Sequence[Token]) -> Action:
        return cls(*row[2 : 2 + len(cls.__match_args__)])


class OfFlag(_OfNamed):
    __slots__ = __match_args__ = ("value",)
    value: bool

    def __init__(self, value: bool) -> None:
        self._set_whole("value", value, 0, 1)
        self._set("value", bool(value))


class OfMember(_OfNamed, Generic[Member]):
    """Its field is a member of an enumeration, which its class names by `members`."""

    __slots__ = __match_args__ = ("value",)
    _members: ClassVar[Type[IntEnum]]
    value: Member

    def __init_subclass__(cls, kind: Optional[int] = None, members: Optional[Type[IntEnum]] = None) -> None:
        super().__init_subclass__(kind)
        if members is not None:
            cls._members = members

    def __init__(self, value: Member) -> None:
        self._set_member("value", value, self._members)


class OfDecPrivateMode(_OfNamed):
    __slots__ = __match_args__ = ("mode",)
    mode: Union[enums.DecPrivateModeCode, int]

    def __init__(self, mode: Union[enums.DecPrivateModeCode, int]) -> None:
        self._set_code("mode", mode, enums.DecPrivateModeCode, 0, _LARGEST_16)


class OfTerminalMode(_OfNamed):
    __slots__ = __match_args__ = ("mode",)
    mode: Union[enums.TerminalModeCode, int]

    def __init__(self, mode: Union[enums.TerminalModeCode, int]) -> None:
        self._set_code("mode", mode, enums.TerminalModeCode, 0, _LARGEST_16)


class OfKittyFlags(_OfNamed):
    __slots__ = __match_args__ = ("flags",)
    flags: KittyKeyboardFlags

    def __init__(self, flags: KittyKeyboardFlags) -> None:
        self._set_member("flags", flags, KittyKeyboardFlags)


class OfKittyState(_OfNamed):
    __slots__ = __match_args__ = ("flags", "mode")
    flags: KittyKeyboardFlags
    mode: enums.KittyKeyboardMode

    def __init__(self, flags: KittyKeyboardFlags, mode: enums.KittyKeyboardMode) -> None:
        self._set_member("flags", flags, KittyKeyboardFlags)
        self._set_member("mode", mode, enums.KittyKeyboardMode)


class OfPath(_OfNamed):
    __slots__ = __match_args__ = ("path", "effect")
    path: enums.CharacterPath
    effect: int

    def __init__(self, path: enums.CharacterPath, effect: int) -> None:
        self._set_member("path", path, enums.CharacterPath)
        self._set_whole("effect", effect, _SMALLEST_64, _LARGEST_64)


# ---- numbers that may be absent


class _OfOptional(Action):
    """Its fields are the first two numbers of the struct. One that the sequence leaves out is None."""

    def _set_optional(self, field: str, value: Optional[int]) -> None:
        self._set(field, None)
        if value is not None:
            self._set_whole(field, value, _SMALLEST_64, _LARGEST_64)

    def _row(self, params: Params) -> Row:
        first, second = self._values()
        return Row(self._kind, 0, int(first or 0), second or 0, absent=(first is None) + 2 * (second is None))

    @classmethod
    def _of(cls, row: Row, tokens: Sequence[Token]) -> Action:
        first, second = row.first, row.second
        return cls(*[None if row.absent & 1 else first, None if row.absent & 2 else second])


class OfSize(_OfOptional):
    __slots__ = __match_args__ = ("width", "height")
    width: Optional[int]
    height: Optional[int]

    def __init__(self, width: Optional[int], height: Optional[int]) -> None:
        self._set_optional("width", width)
        self._set_optional("height", height)


class OfResource(_OfOptional):
    __slots__ = __match_args__ = ("resource", "value")
    resource: enums.XtermKeyModifierResource
    value: Optional[int]

    def __init__(self, resource: enums.XtermKeyModifierResource, value: Optional[int]) -> None:
        self._set_member("resource", resource, enums.XtermKeyModifierResource)
        self._set_optional("value", value)


# ---- what has a part of the struct for itself


class OfColor(Action):
    __slots__ = __match_args__ = ("color",)
    color: Color

    def __init__(self, color: Color) -> None:
        self._set_of("color", color, DefaultColor, PaletteColor, TrueColor)

    def _row(self, params: Params) -> Row:
        color = self.color
        if isinstance(color, TrueColor):
            return Row(self._kind, 0, 2, red=color.red, green=color.green, blue=color.blue, alpha=color.alpha)
        return Row(self._kind, 0, 1, color.index) if isinstance(color, PaletteColor) else Row(self._kind)

    @classmethod
    def _of(cls, row: Row, tokens: Sequence[Token]) -> Action:
        if row.first == 2:
            return cls._sure(TrueColor._sure(row.red, row.green, row.blue, row.alpha))
        return cls._sure(PaletteColor._sure(row.second) if row.first else DefaultColor())


class _OfReport(Action):
    """A place, the button, and which keys are held."""

    def _set_report(self, button: enums.MouseButton, modifiers: Modifiers, **place: int) -> None:
        for field, value in place.items():
            self._set_whole(field, value, 0, _LARGEST_16)
        self._set_member("button", button, enums.MouseButton)
        self._set_member("modifiers", modifiers, Modifiers)

    def _row(self, params: Params) -> Row:
        first, second, button, modifiers = self._values()
        return Row(self._kind, 0, first, second, button=int(button), modifiers=int(modifiers))

    @classmethod
    def _of(cls, row: Row, tokens: Sequence[Token]) -> Action:
        return cls(*[row.first, row.second, row.button, row.modifiers])


class OfCellReport(_OfReport):
    __slots__ = __match_args__ = ("x", "y", "button", "modifiers")
    x: int
    y: int
    button: enums.MouseButton
    modifiers: Modifiers

    def __init__(self, x: int, y: int, button: enums.MouseButton, modifiers: Modifiers) -> None:
        self._set_report(button, modifiers, x=x, y=y)


class OfPixelReport(_OfReport):
    __slots__ = __match_args__ = ("x_pixels", "y_pixels", "button", "modifiers")
    x_pixels: int
    y_pixels: int
    button: enums.MouseButton
    modifiers: Modifiers

    def __init__(self, x_pixels: int, y_pixels: int, button: enums.MouseButton, modifiers: Modifiers) -> None:
        self._set_report(button, modifiers, x_pixels=x_pixels, y_pixels=y_pixels)


# ---- tokens


class _OfTokens(Action):
    """One of its fields is a tuple of tokens."""

    def _set_tokens(self, field: str, tokens: Iterable[Token]) -> None:
        held = tuple(tokens)
        for token in held:
            if isinstance(token, str) and len(token) == 1 and token <= "\xff":
                continue
            self._set_whole(field, token, _SMALLEST_64, _LARGEST_64)  # type: ignore[arg-type]
        self._set(field, held)

    def _with_tokens(self, row: Row, tokens: Iterable[Token], params: Params) -> Row:
        place = len(params)
        params.extend((1, ord(token)) if isinstance(token, str) else (0, int(token)) for token in tokens)
        return row._replace(place=place, len=len(params) - place)


class OfAttributes(_OfTokens):
    __slots__ = __match_args__ = ("attributes",)
    attributes: Tuple[Union[enums.DeviceAttributeCodes, Token], ...]

    def __init__(self, attributes: Iterable[Union[enums.DeviceAttributeCodes, Token]]) -> None:
        self._set_tokens("attributes", [it if isinstance(it, str) else named(enums.DeviceAttributeCodes, it) for it in attributes])

    def _row(self, params: Params) -> Row:
        return self._with_tokens(Row(self._kind), self.attributes, params)

    @classmethod
    def _of(cls, row: Row, tokens: Sequence[Token]) -> Action:
        return cls(tokens)


class OfGraphics(_OfTokens):
    __slots__ = __match_args__ = ("item", "action_or_status", "value")
    item: Union[enums.XtSmGraphicsItem, int]
    action_or_status: int
    value: Tuple[int, ...]

    def __init__(self, item: Union[enums.XtSmGraphicsItem, int], action_or_status: int, value: Iterable[int]) -> None:
        self._set_whole("item", item, _SMALLEST_64, _LARGEST_64)
        self._set("item", named(enums.XtSmGraphicsItem, item))
        self._set_whole("action_or_status", action_or_status, _SMALLEST_64, _LARGEST_64)
        self._set_tokens("value", value)

    def _row(self, params: Params) -> Row:
        return self._with_tokens(Row(self._kind, 0, int(self.item), self.action_or_status), self.value, params)

    @classmethod
    def _of(cls, row: Row, tokens: Sequence[Token]) -> Action:
        return cls(row.first, row.second, [int(token) for token in tokens])


class Unspecified(_OfTokens, kind=0):
    """A control sequence that no other action stands for, with nothing lost: its parameters, each a number or a character such as ';',
    and its final character.
    """

    __slots__ = __match_args__ = ("params", "control")
    params: Tuple[Token, ...]
    control: str

    def __init__(self, params: Iterable[Token], control: str) -> None:
        self._set_tokens("params", params)
        self._set_of("control", control, str)
        if len(control) != 1:
            raise FieldError(f"Unspecified: control must be one character, not {control!r}")

    def _row(self, params: Params) -> Row:
        return self._with_tokens(Row(self._kind, ord(self.control)), self.params, params)

    @classmethod
    def _of(cls, row: Row, tokens: Sequence[Token]) -> Action:
        return cls(tokens, chr(row.final))
