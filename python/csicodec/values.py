"""What actions and events are: values with named fields that stay as they are; and the colours and flags in them."""
from __future__ import annotations

from enum import IntFlag
from typing import Any, Tuple, Type, TypeVar, Union

from .error import FieldError

#: A parameter of an unknown control sequence: a number, or a character such as ';'.
Token = Union[int, str]


_V = TypeVar("_V", bound="Value")


class Slotted(type):
    """The type of values: one that names no slots has no further fields."""

    def __new__(mcs, name: str, bases: Tuple[type, ...], body: Any, **how: Any) -> Slotted:
        body.setdefault("__slots__", ())
        return super().__new__(mcs, name, bases, body, **how)


class Value(metaclass=Slotted):
    """Fields that are set once, by a constructor that checks them. Values of one type with equal fields are equal."""

    __match_args__: Tuple[str, ...] = ()

    @classmethod
    def _sure(cls: Type[_V], *values: object) -> _V:
        """One with these fields, which the library made, and which need no check."""
        it = object.__new__(cls)
        for field, value in zip(cls.__match_args__, values):
            object.__setattr__(it, field, value)
        return it

    def _set(self, field: str, value: object) -> None:
        object.__setattr__(self, field, value)

    def _set_of(self, field: str, value: object, *types: type) -> None:
        """Sets a field to a value of one of the types."""
        if not isinstance(value, types):
            wanted = " or ".join(it.__name__ for it in types)
            raise FieldError(f"{type(self).__qualname__}: {field} must be {wanted}, not {type(value).__name__}")
        self._set(field, value)

    def _set_whole(self, field: str, value: int, low: int, high: int) -> None:
        """Sets a field to a whole number of a range."""
        if not isinstance(value, int):
            raise FieldError(f"{type(self).__qualname__}: {field} must be int, not {type(value).__name__}")
        if not low <= value <= high:
            raise FieldError(f"{type(self).__qualname__}: {field} must be {low} to {high}, not {value}")
        self._set(field, value)

    def _set_member(self, field: str, value: int, kind: Type[int]) -> None:
        """Sets a field to the member of an enumeration with this number, which it mostly is itself. Flags may be any, of 16 bits."""
        try:
            member = kind(value)
            if not 0 <= member < 1 << 16:
                raise ValueError(value)
            self._set(field, member)
        except (TypeError, ValueError):
            raise FieldError(f"{type(self).__qualname__}: {field} must be {kind.__name__}, not {value!r}") from None

    def _values(self) -> Tuple[Any, ...]:
        return tuple([getattr(self, field) for field in self.__match_args__])

    def __setattr__(self, field: str, value: object) -> None:
        raise AttributeError(f"{type(self).__qualname__}: {field} can't be changed")

    def __delattr__(self, field: str) -> None:
        raise AttributeError(f"{type(self).__qualname__}: {field} can't be deleted")

    def __eq__(self, other: object) -> bool:
        if not isinstance(other, Value) or type(other) is not type(self):
            return NotImplemented
        return self._values() == other._values()

    def __hash__(self) -> int:
        return hash((type(self), self._values()))

    def __repr__(self) -> str:
        fields = ", ".join(f"{field}={getattr(self, field)!r}" for field in self.__match_args__)
        return f"{type(self).__qualname__}({fields})"

    def __reduce__(self) -> Tuple[Type[Value], Tuple[Any, ...]]:
        return type(self), self._values()

    def __replace__(self, **changes: Any) -> Any:
        """A copy with other values in these fields (`copy.replace` of Python 3.13 calls this)."""
        return type(self)(**{**dict(zip(self.__match_args__, self._values())), **changes})


class Group(Slotted):
    """The type of `Cursor`, `Sgr` and the like. What is declared in one of these is an instance of it, as of the class that it stands on."""

    def __instancecheck__(cls, instance: object) -> bool:
        return isinstance(instance, cls.__base__)

    def __call__(cls, *_: object, **__: object) -> Any:
        raise TypeError(f"{cls.__name__} has no instances of its own: it is what all that is in it is an instance of")


class DefaultColor(Value):
    """The terminal's own colour."""


class PaletteColor(Value):
    """A place in the palette, 0 to 255; the first 16 are the named colours."""

    __slots__ = __match_args__ = ("index",)
    index: int

    def __init__(self, index: int) -> None:
        self._set_whole("index", index, 0, 255)


class TrueColor(Value):
    """A colour by its parts, each 0 to 255; an alpha of 255 is opaque."""

    __slots__ = __match_args__ = ("red", "green", "blue", "alpha")
    red: int
    green: int
    blue: int
    alpha: int

    def __init__(self, red: int, green: int, blue: int, alpha: int = 255) -> None:
        self._set_whole("red", red, 0, 255)
        self._set_whole("green", green, 0, 255)
        self._set_whole("blue", blue, 0, 255)
        self._set_whole("alpha", alpha, 0, 255)


Color = Union[DefaultColor, PaletteColor, TrueColor]


class Modifiers(IntFlag):
    """The keys that are held down while another key or a button is pressed."""

    NONE = 0
    SHIFT = 2
    ALT = 4
    CTRL = 8


class KeyModifiers(IntFlag):
    """What is held down with a key, and the locks that are on, by the bits of kitty's protocol."""

    NONE = 0
    SHIFT = 1
    ALT = 2
    CTRL = 4
    #: The key of Windows, Command of a Mac; xterm's meta.
    SUPER = 8
    HYPER = 16
    META = 32
    CAPS_LOCK = 64
    NUM_LOCK = 128


class KittyKeyboardFlags(IntFlag):
    """How a program wants keys reported (kitty's keyboard protocol, progressive enhancement)."""

    NONE = 0
    #: Keys with ambiguous bytes, as Esc, are sent as control sequences.
    DISAMBIGUATE_ESCAPE_CODES = 1
    #: Reports say whether a key was pressed, repeated or released.
    REPORT_EVENT_TYPES = 2
    #: Reports also have the key with shift, and the key on the base layout.
    REPORT_ALTERNATE_KEYS = 4
    #: Keys that write text are sent as control sequences too.
    REPORT_ALL_KEYS_AS_ESCAPE_CODES = 8
    #: The control sequence of a key has the text that it writes.
    REPORT_ASSOCIATED_TEXT = 16
