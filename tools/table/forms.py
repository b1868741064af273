"""Forms of control sequences: a row of table/sequences.toml looks like what stands behind CSI, with its numbers in braces."""
import re
from dataclasses import dataclass
from itertools import zip_longest

LARGEST = 2**32 - 1
MOST = 12
# The byte at the front, the numbers, the intermediate byte and the final one.
FORM = re.compile(r"([<=>?]?)((?:\d+|\{[^{}]*\})(?:;(?:\d+|\{[^{}]*\}))*)?([ -/]?)([@-~])$")
# One number alone, or a name with its range, what it is where it is left out, and whether it may come again.
NUMBER = re.compile(r"(\d+)$|\{(\w+)(?::(\d+)(-\d*)?)?(?:=(\d+)(,0)?)?(\.\.)?\}$")


@dataclass(frozen=True)
class Slot:
    """A number of a form: its range, what it is where it is left out (none where it must stand there), whether 0 means that too, and whether it
    stands there as often as there is room for."""
    name: str
    first: int
    last: int
    missing: int | None
    as_zero: bool
    further: bool

    def shown(self):
        """`name` with its range, and what it is where it is left out."""
        if self.first == self.last:
            said = str(self.first)
        elif self.last == LARGEST:
            said = f"{self.name} {self.first}-" if self.first else self.name
        else:
            said = f"{self.name} {self.first}-{self.last}"
        return f"{said} .." if self.further else said if self.missing is None else f"{said} (or {self.missing})"

    def must(self):
        """Whether it must stand there."""
        return self.missing is None and not self.further

    def differs(self, other):
        """Whether no field is a number of both."""
        return (self.last < other.first or other.last < self.first) and (self.must() or other.must())


@dataclass(frozen=True)
class Form:
    """A form by its parts; a byte that isn't there is an empty text."""
    marker: str
    slots: tuple
    between: str
    final: str

    def shown(self):
        """The form as docs/SEQUENCES.md prints it."""
        parts = (self.marker, "; ".join(slot.shown() for slot in self.slots), "SP" if self.between == " " else self.between, self.final)
        return " ".join(part for part in parts if part)

    def values(self, text):
        """The values of a list that the form's numbers read; none where they don't. Nothing follows a `;` at the end."""
        fields, out = text.removesuffix(";").split(";") if text else [], []
        for place, slot in enumerate(self.places(len(fields))):
            field = fields[place] if place < len(fields) else ""
            value = int(field) if field else slot.missing
            if value is None or not slot.first <= value <= slot.last:
                return None
            out.append(value)
        return None if len(out) < len(fields) or len(out) > MOST else out

    def places(self, count):
        """A slot for each number where there are so many: the last one again where it may come again, and not at all where it need not."""
        plain = [slot for slot in self.slots if not slot.further]
        return plain + [slot for slot in self.slots[-1:] if slot.further] * (count - len(plain))

    def read(self, text):
        """The values of what stands behind CSI, if the form reads it."""
        found = re.fullmatch(f"{re.escape(self.marker)}([0-9;]*){re.escape(self.between + self.final)}", text)
        return self.values(found[1]) if found else None

    def is_apart(self, other):
        """Whether no list is read by both forms: their bytes differ, or a number does, or one has a number that must stand there and the other
        has none."""
        if (self.marker, self.between, self.final) != (other.marker, other.between, other.final):
            return True
        for one, two in zip_longest(self.places(MOST), other.places(MOST)):
            if one and two and one.differs(two) or (one and two is None and one.must()) or (two and one is None and two.must()):
                return True
            if one and one.further or two and two.further:
                return False
        return False

    def example(self):
        """The shortest text with the least numbers, behind CSI."""
        return self.marker + ";".join(str(slot.first) for slot in self.slots if not slot.further) + self.between + self.final


def slot_of(text):
    found = NUMBER.match(text)
    if not found:
        raise ValueError(f"no number: {text}")
    one, name, first, last, missing, zero, further = found.groups()
    least = int(one or first or 0)
    most = LARGEST if last == "-" or not one and first is None else int(last[1:]) if last else least
    if least > most or missing is not None and not least <= int(missing) <= most:
        raise ValueError(f"a range without a number, or what is left out isn't in it: {text}")
    return Slot((name or "which").replace("_", " "), least, most, None if missing is None else int(missing), bool(zero), bool(further))


def form_of(text):
    """The form that a text is; a ValueError says what is wrong with it."""
    found = FORM.match(text)
    if not found:
        raise ValueError(f"no form of a control sequence: {text}")
    marker, numbers, between, final = found.groups()
    slots = tuple(map(slot_of, numbers.split(";"))) if numbers else ()
    if any(slot.further for slot in slots[:-1]) or len(slots) > MOST:
        raise ValueError(f"only the last number may come again, and a row has up to {MOST} numbers: {text}")
    return Form(marker, slots, between, final)
