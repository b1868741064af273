"""table/sgr.toml: what numbers before `m` set. The rows become the enumeration SgrCode with its numbers, the arrays by which attributes are read
and written, and their words."""
import re

import actions
from attributes import Attributes, all_attributes, parts as line_parts
from checks import check_columns, check_once, refuse
from declared import Variant, in_turn
from layout import comment, keyed, packed, page_line, page_table, string
from read import first_line

TABLE = "sgr.toml"

CODES = """\
//! The numbers by which attributes of text are set (SGR).

SAID
#[derive(Clone, Copy, PartialEq, Eq, Debug)]
pub enum SgrCode {
VARIANTS
}

macro_rules! code {
    (()) => { None };
    ($name:ident) => { Some(SgrCode::$name) };
}

/// Codes, several on a line; `()` where a number is none.
macro_rules! codes {
    ($($code:tt,)*) => { [$(code!($code)),*] };
}

"""

NUMBERS = """\
-- The codes of attributes (SGR; ECMA-48, 8.3.117): the number of each.
use Rattle.std.specs.Prelude.{ℕ, List, [], ◌∷◌}
use Rattle.csicodec_names.specs.declared.codes.SgrCode.{SgrCode}
use Rattle.csicodec_names.specs.declared.codes.SgrCode.TheVariants as code

-- the number of each code, a line for each variant
abbrev pub number_of : SgrCode → ℕ
ROWS

-- all codes: the list must be complete
abbrev pub all_codes : List SgrCode
all_codes =
LIST
"""

ENTRIES = """\
//! What each number before `m` sets alone, and the text that sets it.

use crate::sgr::{Font, Sgr};
use csicodec_names::{TYPES};

/// What a number sets alone: the attribute, none where it sets none or can have further tokens; its text, ESC and `[` ahead of it; and how
/// long that is, 0 where there is none.
#[derive(Clone, Copy)]
pub(crate) struct Entry {
    pub attribute: Option<Sgr>,
    pub text: [u8; 8],
    pub len: u8,
}

macro_rules! entry {
    (()) => { Entry { attribute: None, text: [0, 0, 0, 0, 0, 0, 0, 0], len: 0 } };
    (($len:literal $($byte:literal)*: $attribute:expr)) => { Entry { attribute: Some($attribute), text: [0x1b, b'[', $($byte),*], len: $len } };
    (($a:literal, $b:literal, $c:literal $($set:tt)*)) => { entry!((6 $a $b $c b'm' 0 0: Sgr::$($set)*)) };
    (($a:literal, $b:literal $($set:tt)*)) => { entry!((5 $a $b b'm' 0 0 0: Sgr::$($set)*)) };
    (($a:literal $($set:tt)*)) => { entry!((4 $a b'm' 0 0 0 0: Sgr::$($set)*)) };
}

/// Entries, several on a line: the digits of what stands in the text ahead of `m`, and the attribute; `()` where a number sets none alone.
macro_rules! entries {
    ($($row:tt,)*) => { [$(entry!($row)),*] };
}

"""

ATTRIBUTES = """\
-- The attributes that codes set (SGR; ECMA-48, 8.3.117).
use Rattle.std.specs.Prelude.{ℕ, ◌-◌, nat_lt, if◌then◌else◌, Option, Some, None, true, false}
use Rattle.csicodec_names.specs.Numbers.{number_of}
use Rattle.csicodec_names.specs.declared.codes.SgrCode.{SgrCode}
use Rattle.csicodec_names.specs.declared.codes.SgrCode.TheVariants as code
use Rattle.csicodec_base.specs.declared.sgr.Sgr.{Sgr}
use Rattle.csicodec_base.specs.declared.sgr.Sgr.TheVariants as sgr
use Rattle.csicodec_names.specs.declared.color.Intensity.TheVariants as intensity
use Rattle.csicodec_names.specs.declared.color.Underline.TheVariants as underline
use Rattle.csicodec_names.specs.declared.color.Blink.TheVariants as blink
use Rattle.csicodec_names.specs.declared.color.VerticalAlign.TheVariants as align
use Rattle.csicodec_base.specs.declared.sgr.Font.TheVariants as font
use Rattle.csicodec_names.specs.declared.color.ColorSpec.TheVariants as color

-- the attribute of a number that counts what it sets: 11 to 19 a font; 30 to 37 a colour of the character and 40 to 47 one of the ground, of the
-- first 8 of the palette; and 90 to 97 and 100 to 107 one of the 8 bright ones behind them
abbrev pub counted : ℕ → Sgr
counted n =
    if nat_lt n 20 then sgr.Font (font.Alternate (n - 10))
    else if nat_lt n 38 then sgr.Foreground (color.PaletteIndex (n - 30))
    else if nat_lt n 48 then sgr.Background (color.PaletteIndex (n - 40))
    else if nat_lt n 98 then sgr.Foreground (color.PaletteIndex (n - 82))
    else sgr.Background (color.PaletteIndex (n - 92))

-- the attribute that each code sets alone, by its number where that counts; none for FURTHER, which can have further tokens or need them
abbrev pub action_of : SgrCode → Option Sgr
ROWS
action_of code = Some (counted (number_of code))
"""

ALONE = """\
//! What numbers before `m` set alone, as structs have it.

/// What a number sets alone: the kind of its struct (`enum csicodec_kind`), 0 where it sets nothing, and the two numbers of that.
#[derive(Clone, Copy)]
pub(crate) struct StyleRow(pub u8, pub u8, pub u8);

/// Rows, several on a line.
macro_rules! rows {
    ($(($($number:expr),*),)*) => { [$(StyleRow($($number),*)),*] };
}

"""

WORDS = """\
//! What attributes of text are called.

use csicodec_base::{ColorSpec, Sgr};

/// What stands ahead of the colour that an attribute has.
pub(crate) fn color_of(attribute: &Sgr) -> Option<(&'static str, &ColorSpec)> {
    match attribute {
ARMS
        _ => None,
    }
}

"""

ALIASES = {"Intensity": "intensity", "Underline": "underline", "Blink": "blink", "VerticalAlign": "align", "Font": "font", "ColorSpec": "color"}


def held():
    """What each attribute holds."""
    return {action.variant[0]: action.declared().holds or None for action in all_attributes()}


def numbers_of(name):
    """The numbers of an enumeration that has some."""
    return {variant.name: variant.number for variant in actions.types()[name].variants if variant.number is not None} if name in actions.types() else {}


class Attribute:
    """What a row sets, as each of the written files says it: `Variant`, `Variant(value)` or `Variant(value(number))`."""

    def __init__(self, table, key, sets):
        parts = re.fullmatch(r"(\w+)(?:\((\w+)(?:\((\d+)\))?\))?", sets)
        if not parts or parts[1] not in held():
            refuse(TABLE, key, f"there is no attribute {sets}")
        self.sets = sets
        self.variant, self.value, number = parts.groups()
        self.number = number and int(number)
        self.holds = held()[self.variant]
        self.ahead = table["attribute"].get(self.variant, {}).get("words") if self.holds == "ColorSpec" or number else None
        values = {None: {None}, "bool": {"true", "false"}, "ColorSpec": {"Default", "PaletteIndex"}, "Font": {"Default", "Alternate"}}
        bounds = {"PaletteIndex": range(len(table["colors"])), "Alternate": range(1, 10)}
        if self.value not in (values.get(self.holds) or numbers_of(self.holds)) or self.number not in bounds.get(self.value, [None]):
            refuse(TABLE, key, f"there is no attribute {sets}")

    def rust(self):
        return "Sgr::" + (self.sets if self.holds in (None, "bool") else self.sets.replace("(", f"({self.holds}::", 1))

    def antt(self):
        if not self.value:
            return f"sgr.{self.variant}"
        value = f"{ALIASES[self.holds]}.{self.value}" if self.holds in ALIASES else self.value
        return f"(sgr.{self.variant} {value})" if self.number is None else f"(sgr.{self.variant} ({value} {self.number}))"

    def struct(self):
        """The kind of its struct and the two numbers of that."""
        kind = next(action.number for action in all_attributes() if action.variant == (self.variant,))
        values = numbers_of(self.holds) or {None: 0, "true": 1, "false": 0, "Default": 0, "PaletteIndex": 1, "Alternate": self.number}
        return kind, values[self.value], self.number if self.value == "PaletteIndex" else 0


class Table:
    """The rows, and what is found in them."""

    def __init__(self, rows):
        self.code = {int(number): row for number, row in sorted(rows["code"].items(), key=lambda item: int(item[0]))}
        self.named = {number: row for number, row in self.code.items() if "name" in row}
        self.sets = {number: Attribute(rows, number, row["sets"]) for number, row in self.named.items() if "sets" in row}
        self.alone = {number: it for number, it in self.sets.items() if "further" not in self.code[number]}
        self.further = {key: Attribute(rows, key, row["sets"]) for key, row in rows["further"].items()}
        self.places = range(max(self.named) + 1)
        self.rows = rows

    def written(self, number):
        """The number that the attribute of this one is written by."""
        same = [other for other, it in self.sets.items() if it.sets == self.sets[number].sets and not self.code[other].get("also")]
        if len(same) != 1:
            refuse(TABLE, number, f"{len(same)} rows are the one that {self.code[number]['sets']} is written by, all others have `also = true`")
        return same[0]

    def attributes(self):
        """What each value of an attribute is written by, the number that the parts of a colour are behind, and the look of each attribute."""
        texts = {row["sets"]: str(number) for number, row in self.code.items() if "sets" in row and not row.get("also")}
        further = {row["further"]: number for number, row in self.code.items() if row.get("further", "underline") != "underline"}
        looks = {name: row["look"] for name, row in self.rows["attribute"].items() if "look" in row}
        return Attributes(texts | {row["sets"]: key for key, row in self.rows["further"].items()}, further, looks)

    def check(self):
        for number, row in self.code.items():
            needed = ["source"] if "name" in row and "sets" not in row else ["source", "says"]
            check_columns(TABLE, {number: row}, needed, ("name", "sets", "further", "also", "words", "says", "doc"))
            elsewhere = row.get("also") or number in self.sets and self.sets[number].ahead
            if "says" in needed and bool(row.get("words")) == bool(elsewhere):
                refuse(TABLE, number, "its words stand elsewhere" if elsewhere else "it has no words")
            if "name" in row and "sets" not in row and "further" not in row:
                refuse(TABLE, number, "it has a name and sets nothing")
            if number in self.sets:
                self.written(number)
        check_once(TABLE, self.code, "name")
        check_columns(TABLE, self.rows["further"], ("sets", "words", "source", "says"), ())
        check_columns(TABLE, self.rows["attribute"], (), ("words", "look"))
        for name in self.rows["attribute"]:
            if name not in held():
                refuse(TABLE, name, "there is no such attribute")


def codes(table):
    said = f'A number that `CSI .. m` (SGR, "select graphic rendition") has a meaning for: one of {len(table.named)} from 0 to {table.places[-1]}. '
    said += "Those whose comment names no other document are from ECMA-48, 8.3.117."
    enumeration = CODES.replace("SAID", "\n".join(comment(said)))
    enumeration = enumeration.replace("VARIANTS", "\n".join(line for number, row in table.named.items() for line in Variant(row["name"], row.get("doc", ""), number, str(number)).lines(True)))
    places = [table.named[place]["name"] if place in table.named else "()" for place in table.places]
    return enumeration + packed(f"The code of each number from 0 to {table.places[-1]}, a place for each, so that finding it is one look.", "CODES", "Option<SgrCode>", places, "codes")


def numbers(table):
    rows = "\n".join(f"number_of code.{row['name']} = {number}" for number, row in table.named.items())
    return NUMBERS.replace("ROWS", rows).replace("LIST", "\n".join(in_turn([f"code.{row['name']}" for row in table.named.values()])))


def entry(table, place):
    if place not in table.alone:
        return "()"
    written = ", ".join(f"b'{digit}'" for digit in str(table.written(place)))
    return f"({written} {table.alone[place].rust().removeprefix('Sgr::')})"


def types(attributes):
    """The types of what attributes hold, but for fonts."""
    return {it.holds for it in attributes} - {None, "bool", "Font"}


def entries(table):
    rows = [entry(table, place) for place in table.places]
    head = ENTRIES.replace("TYPES", ", ".join(sorted(types(table.alone.values()))))
    return head + packed(f"Each number from 0 to {table.places[-1]}, a place for each.", "ENTRIES", "Entry", rows, "entries")


# The numbers that count what they set: the first of some, the last, the variant, and what the first one sets.
COUNTED = ((11, 19, "Font", "Alternate", 1), (30, 37, "Foreground", "PaletteIndex", 0), (40, 47, "Background", "PaletteIndex", 0), (90, 97, "Foreground", "PaletteIndex", 8),
           (100, 107, "Background", "PaletteIndex", 8))


def counted(table, number):
    """Whether a number is among those that count what they set."""
    it = table.alone.get(number)
    return any(first <= number <= last and it and (it.variant, it.value, it.number) == (variant, value, number - first + of) for first, last, variant, value, of in COUNTED)


def attributes(table):
    rows = [f"action_of code.{row['name']} = " + (f"Some {table.alone[number].antt()}" if number in table.alone else "None") for number, row in table.named.items() if not counted(table, number)]
    *first, last = [str(number) for number in table.named if number not in table.alone]
    return ATTRIBUTES.replace("ROWS", "\n".join(rows)).replace("FURTHER", f"{', '.join(first)} and {last}")


def alone(table):
    rows = ["(%d, %d, %d)" % (table.sets[place].struct() if place in table.sets else (0, 0, 0)) for place in table.places]
    return ALONE + packed(f"What each number from 0 to {table.places[-1]} sets, where no `:` is behind it.", "STYLES", "StyleRow", rows, "rows")


def color_arms(table):
    """An arm for each attribute that is a colour."""
    said = {it.variant: it.ahead for it in (*table.sets.values(), *table.further.values()) if it.ahead and it.holds == "ColorSpec"}
    return [f'        Sgr::{variant}(color) => Some(({string(f"SGR  {ahead} ")}, color)),' for variant, ahead in said.items()]


def attribute_words(table):
    """The words of attributes by the text that sets each, and of numbers that no action reads."""
    for key, row in (*table.code.items(), *table.rows["further"].items()):
        attribute = table.sets.get(key) or table.further.get(key)
        if row.get("words"):
            yield key, f"SGR  {row['words']}"
        elif attribute and attribute.holds == "Font" and attribute.ahead:
            yield key, f"SGR  {attribute.ahead} {attribute.number}"


def words(table):
    said = "The first 16 of the palette: the names of ECMA-48 for the first 8, and `bright` ahead for the next."
    attributes = "Attributes without a colour: the text that sets each, a tab and the words. Some are set by no action."
    arrays = packed(said, "COLORS", "&str", [string(color) for color in table.rows["colors"]]) + "\n" + keyed(attributes, "ATTRIBUTES", attribute_words(table))
    return WORDS.replace("ARMS", "\n".join(color_arms(table))) + arrays


PAGE = """\
# Attributes of text

This page is for you if you look up a colour or a style. It has what each number before `m` sets (SGR), and the variant of `SgrCode` where it
has one. A number without one is read by no action.

NUMBERS
Next: [SPECIFICATION](SPECIFICATION.md#the-table-of-spellings-before-m) has what may stand behind a number, as the colours behind 38, and
[CONTRIBUTING](../CONTRIBUTING.md#an-sgr-code) says how to add one.
"""


def sets(table, number):
    """What a number sets, as a page says it."""
    row = table.code[number]
    further = {None: "", "underline": ", or by the number behind a colon"}
    return row.get("sets", "") + further.get(row.get("further"), f"{row.get('further')} of the colour behind it")


def said(table, number):
    """What explain says of it."""
    row = table.code[table.written(number) if number in table.sets else number]
    if row.get("words"):
        return row["words"]
    if number not in table.sets:
        return f"{table.rows['attribute'][row['further']]['words']} .."
    attribute = table.sets[number]
    value = {"Default": "default", "PaletteIndex": table.rows["colors"][attribute.number or 0]}.get(attribute.value, attribute.number)
    return f"{attribute.ahead} {value}"


def page(table):
    rows = [[str(number), row.get("name", ""), sets(table, number), said(table, number), row["source"]] for number, row in table.code.items()]
    return PAGE.replace("NUMBERS", page_table(["number", "name", "sets", "words", "source"], rows))


def files(rows):
    table = Table(rows)
    table.check()
    written = {
        "csicodec_names/src/codes.rt": codes, "csicodec_names/specs/Numbers.antt": numbers,
        "csicodec_base/src/entries.rt": entries, "csicodec_base/specs/Attributes.antt": attributes,
        "csicodec_structs/src/by_number.rt": alone, "csicodec_words/src/sgr_words.rt": words,
    }
    texts = {f"crates/{path}": first_line(TABLE, "--" if path.endswith(".antt") else "//") + of(table) for path, of in written.items()}
    return {**texts, **line_parts(table.attributes()), "docs/SGR.md": page_line(TABLE) + page(table)}
