"""The keys: csicodec_keys' type and tables, and what `explain` calls a key."""
import itertools
import re
import sys
import textwrap

from checks import refuse
from layout import folded, packed, string
from read import first_line

TABLE = "keys.toml"
# The columns: the final that each row of the table of csicodec_keys has, and what the table is.
COLUMNS = {
    "control": (None, "C0 controls and DEL (xterm, as a keyboard of ASCII sends them; ctrl takes 64 off)."),
    "ss3": (None, "Behind SS3: F1 to F4, and the keypad in its application mode (xterm ctlseqs, PC-Style and VT220-Style Function Keys)."),
    "ss3_cursor": (None, "Behind SS3: the cursor keys in their application mode (xterm ctlseqs, Cursor Keys), which are written as control sequences."),
    "csi": ("", "Control sequences that xterm and kitty share (xterm ctlseqs, PC-Style Function Keys; kitty, Legacy functional keys)."),
    "kitty": ("u", "Numbers before `u` (kitty, Functional key definitions)."),
    "other": ("~", "Numbers behind `27 ;` and the modifiers, before `~` (xterm ctlseqs, Alt and Meta Keys)."),
    "rxvt": ("", "rxvt's own, before `~`, `$` with shift, `^` with ctrl and `@` with both, and its arrows with shift (rxvt, Key codes)."),
    "rxvt_ss3": (None, "rxvt's arrows with ctrl, behind SS3 (rxvt, Key codes)."),
    "linux": (None, "Behind `CSI [`: F1 to F5 of Linux' console (console_codes(4))."),
    "win32": ("_", "Virtual keys before `_` in Win32-input-mode (Microsoft, Virtual-Key Codes), 256 more for an enhanced key (KEY_EVENT_RECORD)."),
}
# The variant of Table for each.
VARIANTS = {column: "".join(word.capitalize() for word in column.split("_")) for column in COLUMNS}
HELD = {"shift": 1, "alt": 2, "ctrl": 4}
ESCAPES = {"\0": "\\0", "\t": "\\t", "\n": "\\n", "\r": "\\r", "\\": "\\\\", "'": "\\'"}


def literal(character):
    """A character of Rust."""
    number = ord(character)
    plain = character if 32 <= number < 127 else f"\\x{number:02x}" if number < 128 else f"\\u{{{number:x}}}"
    return f"'{ESCAPES.get(character, plain)}'"


class Form:
    """A way of sending a key: its number, its final or its character alone, and what that says is held down."""

    def __init__(self, column, said):
        final = COLUMNS[column][0]
        if final:
            self.number, self.control, held = said, final, []
        elif final is None:
            self.number, self.control, held = 0, said[0], said[1:].split()
        else:
            number, self.control, *held = said.split()
            self.number = int(number)
        for key in held:
            if key not in HELD:
                refuse(TABLE, said, f"there is no modifier {key}")
        self.held = sum(HELD[key] for key in held)


class Key:
    """A key by its constructor, and its forms by their columns."""

    def __init__(self, code, row):
        self.code, self.words, self.doc = code, row.get("words"), row.get("doc")
        self.forms = {column: [Form(column, said) for said in (cell if isinstance(cell, list) else [cell])] for column, cell in row.items() if column in COLUMNS}


def keys_of(tables):
    yield from (Key(f"KeyCode::{name}", row) for name, row in tables["named"].items())
    yield from (Key(f"KeyCode::F({number})", row) for number, row in tables["F"].items())
    yield from (Key(f"KeyCode::Char({literal(character)})", row) for character, row in tables["Char"].items())


def faults(tables, keys):
    """What a row lacks, or has too much; and two keys of one form."""
    for name, rows in tables.items():
        wanted = {"words", "doc"} if name == "named" else set()
        for row, of in rows.items():
            lacks, more = wanted - of.keys(), of.keys() - wanted - COLUMNS.keys()
            if lacks or more:
                yield f"[{name}] {row}: {'no ' + ', '.join(sorted(lacks)) if lacks else 'nothing reads ' + ', '.join(sorted(more))}"
    yield from (f"{key.code}: nothing sends it" for key in keys if not key.forms)
    for column in COLUMNS:
        seen = {}
        for key in keys:
            for form in key.forms.get(column, []):
                other = seen.setdefault((form.number, form.control), key.code)
                if other != key.code:
                    yield f"{column}: {key.code} has the form of {other}"


def code_rt(named):
    """src/code.rt of csicodec_keys."""
    lines = ["//! Which key it is.", "ghost use Rattle.std.specs.Prelude.{◌≡◌};", "ghost use Rattle.csicodec_keys.specs.SameKeys.{code_tag, code_value, same_code};", "",
             "/// A key: one that types a character, or one with a name. The same key of the keypad is another one.", "#[derive(Clone, Copy, Debug, PartialEq, Eq)]", "pub enum KeyCode {",
             "    /// The key of this character, as it types it without modifiers: `'a'`, also where shift makes it `'A'`. Where the encoding says",
             "    /// only what is typed, it is that: `'A'`.", "    Char(char),", "    /// A function key, from 1 on.", "    F(u8),"]
    for name, row in named.items():
        lines += [f"    /// {row['doc']}", f"    {name},"]
    lines += ["}", "", "/// The number of each key with a name.", "macro_rules! tags {", "    ($key:expr, $($name:ident $tag:literal),*) => {", "        match $key {",
              "            KeyCode::Char(_) => 0,", "            KeyCode::F(_) => 1,", "            $(KeyCode::$name => $tag,)*", "        }", "    };", "}", "", "impl KeyCode {", "    /// Whether both are one key.", "    pub(crate) fn same(self, other: KeyCode) -> bool", "        ensures { result ≡ same_code self other }", "    {",
              "        self.tag() == other.tag() && self.value() == other.value()", "    }", "", "    /// The character of a key that types one, the number of a function key, and 0 of any other.", "    pub fn value(self) -> u32",
              "        ensures { result ≡ code_value self }", "    {", "        match self {", "            KeyCode::Char(character) => character as u32,",
              "            KeyCode::F(number) => u32::from(number),", "            _ => 0,", "        }", "    }", "", "    /// Which key it is, whatever its value: 0 for a character, 1 for a function key, and a number of its own for each other.", "    pub fn tag(self) -> u8",
              "        ensures { result ≡ code_tag self }", "    {", "        tags! {"]
    arms = ", ".join(f"{name}\0{tag}" for tag, name in enumerate(named, 2))
    rows = textwrap.wrap(f"self, {arms}", 110, initial_indent="            ", subsequent_indent="            ", break_on_hyphens=False)
    return "\n".join([*lines, *(row.replace("\0", " ") for row in rows), "        }", "    }", "}"]) + "\n"


MACROS = """/// Keys by their number: those of one final character together, with what is held down.
macro_rules! by_number {
    ($($control:literal, $held:literal: $($name:ident$(($of:literal))? $number:literal),*;)*) => {
        [$($(Row { code: KeyCode::$name$(($of))?, held: $held, number: $number, control: $control },)*)*]
    };
}

/// Keys by their character: those of one number together, with what is held down.
macro_rules! by_character {
    ($($number:literal, $held:literal: $($name:ident$(($of:literal))? $control:literal),*;)*) => {
        [$($(Row { code: KeyCode::$name$(($of))?, held: $held, number: $number, control: $control },)*)*]
    };
}

/// Keys whose number has a final character for each of several modifiers: what is held down, and the character.
macro_rules! finals {
    ($($code:expr, $number:literal: $($held:literal $control:literal),*;)*) => {
        [$($(Row { code: $code, held: $held, number: $number, control: $control },)*)*]
    };
}
"""
# How the rows of a table stand together: the macro, what the rows of a line share, and what each has.
BY_NUMBER = ("by_number", lambda name, form: f"{literal(form.control)}, {form.held}", lambda name, form: f"{name} {form.number}")
BY_CHARACTER = ("by_character", lambda name, form: f"{form.number}, {form.held}", lambda name, form: f"{name} {literal(form.control)}")
FINALS = ("finals", lambda name, form: f"KeyCode::{name}, {form.number}", lambda name, form: f"{form.held} {literal(form.control)}")


def table_rt(column, forms):
    """A table's rows, those that share the most in one line or several."""
    final = COLUMNS[column][0]
    macro, shared, own = BY_NUMBER if final or column == "csi" else BY_CHARACTER if final is None else FINALS
    lines = []
    for ahead, several in itertools.groupby(forms, lambda row: shared(*row)):
        said = f"{ahead}: {', '.join(own(*row) for row in several)};".replace(", ", ",\0").replace(" ", "\1").replace("\0", " ")
        wrapped = textwrap.wrap(said, 110, initial_indent="    ", subsequent_indent="        ", break_long_words=False, break_on_hyphens=False)
        lines += [line.replace("\1", " ") for line in wrapped]
    return [f"static {column.upper()}: [Row; {len(forms)}] = {macro}! {{", *lines, "};", ""]


def rows_rt(keys):
    """src/rows.rt of csicodec_keys."""
    lines = ["//! The tables: which number and which final character stand for a key.", "ghost use Rattle.std.specs.Prelude.{◌≡◌};",
             "ghost use Rattle.csicodec_keys.specs.Tables.{rows};", "", "use crate::code::KeyCode;", "use crate::tables::Row;", "",
             "/// A table of keys.", "#[derive(Clone, Copy)]", "pub(crate) enum Table {"]
    for column, (_, doc) in COLUMNS.items():
        lines += [f"    /// {doc}", f"    {VARIANTS[column]},"]
    lines += ["}", "", *MACROS.split("\n")]
    for column in COLUMNS:
        lines += table_rt(column, [(key.code.removeprefix("KeyCode::"), form) for key in keys for form in key.forms.get(column, [])])
    lines += ["impl Table {", "    #[tactic(auto, unfolding(crate::specs::Tables::rows))]", "    pub(crate) fn rows(self) -> &'static [Row]", "        ensures { result.now ≡ rows self }",
              "    {", "        match self {"]
    return "\n".join([*lines, *(f"            Table::{variant} => &{column.upper()}," for column, variant in VARIANTS.items()), "        }", "    }", "}"]) + "\n"


def tables_antt():
    """specs/Tables.antt of csicodec_keys."""
    lines = ["-- The rows of each table of keys, which stand in src/rows.rt, each table with its source.", "use Rattle.std.specs.Prelude.{List}",
             "use Rattle.csicodec_keys.specs.{declared.rows.Table.Table, declared.tables.Row.Row}",
             f"use Rattle.csicodec_keys.specs.declared.rows.TheConstants.{{{', '.join(sorted(column.upper() for column in COLUMNS))}}}",
             "use Rattle.csicodec_keys.specs.declared.rows.Table.TheVariants as table", "", "unfoldable pub rows : Table → List Row"]
    return "\n".join([*lines, *(f"rows table.{variant} = {column.upper()}" for column, variant in VARIANTS.items())]) + "\n"


def named_antt(named):
    """proofs/Named.antt of csicodec_keys."""
    lines = ["-- All keys with a name alone, in the order of their tags.", "use Rattle.std.proofs.Common.{List, [], ◌∷◌}", "use Rattle.csicodec_keys.specs.declared.code.KeyCode.{KeyCode}",
             "use Rattle.csicodec_keys.specs.declared.code.KeyCode.TheVariants as code", "", "unfoldable pub named : List KeyCode"]
    return "\n".join([*lines, folded("named", [*(f"code.{name}" for name in named), "[]"], "∷")]) + "\n"


def words_rt(named):
    """src/key_words.rt of csicodec_words."""
    said = "What keys with a name are called, by their tags from 2 on: 0 is a character, and 1 a function key."
    return "//! What keys are called.\n\n" + packed(said, "KEYS", "&str", [string(row["words"]) for row in named.values()])


def files(tables):
    keys, named = list(keys_of(tables)), tables["named"]
    wrong = [*faults(tables, keys), *(f"[named] {name} is no name" for name in named if not re.fullmatch(r"[A-Z]\w+", name))]
    if wrong:
        sys.exit("\n".join(f"table/{TABLE}: {fault}" for fault in wrong))
    rust, antt = first_line(TABLE), first_line(TABLE, "--")
    return {
        "crates/csicodec_keys/src/code.rt": rust + code_rt(named),
        "crates/csicodec_keys/src/rows.rt": rust + rows_rt(keys),
        "crates/csicodec_keys/specs/Tables.antt": antt + tables_antt(),
        "crates/csicodec_keys/proofs/Named.antt": antt + named_antt(named),
        "crates/csicodec_words/src/key_words.rt": rust + words_rt(named),
    }
