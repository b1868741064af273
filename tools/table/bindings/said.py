"""What OSC say, and keys: the rows of table/osc.toml and table/keys.toml as enumerations."""
import keys
import osc
from bindings.library import snake
from bindings.rust import SERDE
from read import rows_of

PREFIXES = {"OscKind": "CSICODEC_OSC_", "KeyCode": "CSICODEC_KEY_"}


def osc_kinds():
    """Each command of OSC: its name, its number in C, and what it says."""
    yield "Unknown", 0, "What no command reads; its text is all of it."
    for name, number, said in osc.commands(rows_of(osc.TABLE)):
        yield name, number, said


def key_codes():
    """Each key in the same way."""
    yield "Char", 0, "The key of a character, as it types it without modifiers: `a`, also where shift makes it `A`. Where the encoding says only what is typed, it is that."
    yield "F", 1, "A function key, by its number."
    for number, (name, row) in enumerate(rows_of(keys.TABLE)["named"].items(), 2):
        yield name, number, row["doc"]


def said_enumerations():
    yield "OscKind", "Which command an OSC is.", list(osc_kinds())
    yield "KeyCode", "Which key it is. The same key of the keypad is another one.", list(key_codes())


def c_enumerations(comment):
    """Both in C; `comment` lays out a comment."""
    out = ""
    for name, docs, rows in said_enumerations():
        out += "\n" + comment(docs, "") + f"enum csicodec_{snake(name).lower()} {{\n"
        out += ",\n".join(comment(said) + f"    {PREFIXES[name]}{snake(variant)} = {number}" for variant, number, said in rows) + "\n};\n"
    return out


def c_names():
    """What gives the name of a command of OSC, and of a key, in C."""
    of = {"OscKind": ("osc", "a command of OSC", "CSICODEC_OSC_TITLE_WINDOW"), "KeyCode": ("key", "a key", "CSICODEC_KEY_HOME")}
    for name, _, rows in said_enumerations():
        word, what, example = of[name]
        yield f"the name of {what} in this header, such as \"{example}\"", f"csicodec_{word}_name", [PREFIXES[name] + snake(variant) for variant, _, _ in rows]


def rust_osc():
    """rust/src/osc_kinds.rs."""
    _, docs, rows = next(said_enumerations())
    out = f"//! The commands of OSC. Written by tools/table.\n\n/// {docs} The numbers are those of `enum csicodec_osc_kind`.\n#[derive(Clone, Copy, Debug, PartialEq, Eq, Hash)]\n{SERDE}#[non_exhaustive]\npub enum OscKind {{\n"
    out += "".join(f"    /// {said}\n    {variant} = {number},\n" for variant, number, said in rows)
    out += "}\n\nimpl OscKind {\n    /// The command of a number.\n    pub(crate) fn of(number: u32) -> OscKind {\n        match number {\n"
    out += "".join(f"            {number} => OscKind::{variant},\n" for variant, number, _ in rows[1:])
    out += "            _ => OscKind::Unknown,\n        }\n    }\n\n    /// Its name, such as `TitleWindow`.\n    pub fn name(&self) -> &'static str {\n        match self {\n"
    out += "".join(f'            OscKind::{variant} => "{variant}",\n' for variant, _, _ in rows)
    return out + "        }\n    }\n}\n"


def rust_keys():
    """rust/src/key_codes.rs."""
    _, docs, rows = list(said_enumerations())[1]
    values = {"Char": "(char)", "F": "(u8)"}
    out = f"//! Keys. Written by tools/table.\n\n/// {docs}\n#[derive(Clone, Copy, Debug, PartialEq, Eq, Hash)]\n{SERDE}#[non_exhaustive]\npub enum KeyCode {{\n"
    out += "".join(f"    /// {said}\n    {variant}{values.get(variant, '')},\n" for variant, _, said in rows)
    out += "}\n\nimpl KeyCode {\n    /// The key of a number, and its value.\n    pub(crate) fn of(number: u32, value: u32) -> KeyCode {\n        match number {\n"
    out += "            1 => KeyCode::F(value as u8),\n" + "".join(f"            {number} => KeyCode::{variant},\n" for variant, number, _ in rows[2:])
    return out + "            _ => KeyCode::Char(char::from_u32(value).unwrap_or('\\u{FFFD}')),\n        }\n    }\n}\n"
