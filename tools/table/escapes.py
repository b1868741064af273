"""table/escapes.toml: escape sequences and character sets. Those with a name become the enumeration EscCode with its numbers, the others arrays of
words."""
from declared import Type, Variant
from checks import check_columns, check_once, refuse
from layout import code, keyed, packed, page_line, page_table, rows_of_parts, string
from read import first_line, rows_of

TABLE = "escapes.toml"

CODES = """\
//! The codes of escape sequences.
ghost use Rattle.std.specs.Prelude.{◌≡◌, ◌↔◌, Some};
ghost use Rattle.csicodec_names.specs.Esc.{esc_number};

DECLARATION
"""
# The comment of the type.
DOC = "The codes of escape sequences. A code's number is that of its last character, and 256 times that of the one before it, if any."

FIND = """
impl EscCode {
    /// The code of that number, or none where no code has it.
    ///
    /// ```text
    /// EscCode::from_u16(0x4f53)           // Some(F4Press), "\\x1bOS"
    /// ```
    pub fn from_u16(number: u16) -> Option<Self>
        ensures { (code : EscCode) → (result ≡ Some code) ↔ (number ≡ esc_number code) }
    {
        numbered! { number, EscCode:
ARMS
        }
    }
}
"""

ANTT = """\
-- The codes of escape sequences: the one or two characters that stand after ESC.
use Rattle.std.specs.Prelude.{ℕ, List, codes}
use Rattle.csicodec_names.specs.declared.esc_codes.EscCode.{EscCode}
use Rattle.csicodec_names.specs.declared.esc_codes.EscCode.TheVariants as code

-- a line for each variant
abbrev pub characters_of : EscCode → List ℕ
ROWS
"""

PLACES = {"(": "G0", ")": "G1"}
STRINGS = "X^_k"


def number(key):
    """The number of a code."""
    return f"{int.from_bytes(key.encode('latin-1')):#x}"


def types():
    """The enumeration."""
    variants = [Variant(row["name"], row["doc"], int(number(key), 0), number(key)) for key, row in named(rows_of(TABLE)).items()]
    yield Type("EscCode", "csicodec_names/src/esc_codes.rt", DOC, "Clone, Copy, PartialEq, Eq, Debug", variants, "ESC")


def named(rows):
    return {key: row for key, row in rows["code"].items() if "name" in row}


def codes(rows):
    arms = rows_of_parts([f"{number(key)} {row['name']}" for key, row in named(rows).items()], " " * 12)
    return CODES.replace("DECLARATION", "\n".join(next(types()).lines())) + FIND.replace("ARMS", "\n".join(arms))


def characters(rows):
    return ANTT.replace("ROWS", "\n".join(f"characters_of code.{row['name']} = codes {string(key)}" for key, row in named(rows).items()))


def said(rows, key):
    """The words of a row, which are those of its set where it designates one."""
    if key[0] in PLACES:
        return f"SCS  {PLACES[key[0]]}: {rows['sets_94'][key[1:]]['words']}"
    return rows["code"][key]["words"]


def sequences(rows):
    """src/escape_rows.rt of csicodec_words: those with words of their own, and the sets."""
    arrays = (
        ("NAMES", "Those with a name: their bytes behind ESC, a tab and the words, as all that follow.", {key: row for key, row in rows["code"].items() if "words" in row}),
        ("OTHERS", "What any other sequence is that has these intermediate bytes.", rows["other"]),
        ("SETS", "Sets of 94 characters, by what stands behind the byte that says what they become.", rows["sets_94"]),
        ("SETS_OF_96", "Sets of 96 characters.", rows["sets_96"]),
        ("SETS_OF_SEVERAL", "Sets of which each character has several bytes.", rows["sets_several"]),
    )
    controls = "The set C0, by its bytes: the name of each, and what it does; ESC stands in no text."
    tables = [packed(controls, "CONTROLS", "&str", [string(rows["control"].get(f"{byte:02x}", {"words": "control"})["words"]) for byte in range(32)])]
    tables += (keyed(about, name, [(key, row["words"]) for key, row in of.items()]) for name, about, of in arrays)
    return "\n".join(["//! Escape sequences and character sets in words.\n", *tables])


PAGE = """\
# Escape sequences and character sets

This page is for you if you look up an escape sequence, or what selects a character set. It has what `explain` says of each, and the variant
of `EscCode` where it has one. A sequence without one is `Unspecified`. A blank stands as SP.

SEQUENCES
## Other sequences by their intermediate bytes

BETWEEN
## Character sets

A set becomes G0 behind `(`, G1 behind `)`, G2 behind `*` and G3 behind `+`. One of 96 characters becomes G1 behind `-`, G2 behind `.` and G3
behind `/`. One of several bytes has `$` ahead. This is ECMA-35, 14.3.2.

SETS
Next: [SPECIFICATION](SPECIFICATION.md#escape-sequences) says how an escape sequence is read and written, and [SEQUENCES](SEQUENCES.md) has
control sequences.
"""


def shown(key):
    """The bytes of a key, apart."""
    return code(" ".join("SP" if character == " " else character for character in key))


def page(rows):
    codes = [["ESC " + shown(key), row.get("name", ""), said(rows, key), row["source"]] for key, row in rows["code"].items()]
    between = [["ESC " + shown(key), row["words"], row["source"]] for key, row in rows["other"].items()]
    kinds = (("94", "sets_94"), ("96", "sets_96"), ("several bytes", "sets_several"))
    sets = [[shown(key), characters, row["words"], row["source"]] for characters, name in kinds for key, row in rows[name].items()]
    text = PAGE.replace("SEQUENCES\n", page_table(["sequence", "name", "words", "source"], codes) + "\n")
    text = text.replace("BETWEEN\n", page_table(["begins", "words", "source"], between) + "\n")
    return text.replace("SETS", page_table(["bytes", "characters", "set", "source"], sets))


def begins_more(key):
    """Whether explain tells it with what follows: a string, or a key behind SS3."""
    return key in STRINGS or key[:-1] == "O"


def check(rows):
    for key, row in rows["code"].items():
        words = [] if key[0] in PLACES else ["words"]
        name = ["name", "doc"] if "name" in row else []
        example = [] if begins_more(key) else ["says"]
        check_columns(TABLE, {key: row}, ["source", *words, *name, *example], ())
        if name and not row["doc"].startswith(f"`ESC {' '.join(key)}`"):
            refuse(TABLE, key, "its doc begins with another sequence")
    for name in ("other", "sets_94", "sets_96", "sets_several"):
        check_columns(TABLE, rows[name], ("words", "source", "says"), ())
    check_columns(TABLE, rows["control"], ("words",), ())
    check_once(TABLE, rows["code"], "name")


def files(rows):
    check(rows)
    return {
        "crates/csicodec_names/src/esc_codes.rt": first_line(TABLE) + codes(rows),
        "crates/csicodec_names/specs/EscCodes.antt": first_line(TABLE, "--") + characters(rows),
        "crates/csicodec_words/src/escape_rows.rt": first_line(TABLE) + sequences(rows),
        "docs/ESCAPES.md": page_line(TABLE) + page(rows),
    }
