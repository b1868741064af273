"""table/modes.toml: what modes are called. Their names become two enumerations with their numbers, their words two arrays."""
from declared import Type, Variant, in_turn
from checks import check_columns, check_once, refuse
from core import IN_LINE, STEPS, TEXT, arms_of_steps, lines_of_steps
from layout import keyed, page_line, page_table, rows_of_parts
from parts import Part
from read import first_line, rows_of

TABLE = "modes.toml"

RUST = """\
//! The numbers of modes that have a name.
ghost use Rattle.std.specs.Prelude.{◌≡◌, ◌↔◌, Some, pos};
ghost use Rattle.csicodec_names.specs.{ModeNumbers.dec_codes, ModeNumbers.dec_mode_number, ModeNumbers.terminal_codes, ModeNumbers.terminal_mode_number};
ghost use Rattle.csicodec_names.specs.{Numbered.with_number};
"""

# The comments of both types.
PRIVATE = """\
A private mode: one that `CSI ? .. h` sets and `CSI ? .. l` resets. Those of DEC (VT510, VT382) begin with the name that DEC gave
them; where the others are from is said at each."""
TERMINAL = "A mode that `CSI .. h` sets and `CSI .. l` resets (SM and RM; ECMA-48, 8.3.125 and 8.3.106)."

KIND = """
DECLARATION

impl KIND {
    /// The number of this mode.
    pub fn to_i64(&self) -> i64
        ensures { result ≡ pos (NUMBER self.now) }
    {
        *self as i64
    }

    /// The mode that has this number, and none where no mode has it.
    pub fn from_i64(number: i64) -> Option<Self>
        ensures each { (mode : KIND) → (result ≡ Some mode)
            ↔ (number ≡ pos (NUMBER mode)) }
        ensures listed { result ≡ with_number NUMBER CODES number }
    {
        numbered! { number, KIND:
ARMS
        }
    }
}
"""

ANTT = """\
-- The numbers of modes that have a name.
use Rattle.std.specs.Prelude.{ℕ, List, [], ◌∷◌}
use Rattle.csicodec_names.specs.declared.modes.DecPrivateModeCode.{DecPrivateModeCode}
use Rattle.csicodec_names.specs.declared.modes.DecPrivateModeCode.TheVariants as dec
use Rattle.csicodec_names.specs.declared.modes.TerminalModeCode.{TerminalModeCode}
use Rattle.csicodec_names.specs.declared.modes.TerminalModeCode.TheVariants as terminal

-- private modes, of DEC and of other terminals, a line for each variant
abbrev pub dec_mode_number : DecPrivateModeCode → ℕ
DEC_NUMBERS

-- all private modes with a name: the list must be complete
abbrev pub dec_codes : List DecPrivateModeCode
dec_codes =
DEC_CODES

-- modes of the standard (ECMA-48, 7.2), and two of terminals, a line for each variant
abbrev pub terminal_mode_number : TerminalModeCode → ℕ
TERMINAL_NUMBERS

-- all modes with a name that are not private: the list must be complete
abbrev pub terminal_codes : List TerminalModeCode
terminal_codes =
TERMINAL_CODES
"""


def named(rows):
    """The number and the name of each mode with a name."""
    return [(number, row["name"]) for number, row in rows.items() if "name" in row]


def types():
    """Both enumerations."""
    rows = rows_of(TABLE)
    for name, kind, doc in ("DecPrivateModeCode", "private", PRIVATE), ("TerminalModeCode", "terminal", TERMINAL):
        variants = [Variant(row["name"], row["doc"], int(number), number) for number, row in rows[kind].items() if "name" in row]
        prefix = {"private": "DEC_PRIVATE_MODE", "terminal": "TERMINAL_MODE"}[kind]
        yield Type(name, "csicodec_names/src/modes.rt", doc, "Clone, Copy, PartialEq, Eq, Debug", variants, prefix)


def kind(declared, number):
    """An enumeration, and both ways between it and its numbers."""
    arms = rows_of_parts([f"{mode.number} {mode.name}" for mode in declared.variants], " " * 12)
    return KIND.replace("KIND", declared.name).replace("NUMBER", number).replace("CODES", number.replace("mode_number", "codes")).replace("DECLARATION", "\n".join(declared.lines())).replace("ARMS", "\n".join(arms))


def numbers(function, module, rows):
    return "\n".join(f"{function} {module}.{name} = {number}" for number, name in named(rows))


def specs(private, terminal):
    parts = {
        "DEC_NUMBERS": numbers("dec_mode_number", "dec", private), "DEC_CODES": "\n".join(in_turn([f"dec.{name}" for _, name in named(private)])),
        "TERMINAL_NUMBERS": numbers("terminal_mode_number", "terminal", terminal), "TERMINAL_CODES": "\n".join(in_turn([f"terminal.{name}" for _, name in named(terminal)])),
    }
    text = ANTT
    for name, part in parts.items():
        text = text.replace(f"\n{name}\n", f"\n{part}\n")
    return text


def words(said, name, rows, column):
    return "\n" + keyed(said, name, [(number, row[column]) for number, row in rows.items() if column in row])


PAGE = """\
# Modes

This page is for you if you look up what `CSI ? 25 h` or another mode does. It has what `explain` calls each mode, and the variant of
`DecPrivateModeCode` or `TerminalModeCode` where it has one. A mode without one is `Unspecified`.

## Private modes

`CSI ? number h` sets one, and `CSI ? number l` resets it.

PRIVATE
## Modes of the standard

`CSI number h` sets one, and `CSI number l` resets it.

TERMINAL
Next: [SPECIFICATION](SPECIFICATION.md#modes) says how a list of modes is read, and [CONTRIBUTING](../CONTRIBUTING.md#a-first-change) how to
add one.
"""


def page_rows(rows):
    return page_table(["number", "name", "words", "source"], [[number, row.get("name", ""), row["words"], row["source"]] for number, row in rows.items()])


def page(private, terminal):
    return PAGE.replace("PRIVATE\n", page_rows(private) + "\n").replace("TERMINAL", page_rows(terminal))


def of_steps(private):
    """What private modes do in a line that is overwritten, whatever becomes of them."""
    rows = [(row["name"], row["in_line"]) for row in private.values() if "name" in row]
    lines = lines_of_steps("of_code", [(f"DecPrivateModeCode.{name}", does) for name, does in rows])
    arms = arms_of_steps([(f"DecPrivateModeCode::{name}", does) for name, does in rows])
    yield STEPS, Part(lines, ("abbrev pub of_code : DecPrivateModeCode → List Step",), "")
    yield TEXT, Part(arms, ("fn code_step(code: DecPrivateModeCode) -> Option<Step>", "    match code {"), "    }")


def check(rows):
    for name, kind in rows.items():
        moves = ("in_line",) if name == "private" else ()
        kind = {f"[{name}] {number}": row for number, row in kind.items()}
        check_once(TABLE, kind, "name")
        check_columns(TABLE, {number: row for number, row in kind.items() if "name" in row}, ("name", "words", *moves, "source", "says", "doc"), ("set", "reset"))
        check_columns(TABLE, {number: row for number, row in kind.items() if "name" not in row}, ("words", "source", "says"), ("set", "reset"))
        for number, row in kind.items():
            if not IN_LINE.get(row.get("in_line", "nothing")):
                refuse(TABLE, number, f"in_line says what it does in a line that is overwritten: {', '.join(does for does, said in IN_LINE.items() if said)}")


def files(rows):
    check(rows)
    private, terminal = rows["private"], rows["terminal"]
    names = first_line(TABLE) + RUST + "".join(map(kind, types(), ("dec_mode_number", "terminal_mode_number")))
    said = first_line(TABLE) + "//! What modes are called: their numbers, a tab and the words.\n"
    said += words("Private modes, of DEC and of other terminals.", "PRIVATE", private, "words")
    said += words("What is set of private modes, where that isn't `on`.", "SET", private, "set")
    said += words("What is reset of them, where that isn't `off`.", "RESET", private, "reset")
    said += words("Modes of ECMA-48, and those that others have among them.", "TERMINAL", terminal, "words")
    said += words("What is set of them, where that isn't `on`.", "TERMINAL_SET", terminal, "set")
    said += words("What is reset of them, where that isn't `off`.", "TERMINAL_RESET", terminal, "reset")
    return {
        "crates/csicodec_names/src/modes.rt": names,
        "crates/csicodec_names/specs/ModeNumbers.antt": first_line(TABLE, "--") + specs(private, terminal),
        "crates/csicodec_words/src/mode_words.rt": said,
        "docs/MODES.md": page_line(TABLE) + page(private, terminal),
        **{path: [part] for path, part in of_steps(private)},
    }
