"""What follows from table/sequences.toml: the rows of csicodec_sequences, docs/SEQUENCES.md, and what explain says (told.py)."""
import itertools
import re
from dataclasses import dataclass

from actions import subjects
from examples import all_examples
from checks import refuse
from forms import Form, form_of
from layout import byte, comment, page_line, string
from parts import Part
from read import first_line
from templates import by_number
from told import fields_of, rows_rt

TABLE = "sequences.toml"
COLUMNS = {"name", "form", "means", "source"}
# The rows without an example: a parser cuts the list of SLS.
UNSAID = ["10133"]


@dataclass(frozen=True)
class Row:
    """A row: its number, its name and form, what it means, its words by number, and its source."""
    kind: int
    name: str
    form: Form
    means: str
    words: tuple
    source: str


def row_of(kind, row, lists):
    """A row, unless a column of it lacks or isn't what it should be."""
    try:
        if not kind.isdigit() or COLUMNS - row.keys():
            raise ValueError(f"it lacks {', '.join(sorted(COLUMNS - row.keys())) or 'a number'}")
        own = {name: words for name, words in row.items() if name not in COLUMNS | {"words", "shown", "fields", "says"}}
        unread = [name for name in own if not re.search(rf"[@&]{name}\}}", str(row.get("words")))]
        if unread:
            raise ValueError(f"what nothing reads: {', '.join(unread)}")
        form = form_of(row["form"])
        words = by_number(row, form, {**lists, **own})
        fields_of(row.get("fields"))
        return Row(int(kind), row["name"], form, row["means"], words, row["source"])
    except ValueError as error:
        refuse(TABLE, kind, error)


def all_rows(table):
    """The rows, in order."""
    lists = table.get("words", {})
    return [row_of(kind, row, lists) for kind, row in table.items() if kind not in ("words", "gone", "beyond", "instead")]


# The files of rows: the first row of each, what its constants begin with, and what it says of itself.
PARTS = {
    "dec": (10001, "DEC", "Functions of DEC's terminals."),
    "others": (10071, "OTHER", "Functions of ECMA-48, of xterm and kitty, and of the Linux console."),
    "reports": (10172, "REPORT", "What terminals are asked for, what they answer, and what keyboards, mice and pastes send."),
}
SECTIONS = {
    10071: "The functions of ECMA-48 that have no action.",
    10136: "Functions of xterm, of kitty, of mintty and of the Linux console.",
    10172: "What a terminal is asked for.",
    10196: "What a terminal answers.",
    10228: "What keyboards, mice and what is pasted send.",
}
ARRAYS = (
    ("FORMS", "SequenceForm", "form", "The form of each row."),
    ("SLOTS", "[NumberSlot; MOST]", "numbers", "The slots of each row, at the same place."),
    ("TEXTS", "[&str; 4]", "texts", "What is said of each: its name, its meaning, its source, and the names of its numbers, a `;` behind each."),
)


def slot_text(slot):
    kind = "further" if slot.further else "needed" if slot.missing is None else "number"
    return f"{kind}!({string(slot.name)}, {slot.first}, {slot.last}{'' if slot.missing is None else f', {slot.missing}'})"


def slot_pieces(slots):
    """The numbers of a row as they stand there: the last one behind a `;` where it may stand there again."""
    pieces = [slot_text(slot) for slot in slots] or [""]
    if slots and slots[-1].further:
        pieces[-2:] = ["; ".join(pieces[-2:])] if len(pieces) > 1 else ["; " + pieces[0]]
    return [f"{'[' if place == 0 else ''}{piece}{']' if place == len(pieces) - 1 else ''}," for place, piece in enumerate(pieces)]


def row_text(row):
    form = row.form
    pieces = [f"{row.kind},", f"{string(row.name)},", f"{byte(form.marker)},", *slot_pieces(form.slots), f"{byte(form.between)},", f"{byte(form.final)[1:]},", f"{string(row.means)},", f"{string(row.source)}"]
    section = f"\n            // {SECTIONS[row.kind]}\n" if row.kind in SECTIONS else ""
    return f"{section}            row! {{ $part {' '.join(pieces)} }},\n"


def rows_text(rows, start, about):
    head = f"""{first_line(TABLE)}//! {about}

use crate::row::{{MOST, NumberSlot, SequenceForm}};
use crate::rows::END;

/// The rows, of each of which a macro makes its part.
macro_rules! rows {{
    ($part:ident) => {{
        [
"""
    arrays = "".join("\n" + "\n".join(comment(said)) + f"\npub static {start}_{name}: [{kind}; {len(rows)}] = rows!({part});\n" for name, kind, part, said in ARRAYS)
    return head + "".join(map(row_text, rows)).removeprefix("\n") + "        ]\n    };\n}\n" + arrays


def parts(rows):
    """The rows of each file."""
    starts = [*(first for first, _, _ in PARTS.values()), None]
    places = [next((place for place, row in enumerate(rows) if row.kind == first), None) for first in starts]
    return {name: rows[places[at]:places[at + 1]] for at, name in enumerate(PARTS)}


PAGE = """# Control sequences without an action

This page is for you if you look up a control sequence that is no action of the codec. [SPECIFICATION](SPECIFICATION.md#forms-by-final)
has the others, and [MODES](MODES.md) and [SGR](SGR.md) the numbers before `h`, `l` and `m`.

These are the rows that `KnownSequence` of csicodec_sequences reads. `tools/table` writes them from `table/sequences.toml`. The form is what stands
behind `CSI`. In it `..` is a number that may follow again, up to 12 in all.

Two kinds of list aren't among them. These are kitty's keys with parts behind colons or with text, and modes from 65536 on, whose lists are
cut into pieces. SLS is read only as a whole list. A parser cuts it, as it begins like SM.

| name | form | meaning | source |
|---|---|---|---|
"""

NEXT = """
Next: [ESCAPES](ESCAPES.md) has escape sequences, and [SPECIFICATION](SPECIFICATION.md#lists-of-the-second-table) says how a list is read by
these rows.
"""


def page(rows):
    lines = (" | ".join(part.replace("|", "\\|") for part in (row.name, f"`` {row.form.shown()} ``", row.means, row.source)) for row in rows)
    return PAGE + "".join(f"| {line} |\n" for line in lines) + NEXT


def known_lines(rows):
    """Rows of tried/: each control sequence of an example, and what the row that reads it has, or `-`."""
    for text in dict.fromkeys(found[1] for sequence, *_ in all_examples() if (found := re.fullmatch(r"\\e\[([0-?]*[ -/]*[@-~])", sequence))):
        row, values = next(((row, values) for row in rows if (values := row.form.read(text)) is not None), (None, []))
        form = row and row.form
        said = row and [row.name, "".join(f"{slot.name};" for slot in form.slots), values, f"{form.marker}{';'.join(map(str, values))}{form.between}{form.final}", row.means, row.source]
        yield text, "\t".join(map(str, said or "-"))


def tests(rows):
    lines = [f"known {text}\t{said}" for text, said in known_lines(rows)]
    return {"tried/rows.tsv": [Part(lines, ("# Which row of the second table reads a list: the examples",), "")]}


def check(table, rows):
    for one, other in itertools.combinations(rows, 2):
        if not one.form.is_apart(other.form):
            refuse(TABLE, other.kind, f"it reads a list that [{one.kind}] reads")
    for kind, row in table.items():
        if kind.isdigit() and kind not in UNSAID and "words" in row and not row.get("says"):
            refuse(TABLE, kind, "it has no example in `says`")
    for action in (action for subject in subjects() for action in subject.actions if action.row.get("read", True)):
        for row in rows:
            if row.form.read(action.text()) is not None:
                refuse(TABLE, row.kind, f"{action.subject}::{action.variant[0]} has its list: the row goes, and leaves its constant and number in [gone]")
    names = tuple(action.row["name"] for subject in subjects() for action in subject.actions if "name" in action.row)
    for constant in table["gone"]:
        if not any(f"{constant}_".startswith(f"{name}_") for name in names):
            refuse(TABLE, "gone", f"{constant} was a row's, and no action has a name by which its lists are told")


def files(table):
    rows = all_rows(table)
    check(table, rows)
    texts = {f"crates/csicodec_sequences/src/rows/{name}.rt": rows_text(some, *PARTS[name][1:]) for name, some in parts(rows).items()}
    return {**texts, **tests(rows), "docs/SEQUENCES.md": page_line(TABLE) + page(rows), "crates/csicodec_words/src/sequence_rows.rt": rows_rt(table)}
