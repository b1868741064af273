"""What explain says of control sequences without an action, by table/sequences.toml: the rows' words, those beyond them, and those in the place of an
action's."""
from checks import check_columns, refuse
from forms import LARGEST, form_of
from layout import keyed
from read import first_line
from templates import place_of, told_of

TABLE = "sequences.toml"
ANY = (0, 2**63 - 1)

# How many rows an array has at most, so that the checker computes it at once.
MOST = 100

TEXT = """\
//! Control sequences without an action, in words.

use crate::rows::Rows;

/// The words of sequences without an action, in their order.
pub(crate) fn parts() -> [Rows; COUNT] {
    [CALLS]
}

"""


def row_key(final, marker, between, parts):
    """What a list is found by, as `ListKey` of csicodec_words reads it."""
    return f"{final}{marker or '_'}{between or '_'}{','.join(parts).rstrip(',')}"


def shown(span):
    """The numbers that one may be, as a row has them."""
    first, last = span
    return "" if span == ANY else str(first) if first == last else f"{first}-{'' if last == ANY[1] else last}"


def span(slot):
    """The numbers that one may be."""
    return slot.first, ANY[1] if slot.last == LARGEST else slot.last


def fields_of(said):
    """How many numbers a list may have that no row reads."""
    if said is None:
        return ANY
    if said == "no":
        return 1, 0
    least, _, most = said.partition("-")
    return int(least), int(most or least)


class Told:
    """Words, and the lists that they are of: of a row's, those that it reads, and others by their bytes and these numbers."""

    def __init__(self, kind, row, form, number, words):
        self.kind, self.form, self.words = kind, form, words
        spans = [span(slot) if slot.first == slot.last or not kind else ANY for slot in form.slots[:1]]
        if not kind:
            spans += [span(slot) for slot in form.slots[1:2]]
        spans += [ANY] * (2 - len(spans))
        if number != "else":
            spans[place_of(form)] = (int(number), int(number))
        self.first, self.second = spans
        self.fields = fields_of(row.get("fields"))

    def key(self):
        form, kind = self.form, [str(self.kind)] if self.kind else []
        return row_key(form.final, form.marker, form.between, [shown(self.first), shown(self.second), shown(self.fields), *kind])


def of_rows(table):
    """The words of the rows; csicodec_keys has those of a key."""
    lists = table.get("words", {})
    for kind, row in table.items():
        if kind.isdigit() and "words" in row:
            form = form_of(row["form"])
            own = {name: words for name, words in row.items() if isinstance(words, dict) and name not in ("words", "says")}
            told = told_of(row, form, {**lists, **own})
            yield from (Told(int(kind), row, form, number, told[number]) for number in sorted(told, key=lambda number: number == "else"))


def section(table, name):
    """The rows of a section by their forms: each has its columns, and none that nothing is written from."""
    check_columns(TABLE, table[name], ("name", "words", "source"), ("shown", "fields"))
    return table[name]


def of_section(table, name):
    """The words of a section."""
    for text, row in section(table, name).items():
        try:
            form = form_of(text)
            told = told_of(row, form, table.get("words", {}))
            yield from (Told(0, row, form, number, told[number]) for number in told)
        except ValueError as error:
            refuse(TABLE, f"[{name}] {text}", error)


def rows_rt(table):
    """src/sequence_rows.rt of csicodec_words, in the order of the first three bytes. Words of one first number stand ahead of those of any."""
    told = sorted([*of_section(table, "beyond"), *of_rows(table)], key=lambda told: (told.key()[:3], told.first == ANY))
    parts = [told[at:at + MOST] for at in range(0, len(told), MOST)]
    arrays = [(f"What sequences without an action are, part {at + 1}: what a list is found by, a tab and the words.", f"PART_{at}", part) for at, part in enumerate(parts)]
    arrays.append(("What is said in the place of an action.", "INSTEAD", of_section(table, "instead")))
    calls = ", ".join(f"PART_{at}.as_slice()" for at in range(len(parts)))
    text = TEXT.replace("CALLS", calls).replace("COUNT", str(len(parts)))
    return first_line(TABLE) + text + "\n".join(keyed(said, name, [(row.key(), row.words) for row in rows], 3) for said, name, rows in arrays)
