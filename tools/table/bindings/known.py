"""The rows of table/sequences.toml, as their kinds in C and Rust."""
import re
from collections import Counter

from bindings.library import snake
from bindings.numbers import LIST, pairs, read
from read import rows_of
from sequences import TABLE, all_rows

PREFIX = "CSICODEC_KNOWN_"
# The kinds of the rows that went since an action has their lists, by their names in numbers.txt: the constants stay, and no list is of such a kind.
GONE = rows_of(TABLE)["gone"]
GONE_MEANING = "no list any more: an action has those that it had"


def rows():
    """Of each row its kind, its name, its form in words, an example of its text, its meaning and its source."""
    for row in all_rows(rows_of(TABLE)):
        yield row.kind, row.name, row.form.shown(), row.form.example(), row.means, row.source


def known():
    """Each row behind its name in C, without the prefix. A kind keeps the name that it has in numbers.txt; a new one is named after its row, and
    after its meaning where another row has that name."""
    kept = {int(number): name[len(PREFIX):] for name, number in pairs(read(LIST)).items() if name.startswith(PREFIX)}
    names = Counter(name for _, name, *_ in rows())
    for row in rows():
        kind, name, _, _, meaning, _ = row
        new = name if names[name] == 1 else f"{name} {meaning}"
        yield kept.get(kind, re.sub(r"\W+", "_", snake(new))), row
