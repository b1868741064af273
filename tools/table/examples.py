"""Literal examples that rows of the tables have in `says`, and those of .ci/sequences: a sequence as explain shows bytes, and what explain says of it.
They are typed by hand."""
import pathlib

from checks import refuse
from read import TOP, rows_of


def of(table, key, row):
    """Those of a row, or of the rows of a part."""
    if isinstance(row.get("says"), dict):
        if "source" not in row:
            refuse(table, key, "it has no source")
        return [[sequence, *said.split("  ", 1), row["source"]] for sequence, said in row["says"].items()]
    return [example for name, part in row.items() if isinstance(part, dict) for example in of(table, name, part)]


def examples():
    """The sequence, its name, its words and the document of its row, of each example of each table."""
    return [example for table in sorted(pathlib.Path(TOP, "table").glob("*.toml")) for example in of(table.name, "", rows_of(table.name))]


def all_examples():
    """Those of .ci/sequences too."""
    lines = pathlib.Path(TOP, ".ci/sequences").read_text(encoding="utf-8").splitlines()
    return [*examples(), *(line.split("\t") for line in lines if line and not line.startswith("#"))]
