"""The facts in table/, as the modules beside this one read them."""
import functools
import os
import re
import sys
import tomllib

TOP = os.path.dirname(os.path.dirname(os.path.dirname(os.path.realpath(__file__))))


def rows_of(name):
    """The rows of table/NAME, in order. A key that stands twice is an error that names its line."""
    path = os.path.join(TOP, "table", name)
    try:
        with open(path, "rb") as file:
            return tomllib.load(file)
    except tomllib.TOMLDecodeError as error:
        sys.exit(f"table: table/{name}: {error}")


@functools.cache
def lines_of(name):
    with open(os.path.join(TOP, "table", name), encoding="utf-8") as file:
        return file.read().splitlines()


@functools.cache
def place(name, *keys):
    """Where a row of table/NAME stands: its line, by its keys from the outermost on, each behind the one before; or that of the last that is there."""
    lines, at = lines_of(name), 0
    for key in keys:
        row = re.compile(rf"""(\[(.*[."'])?)?["']?{re.escape(str(key))}["']?(\]| *=)""")
        at = next((place for place, line in enumerate(lines[at:], at + 1) if row.match(line)), at)
    return f"table/{name}:{at}" if at else f"table/{name}"


def first_line(table, comment="//"):
    """The line by which each written file begins."""
    return f"{comment} Written by tools/table from table/{table}: change that, and run python3 tools/table.\n"
