"""What no row of a table may have, and what each must have."""
import re
import sys

from read import place


def refuse(table, key, said):
    """Stops with the line of the row. Its key is `[part] row`, `part::row`, or the row alone."""
    sys.exit(f"table: refused: {place(table, *re.split('::|(?<=.)] ', str(key).removeprefix('[')))}: {key}: {said}")


def check_columns(table, rows, needed, others):
    """Each row has the columns that are needed, with a text in each, and none that nothing is written from."""
    for key, row in rows.items():
        for column in needed:
            if not row.get(column):
                refuse(table, key, f"it has no {column}")
        for column in row:
            if column not in (*needed, *others):
                refuse(table, key, f"nothing is written from a column {column}")


def check_once(table, rows, column):
    """No two rows have the same there."""
    seen = {}
    for key, row in rows.items():
        said = row.get(column)
        if said is not None and said in seen:
            refuse(table, key, f"its {column} is {said}, as that of {seen[said]} is")
        seen[said] = key
