"""Lines of written files, laid out as `rt fmt` leaves them."""
import re
import textwrap

from read import first_line

WIDTH = 120


def comment(text, indent="", mark="///"):
    """A comment, in lines of at most 120 characters."""
    ahead = f"{indent}{mark} "
    return [ahead + line for line in textwrap.wrap(text, WIDTH - len(ahead), break_long_words=False, break_on_hyphens=False)]


def string(text):
    """A literal of this text."""
    escaped = text.replace("\\", "\\\\").replace('"', '\\"')
    return f'"{escaped}"'


def folded(head, parts, sign):
    """A definition whose body has this sign between its parts, in further lines where one would be too long."""
    line = f"{head} = {f' {sign} '.join(parts)}"
    if len(line) <= 200:
        return line
    rows = [parts[0]]
    for part in parts[1:]:
        rows = [*rows[:-1], f"{rows[-1]} {sign} {part}"] if len(rows[-1]) + len(part) < 140 else [*rows, f"{sign} {part}"]
    return "\n".join([f"{head} =", *(f"    {row}" for row in rows)])


def byte(character):
    """A literal of this byte, and 0 for none."""
    return {"": "0", "'": r"b'\''", "\\": r"b'\\'"}.get(character, f"b'{character}'")


def low(name, between="_"):
    """A name in small letters, with this between its words."""
    name = re.sub(r"([a-z0-9])([A-Z])", rf"\1{between}\2", name)
    return re.sub(r"([A-Z])([A-Z][a-z])", rf"\1{between}\2", name).lower()


def keyed(said, name, rows, front=None):
    """An array of words, each behind what it is found by and a tab, in the order of their bytes, or of so many in front."""
    rows = sorted(rows, key=lambda row: f"{row[0]}\t".encode()[:front])
    return packed(said, name, "&str", [string(f"{key}\t{words}").replace("\t", "\\t") for key, words in rows])


def rows_of_parts(parts, indent="    "):
    """What is short behind each other, in lines of some 110 columns, for a macro, which `rt fmt` leaves as it is."""
    rows = textwrap.wrap(" ".join(part.replace(" ", "\0") + "," for part in parts), 110, break_long_words=False, break_on_hyphens=False)
    return [indent + row.replace("\0", " ") for row in rows]


def packed(said, name, kind, parts, macro="pieces"):
    """An array of what is short, made by a macro."""
    rows = rows_of_parts(parts)
    ahead = f"pub(crate) static {name}: [{kind}; {len(parts)}] = "
    whole = [f"{ahead}[{parts[0]}];"] if len(parts) == 1 else [f"{ahead}{macro}! {{", *rows, "};"]
    return "\n".join([*comment(said), *whole]) + "\n"


def array(said, name, kind, rows, public="pub(crate)"):
    """An array of these rows, with its comment."""
    lines = [line for row in rows for line in row]
    ahead = f"{public} static {name}: [{kind}; {len(rows)}] = ["
    whole = [f"{ahead}{lines[0].strip(' ,')}];"] if len(lines) == 1 else [ahead, *lines, "];"]
    return "\n".join([*comment(said), *whole]) + "\n"


def page_line(table):
    """The line by which a written page begins."""
    return first_line(table, "<!--").replace(".\n", ". -->\n")


def code(text):
    """A text of a page that stands as it is typed."""
    return f"`` {text} ``"


def page_table(columns, rows):
    """A table of a page."""
    lines = ["| " + " | ".join(cell.replace("|", "\\|") for cell in line) + " |\n" for line in (columns, *rows)]
    return "".join([lines[0], "|---" * len(columns) + "|\n", *lines[1:]])
