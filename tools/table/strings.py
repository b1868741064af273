"""table/strings.toml: control strings behind ESC P, and kitty's graphics, in words."""
import re

from examples import all_examples
from checks import refuse
from layout import packed, string
from read import first_line

TABLE = "strings.toml"
COLUMNS = ("words", "tells", "source")
# What is told of the data of a device control string, as the first byte of its row says it.
TELLS = {"data": "d", "nothing": "n", "picture": "p", "setting_asked": "a", "setting_told": "t", "capabilities": "c"}

TEXT = "//! Control strings in words.\n\n"
CONTROLS = """Device control strings, the first that fits: a letter for what is told of the data, parameters, an intermediate byte and a final one. The letter is `d`
where that stands between quotation marks, `n` for nothing, `p` for a picture's size, `a` for a setting that is asked for, `t` for one that is told, and `c`
for capabilities. No parameters stand for any that don't begin with `>`, and `>` for those that do."""
GRAPHICS = """What a key of kitty's graphics says, the first that fits: the action that it is of, `-` where it is of any; the key, or the key with a value; and
behind `|` its words. In them `{}` stands for the value, and `{ pixel}` for the value and what that counts."""


def rows_of(name, table, common=()):
    """The rows of a table, each with what the table has for all."""
    shared = {column: table[column] for column in ("tells", "source", "action") if column in table}
    for key, row in table.items():
        if key in shared:
            continue
        row = {**shared, **(row if isinstance(row, dict) else {"words": row})}
        for column in ("words", "source"):
            if column not in row:
                refuse(TABLE, f"[{name}] {key}", f"it has no {column}")
        for column in row:
            if column not in (*COLUMNS, "action"):
                refuse(TABLE, f"[{name}] {key}", f"nothing is written from a column {column}")
        yield key, row


def control(key, row):
    """The front of a device control string."""
    if not re.fullmatch(r"([0-?]*)([ -/]?)([@-~])", key) or row["tells"] not in TELLS:
        refuse(TABLE, f"[dcs] {key}", "it is no string's begin, or nothing tells so of its data")
    return string(TELLS[row["tells"]] + key)


def cells(*parts, between):
    """A row as one text, which has the byte between its parts once."""
    text = between.join(parts)
    if text.count(between) > 1:
        refuse(TABLE, text, f"it has {between}")
    return string(text)


def says(words):
    """What a key says, with a blank ahead of what its value counts."""
    return re.sub(r"\{(?=\w)", "{ ", words)


def keys(graphics):
    """The rows of keys, those of one action first."""
    for name, table in sorted(graphics.items(), key=lambda item: "action" not in item[1]):
        for key, row in rows_of(f"graphics.{name}", table):
            yield cells(row.get("action", "-") + key, says(row["words"]), between="|")


def check(controls):
    """Each string has an example, and no row stands behind one that has its strings."""
    said = [sequence[3:] for sequence, *_ in all_examples() if sequence.startswith("\\eP")]
    for key, _ in controls:
        if not any(re.match(rf"[0-9;]*{re.escape(key)}", text) for text in said):
            refuse(TABLE, f"[dcs] {key}", "it has no line in .ci/sequences")


def files(tables):
    controls = list(rows_of("dcs", tables["dcs"]))
    check(controls)
    settings = [cells(key, row["words"], between="=") for key, row in rows_of("settings", tables["settings"])]
    text = first_line(TABLE) + TEXT + "\n".join([
        packed(CONTROLS, "CONTROLS", "&str", [control(*row) for row in controls]),
        packed("The words of each, at the same place.", "CONTROL_WORDS", "&str", [string(row["words"]) for _, row in controls]),
        packed("Settings, the first that fits: the last bytes of what sets one, and behind `=` its words.", "SETTINGS", "&str", settings),
        packed(GRAPHICS, "GRAPHICS", "&str", list(keys(tables["graphics"]))),
    ])
    return {"crates/csicodec_osc/src/string_rows.rt": text}
