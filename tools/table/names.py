"""The names that things are told by, as `--only` takes them: those of table/names.toml, of actions, of control sequences and of escape sequences."""
from actions import subjects
from checks import refuse
from read import first_line, rows_of
from told import section

TABLE = "names.toml"


def named():
    """The names of rows of other tables."""
    sequences, escapes = rows_of("sequences.toml"), rows_of("escapes.toml")
    parts = [section(sequences, "beyond"), section(sequences, "instead"), {kind: row for kind, row in sequences.items() if kind.isdigit()}]
    for key, row in (item for part in parts for item in part.items()):
        if "name" not in row:
            refuse("sequences.toml", key, "it has no name")
    rows = [row for part in parts for row in part.values()]
    rows += [action.row for subject in subjects() for action in subject.actions if "name" in action.row]
    words = [row["words"] for kind in ("code", "other", "control") for row in escapes[kind].values() if "words" in row]
    return {row["name"] for row in rows} | {text.split("  ")[0] for text in words}


def text(said, name, names):
    """A constant that is all names, with commas between them, in lines of some 110 columns."""
    lines = [""]
    for one in names:
        if len(lines[-1]) + len(one) > 110:
            lines.append("")
        lines[-1] += one if one == names[-1] else f"{one},"
    return f"/// {said}\npub const {name}: &str = \"\\\n" + "\\\n".join(lines) + "\";\n"


def files(table):
    names, numbered, others = table["names"], table["numbered"], named()
    for name in names:
        if name in others or names.count(name) > 1:
            refuse(TABLE, name, "it stands twice, or a row of another table has it")
    others = {name for name in others if name in numbered or name.split(" ")[0] not in numbered}
    everyone = sorted([*names, *others], key=lambda name: (name.lower(), name))
    return {"crates/csicodec_inspect/src/all_names.rt": first_line(TABLE) + "//! The names that things are told by.\n\n" + text(
        "The names, but for the numbers that some have behind them, with commas between them.", "NAMES", everyone
    ) + "\n" + text("Those that a number or a letter may follow.", "NUMBERED", numbered)}
