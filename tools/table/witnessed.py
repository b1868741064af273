""".ci/witness.tsv: what says that a row is right. It is typed by hand from the sources that its lines name, and nothing here writes it.

`faults` says which rows of table/ it has no line for, and which it says otherwise of: the names and numbers of SGR codes, modes, escape codes and
enumerations, of each action the list that it stands for, each form of a key, and what each command of OSC begins with. So two names that are
exchanged are refused before anything is written.
"""
import json
import os
import re
from dataclasses import dataclass

import keys
import osc
from read import TOP, place

PATH = ".ci/witness.tsv"
# A control sequence: its private marker, its numbers, its intermediate bytes and its final byte.
LIST = re.compile(r"\\e\[([<=>?]*)([0-9:;]*)([ -/]*)([@-~])$")
# The type of a token, which has no names of things in it.
TOKEN = "CsiParam"
# The row that has no line: whoever typed the others had no document of DECUS.
UNSEEN = (10039,)
# Which table has the numbers of an enumeration of codes.
CODES = {"SgrCode": ("sgr.toml", "code"), "DecPrivateModeCode": ("modes.toml", "private"), "TerminalModeCode": ("modes.toml", "terminal")}


@dataclass(frozen=True)
class Line:
    """A line: its place in the file, its class, and its columns."""
    at: int
    kind: str
    given: str
    name: str
    holds: str
    text: str
    source: str

    def place(self):
        return f"{PATH}:{self.at} ({self.source})"


def lines():
    """The lines, in order; a file of fewer classes or without a source is no witness."""
    with open(os.path.join(TOP, PATH), encoding="utf-8") as file:
        rows = [(at, row.rstrip("\n").split("\t")) for at, row in enumerate(file, 1) if not row.startswith("#")]
    for at, row in rows:
        if len(row) != 6 or not row[5] or row[0] not in ("action", "written", "number", "escape", "list", "known", "key", "osc"):
            raise SystemExit(f"table: refused: {PATH}:{at} has no class or no source, or not six columns")
    return [Line(at, *row) for at, row in rows]


def frame(text):
    """What tells a list from those of other actions: all of it but the numbers; of XTWINOPS and of a terminal's class also the first, which says
    which it is. A report of the mouse ends in `m` where a button goes up."""
    marker, _, between, final = LIST.match(text).groups()
    return (marker, first(text) if final in "tc" else None, between, "M" if (marker, final) == ("<", "m") else final)


def first(text):
    """The first number of a list, as it is written."""
    return re.split("[;:]", LIST.match(text)[2])[0]


def words_in(value):
    """The names that a value of JSON has in it."""
    if isinstance(value, dict):
        return {word for key, inner in value.items() for word in {key} | words_in(inner)}
    if isinstance(value, list):
        return {word for inner in value for word in words_in(inner)}
    return {value} if isinstance(value, str) else set()


def said_of(known, kind):
    """What the lines of a class say: for a number the enumeration, variant and number, for an escape what stands behind ESC and the variant."""
    found = [line for line in known if line.kind == kind]
    if kind == "number":
        return {(line.given, line.name): (line.holds, line) for line in found}
    return {line.given.removeprefix("\\e"): (line.name, line) for line in found}


def of_numbers(said, enumeration, rows):
    """Faults of an enumeration's variants, each by its name, its number and where its row stands."""
    for name, number, where in rows:
        if (enumeration, name) not in said:
            yield f"{place(*where)}: {enumeration}::{name} has no line in {PATH}"
        elif said[enumeration, name][0] != str(number):
            yield f"{place(*where)}: {enumeration}::{name} is {number}, and {said[enumeration, name][0]} by {said[enumeration, name][1].place()}"


def of_escapes(said, rows):
    """Faults of the escape codes."""
    for key, name in rows:
        at = place("escapes.toml", "code", key)
        if key not in said:
            yield f"{at}: EscCode::{name}, ESC {key}, has no line in {PATH}"
        elif said[key][0] != name:
            yield f"{at}: ESC {key} is EscCode::{name}, and {said[key][0]} by {said[key][1].place()}"


def set_by(row):
    """The action and the value that a row of table/sgr.toml sets, as a line of an action has them."""
    name, holds, inner = row["sets"].partition("(")
    inner = inner.removesuffix(")")
    value = re.match(r"(\w+)\((\w+)\)$", inner)
    if value:
        inner = {value[1]: int(value[2])}
    elif inner in ("true", "false"):
        inner = inner == "true"
    return "Sgr::" + name, {"value": inner} if holds else {}


def of_sgr(known, rows):
    """Faults of what a number before `m` sets."""
    given = {line.given: line for line in known if line.kind == "action"}
    for number, row in rows.items():
        line = given.get(f"\\e[{number}m")
        if "sets" not in row:
            continue
        at = place("sgr.toml", "code", number)
        if line is None:
            yield f"{at}: {number} has no line in {PATH}"
        elif (line.name, json.loads(line.holds)) != set_by(row):
            yield f"{at}: {number} sets {row['sets']}, and {line.name} {line.holds} by {line.place()}"


def own_lines(known, subject, variant):
    """The lines of an action, by its subject and the parts of its variant."""
    name, *rest = variant
    found = [line for line in known if line.kind in ("action", "written") and line.name == f"{subject}::{name}"]
    return [line for line in found if not rest or rest[0] in words_in(json.loads(line.holds))]


def is_among(text, action, found):
    """Whether an action's own lines have the list: one without numbers of its own itself, an attribute's one that begins with its number, and
    whether it is read back as this where the row says so."""
    if action.form == "unit" or action.subject == "Sgr":
        return any(line.text == text or action.subject == "Sgr" and first(line.text) == first(text) for line in found)
    return action.row.get("read", True) == any(line.given == line.text for line in found)


def of_actions(known, actions):
    """Faults of actions: of those that no line has, and of those of which a line says otherwise."""
    for action in actions:
        found, text = own_lines(known, action.subject, action.variant), "\\e[" + action.text()
        name = f"{place('actions.toml', action.subject, ' '.join(action.variant))}: {'::'.join((action.subject, *action.variant))}"
        if not found:
            yield f"{name} has no line in {PATH}"
        elif not is_among(text, action, found):
            yield f"{name} is {text}, and {found[0].text} by {found[0].place()}"
        for line in found:
            if action.subject != "Sgr" and frame(line.text) != frame(text):
                yield f"{name} is {text}, and {line.text} by {line.place()}"


def of_values(known, rows):
    """Variants of enumerations that no line has: neither one of numbers nor one of actions."""
    named = {(line.given, line.name) for line in known if line.kind == "number"}
    held = {word for line in known if line.kind == "action" for word in words_in(json.loads(line.holds)) | set(line.name.split("::"))}
    for enumeration, variant in rows:
        if (enumeration, variant) not in named and variant not in held:
            yield f"{place('values.toml', enumeration, 'variants', variant)}: {enumeration}::{variant} has no line in {PATH}"


def of_known(known, rows):
    """Faults of rows of sequences without an action: of a line that another one reads, or none, or as other values, and of a row without a line."""
    by_bytes, seen = {}, set()
    for row in rows:
        by_bytes.setdefault((row.form.marker, row.form.between, row.form.final), []).append(row)
    for line in (line for line in known if line.kind == "known"):
        marker, numbers, between, final = LIST.match(line.given).groups()
        read = [(row, values) for row in by_bytes.get((marker, between, final), []) if (values := row.form.values(numbers)) is not None]
        seen |= {row.kind for row, _ in read}
        if not read:
            yield f"table/sequences.toml: no row reads {line.given}, which is {line.name} by {line.place()}"
        for row, values in read:
            if len(read) > 1:
                yield f"{place('sequences.toml', row.kind)}: {line.given} is read by {len(read)} rows"
            text = f"\\e[{marker}{';'.join(map(str, values))}{between}{final}"
            if (row.name, json.dumps(values), text) != (line.name, line.holds.replace(",", ", "), line.text):
                yield f"{place('sequences.toml', row.kind)}: {line.given} is {row.name} {values} {text}, and {line.name} {line.holds} {line.text} by {line.place()}"
    for row in rows:
        if row.kind not in seen and row.kind not in UNSEEN:
            yield f"{place('sequences.toml', row.kind)}: {row.name} has no line in {PATH}"


def bytes_of(text):
    """The bytes of a text in which ESC, CR, TAB and two digits of a byte are spelled; any other backslash stands for itself."""
    return re.sub(r"\\([ert\\]|x([0-9a-f]{2}))", lambda it: chr(int(it[2], 16)) if it[2] else {"e": "\x1b", "r": "\r", "t": "\t", "\\": "\\"}[it[1]], text).encode("latin-1")


# What a form of a key sends, by its column, its number and its final or its character; with ctrl, where the document has no form without.
SENT = {
    "control": lambda number, control: control,
    "ss3": lambda number, control: f"\x1bO{control}",
    "kitty": lambda number, control: f"\x1b[{number}u" if number else "\x1b[0;;229u",
    "other": lambda number, control: f"\x1b[27;5;{number}~",
    "csi": lambda number, control: f"\x1b[{number if number != 1 or control in '~$^@' else ''}{control}",
    "linux": lambda number, control: f"\x1b[[{control}",
    "win32": lambda number, control: f"\x1b[{number % 256};0;0;1;{number // 256 * 256};1_",
}
SENT |= {"ss3_cursor": SENT["ss3"], "rxvt_ss3": SENT["ss3"], "rxvt": SENT["csi"]}


def of_keys(known, tables):
    """Faults of keys: of forms that no line has, or another key's has."""
    said = {bytes_of(line.given): line for line in known if line.kind == "key"}
    for key in keys.keys_of(tables):
        name = re.sub(r"F\((\d+)\)", r"F\1", key.code.removeprefix("KeyCode::"))
        name = re.sub(r"Char\('\\?(.)'\)", r"Char \1", name)
        for column, forms in key.forms.items():
            for form in forms:
                sent = SENT[column](form.number, form.control)
                line = said.get(sent.encode("latin-1")) or said.get(f"\x1b[{form.number};5{form.control}".encode("latin-1"))
                if line is None:
                    yield f"table/keys.toml: {name} by {column}, {sent!r}, has no line in {PATH}"
                elif line.name != name:
                    yield f"table/keys.toml: {name} by {column} is {sent!r}, and {line.name} by {line.place()}"


def of_osc(known, commands):
    """Faults of commands of OSC: of those that no line has, or that begin otherwise."""
    said = {line.name: line for line in known if line.kind == "osc"}
    for name, begins in commands:
        if name not in said:
            yield f"table/osc.toml: {name} has no line in {PATH}"
        elif not re.match(re.escape(begins) + "(;|$)", said[name].given):
            yield f"table/osc.toml: {name} begins with {begins}, and {said[name].given} by {said[name].place()}"


def facts(tables, actions, rows):
    """What table/ says of what the witness says, by the check that compares it."""
    values = {name: kind["variants"] for name, kind in tables["values.toml"].items() if "variants" in kind}
    return {
        "sgr": tables["sgr.toml"]["code"],
        "numbers": {kind: [(row["name"], number, (table, part, number)) for number, row in tables[table][part].items() if "name" in row] for kind, (table, part) in CODES.items()}
        | {kind: [(name, row["number"], ("values.toml", kind, "variants", name)) for name, row in rows.items() if "number" in row] for kind, rows in values.items()},
        "escapes": [(key, row["name"]) for key, row in tables["escapes.toml"]["code"].items() if "name" in row],
        "actions": actions,
        "known": rows,
        "keys": tables["keys.toml"],
        "osc": [(name, re.match("`([^`]*)`", said)[1]) for name, _, said in osc.commands(tables["osc.toml"])],
        "values": [(kind, name) for kind, rows in values.items() if kind != TOKEN for name in rows],
    }


def faults(known, said):
    """Where table/ says otherwise than the witness, or of what that says nothing."""
    numbers, witnessed = said_of(known, "number"), {line.given for line in known if line.kind == "number"}
    found = [*of_sgr(known, said["sgr"]), *of_escapes(said_of(known, "escape"), said["escapes"]), *of_actions(known, said["actions"])]
    for kind, rows in said["numbers"].items():
        if kind in witnessed:
            found += of_numbers(numbers, kind, rows)
    found += [*of_keys(known, said["keys"]), *of_osc(known, said["osc"])]
    return found + [*of_values(known, said["values"]), *of_known(known, said["known"])]
