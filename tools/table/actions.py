"""table/actions.toml: the actions. The core declares them, and what has a line for each that is read from one list of numbers alone follows from
their rows (core.py); so does what C and the packages have of each (bindings/)."""
import functools
import re
from dataclasses import dataclass

import core
from declared import Type, Variant, declaration
from checks import check_columns, check_once, refuse
from read import rows_of
from values import types as value_types

TABLE = "actions.toml"
# The first number of those that a subject has.
HUNDRED = 100
# What a form holds: between parentheses, or as fields by name, of which A and B have the row's.
HOLDS = {"unit": "", "count": "u32", "place": "OneBased", "int": "i64", "flag": "bool", "color": "ColorSpec", "bits": "KittyKeyboardFlags", "extensions": "DeviceAttributeFlags", "graphics": "XtSmGraphics"}
FIELDS = {
    "places": ["OneBased", "OneBased"],
    "ints": ["i64", "i64"],
    "sizes": ["Option<i64>", "Option<i64>"],
    "keys": ["XtermKeyModifierResource", "Option<i64>"],
    "area": ["i64", "i64", "OneBased", "OneBased", "OneBased", "OneBased"],
    "report": ["u16", "u16", "MouseButton", "Modifiers"],
    "state": ["KittyKeyboardFlags", "KittyKeyboardMode"],
}
# The forms whose fields have other names in other rows.
NAMED = ("places", "ints", "sizes", "report")
# An example of a list with a final: what stands ahead of that.
EXAMPLES = {"count": "5", "place": "7", "places": "3;4"}


@dataclass(frozen=True)
class Action:
    """A row: its subject, its variant in parts, its number in C, its form with the type or the names in it, and what else the row says."""
    subject: str
    variant: tuple
    number: int
    form: str
    names: tuple
    row: dict

    def doc(self):
        row = self.row
        return row.get("doc") or f"{row['name']} ({row['source']}): {row['means']}"

    def text(self):
        """A text of it, behind CSI."""
        return self.row.get("text") or EXAMPLES[self.form] + self.row["final"]

    def declared(self):
        """Its variant in the declaration."""
        holds = self.names[0] if self.form in ("enum", "one") else HOLDS.get(self.form, "")
        fields = tuple((field, kind, doc) for kind, (field, doc) in zip(FIELDS.get(self.form, ()), self.row.get("fields", {}).items()))
        return Variant(self.variant[-1], self.doc(), holds=holds, fields=fields)


@dataclass(frozen=True)
class Subject:
    """A variant of CSI that has a table: its type, whether that is in a box, and its actions."""
    name: str
    type: str
    is_boxed: bool
    row: dict
    actions: list

    def first(self):
        """The first of its numbers."""
        return (min(action.number for action in self.actions) - 1) // HUNDRED * HUNDRED + 1

    def declared(self, of=()):
        """Its variants, or those of a type that one of them holds."""
        rows = [*self.heads(), *self.actions]
        return [action.declared() for action in rows if action.variant[:-1] == of]

    def heads(self):
        """The variants that hold a type with actions."""
        return [action_of(self.name, variant, row) for variant, row in self.row["actions"].items() if "number" not in row]

    def declaration(self):
        return Type(self.type, self.row["file"], self.row["doc"], self.row["derives"], self.declared())


def action_of(subject, variant, row):
    form, *names = row["form"].split()
    names = names if form == "enum" else names[1:] if form == "one" else list(row.get("fields", ()))[:2] if form in NAMED else []
    return Action(subject, tuple(variant.split()), row.get("number", 0), form, tuple(names), row)


@functools.cache
def holders():
    """What CSI holds: the type of each variant, and whether it is in a box."""
    csi = next(kind for kind in value_types() if kind.name == "CSI")
    return {variant.name: re.fullmatch(r"(Box<)?([\w, ]+)>?", variant.holds).groups() for variant in csi.variants}


@functools.cache
def subjects():
    """The subjects, in the order in which a `match` has them."""
    out = []
    for name, row in rows_of(TABLE).items():
        if name not in holders():
            refuse(TABLE, name, "CSI has no such variant")
        box, kind = holders()[name]
        out.append(Subject(name, kind, bool(box), row, [action_of(name, variant, of) for variant, of in row["actions"].items() if "number" in of]))
    return out


@functools.cache
def types():
    """All types by their names: those of table/values.toml, those that hold actions, and the subjects'."""
    out = {}
    for kind in value_types():
        of = rows_of("values.toml")[kind.name].get("of")
        subject = next((subject for subject in subjects() if subject.name == of), None)
        out[kind.name] = Type(kind.name, kind.file, kind.doc, kind.derives, subject.declared((kind.name,))) if subject else kind
    return out | {subject.type: subject.declaration() for subject in subjects()}


ROW = ("number", "form", "fields", "text", "read", "final", "name", "shown", "words", "left_out", "in_line", "source", "says", "means", "doc")
LIST = ("left_out", "source", "says")


def check(rows):
    every = {f"{name}::{variant}": row for name, subject in rows.items() for variant, row in subject["actions"].items()}
    for column in ("number", "final", "text"):
        check_once(TABLE, {key: row for key, row in every.items() if row.get("read", True)}, column)
    for name, subject in rows.items():
        check_columns(TABLE, {name: subject}, ("file", "doc", "derives", "example", "actions"), ("beside", "lists"))
        for variant, row in subject["actions"].items():
            key = f"{name}::{variant}"
            is_list = "final" in row
            check_columns(TABLE, {key: row}, ("form", *(LIST if is_list else ["text"] if "number" in row else []), *(["name", "words"] if "number" in row and name != "Sgr" else []), *(["source", "means"] if "doc" not in row else [])), ROW)
            if is_list and row["form"] not in EXAMPLES:
                refuse(TABLE, key, f"a list with a final has one of the forms {', '.join(EXAMPLES)}")
            for sequence, said in row.get("says", {}).items():
                if is_list and not sequence.endswith(row["final"]) or not said.startswith(f"{row['name']}  "):
                    refuse(TABLE, key, f"its example {sequence} is another action's")
            if row["form"] in FIELDS and len(row.get("fields", ())) != len(FIELDS[row["form"]]):
                refuse(TABLE, key, f"its form has {len(FIELDS[row['form']])} fields")
            if row["form"] not in FIELDS and row["form"].split()[0] not in (*HOLDS, "enum", "one"):
                refuse(TABLE, key, f"there is no form {row['form']}")
            if name in core.ACTS and row.get("in_line") not in core.IN_LINE:
                refuse(TABLE, key, f"in_line says what it does in a line that is overwritten: {', '.join(core.IN_LINE)}")


def files(rows):
    check(rows)
    for key, said in core.faults(subjects()):
        refuse(TABLE, key, said)
    found = {f"crates/{subject.row['file']}": [declaration(subject.declaration())] for subject in subjects()}
    for kind in types().values():
        if rows_of("values.toml").get(kind.name, {}).get("of"):
            found[f"crates/{kind.file}"].append(declaration(kind))
    for path, of in core.parts(subjects()).items():
        found.setdefault(path, []).extend(of)
    return found
