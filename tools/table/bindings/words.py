"""The words of actions, each behind what the list that it prints is found by."""
import re

from bindings.library import BY_NUMBER, SUBJECTS
from forms import LARGEST, Form, Slot
from layout import keyed
from read import first_line, rows_of
from templates import CODE, template_of
from told import row_key

# The subjects with words here; those of SGR are of table/sgr.toml.
WORDED = [group for group in BY_NUMBER if group != "Sgr"]
# What holes are called in the words of forms, each by the place of its number in the list: those of fields have a number of their own.
PLACES = {
    "count": ["n"], "place": ["n"], "int": ["n"], "enum": ["value"], "bits": ["flags"], "extensions": ["attributes"],
    "graphics": ["item", "action", "values"],
}
TEXT = re.compile(r"([<=>?]?)([0-9;]*)([ -/]?)([@-~])$")


def words_of(name):
    """The words of an enumeration's variants by their numbers."""
    variants = rows_of("values.toml").get(name, {}).get("variants", {})
    return {str(row["number"]): row["words"] for row in variants.values() if "words" in row}


def names_of(action):
    """The numbers of the list that an action prints, in turn; a number that it always has is none."""
    fields = list(action.row.get("fields", []))
    return {"ints": ["", *fields], "sizes": ["", *reversed(fields)], "report": ["button", *fields[:2]]}.get(action.form) or PLACES.get(action.form) or fields


def kinds_of(action):
    """The type that each field has."""
    if action.form == "enum":
        return {"value": action.names[0]}
    return {name: kind for name, kind, _ in action.declared().fields if action.form != "report"}


def filled(words, names, kinds, lists, missing=0):
    """The words with places in the place of names; a number that is left out is this."""
    named = {name: words_of(kind) for name, kind in kinds.items() if words_of(kind)}
    form = Form("", tuple(Slot(name.replace("_", " "), 0, LARGEST, missing, False, False) for name in names), "", "")
    return template_of(words, form, {**lists, **named})


def key_of(action):
    """What its list is found by: the numbers that it always has, and how many tokens it has where there are no others."""
    marker, numbers, between, final = TEXT.match(action.text()).groups()
    fields = numbers.split(";")
    if action.form == "unit":
        tokens = len(marker + between) + len(re.findall(r"\d+|;", numbers))
        return row_key(final, marker, between, [*fields, "", ""][:2] + [str(tokens)])
    always = action.form in ("ints", "sizes", "extensions")
    return row_key(final, marker, between, fields[:1] if always else [])


def action_rows():
    """Each action that is read from a list, its key and its words. A report that a button goes up has a final character of its own."""
    for group in WORDED:
        for action in SUBJECTS[group].actions:
            if action.form == "report" and not action.row.get("read", True):
                continue
            words = f"{action.row.get('shown', action.row['name'])}  {action.row['words']}"
            missing = 1 if action.form in ("count", "place") else 0
            said = filled(words, names_of(action), kinds_of(action), SUBJECTS[group].row.get("lists", {}), missing)
            yield key_of(action), said
            if action.form == "report":
                yield key_of(action).replace("M", "m"), said.replace(f"@{CODE['button']}", f"@{CODE['released']}")
    path = rows_of("values.toml")["CSI"]["variants"]["SelectCharacterPath"]["words"]
    yield row_key("k", "", " ", []), filled(path, ["path", "effect"], {"path": "CharacterPath"}, {})


def extensions():
    """The words of what a terminal says that it can do."""
    codes = rows_of("values.toml")["DeviceAttributeCodes"]
    said = {row["number"]: row["words"] for row in codes["variants"].values()} | {int(number): words for number, words in codes["others"].items()}
    return keyed("Extensions of terminals: their numbers, a tab and the words.", "EXTENSIONS", said.items())


def words():
    """The file."""
    rows = sorted(action_rows(), key=lambda row: len(row[0]) == 3)
    actions = keyed("The words of each action, behind what its list is found by.", "ACTIONS", rows, 3)
    return first_line("actions.toml") + "\n".join(["//! Actions in words.\n", actions, extensions()])
