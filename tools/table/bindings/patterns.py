"""The patterns of csicodec_explain: which texts have an action of a name, and the numbers of the names that stand for one in it."""
import re
import sys

from bindings.library import BY_NUMBER, ESCAPES, NAMED, SUBJECTS, acting, declared, numbers_of
from layout import keyed

# The enumerations whose names stand for numbers in a text.
CODED = ("DecPrivateModeCode", "TerminalModeCode", "DeviceAttributeCodes")
# What isn't in the table, or of which another text is there than the one that is read: its name, and its patterns.
OTHERS = {
    "Device::RequestTerminalParameters": ["[{/value}x"],
    "SelectCharacterPath": ["[{};{/value/1} k"],
    "Unspecified": ["[{/params}{/control}"],
    "Esc::Unspecified": ["{/intermediate'}{/control'}"],
}


def member(name):
    """What stands for a member in a pattern."""
    return f"{{/{name}}}"


def numbered(text, names):
    """A text with a member in place of each of its numbers, in turn."""
    names = iter(names)
    return re.sub(r"\d+", lambda _: member(next(names)), text)


def colors(code):
    """The texts of a colour: by a number of its own, of the palette, of three parts, and of four."""
    parts = "value/TrueColor/SrgbaTuple"
    three = ":".join(member(f"{parts}/{place}") for place in range(3))
    return [f"{code}:2::{three}m", f"{code}:6::{member(parts + '|:')}m", "{}m", f"{code}:5:{member('value/PaletteIndex')}m"]


def texts_of(form, names, text, variant):
    """The patterns of an action behind `ESC [`."""
    first, final = re.match(r"\d*", text)[0], text[-1]
    if form == "unit":
        return [text]
    if form in ("count", "place", "int", "bits"):
        return [numbered(text, ["value"])]
    if form in ("places", "area"):
        return [numbered(text, names or ["request_id", "page_number", "top", "left", "bottom", "right"])]
    if form == "ints":
        return [f"{first};{member(names[0])};{member(names[1])}{final}"]
    if form == "sizes":
        return [f"{first};{member(names[1])};{member(names[0])}{final}", f"{first};{member(names[1])}{final}", f"{first}{final}"]
    if form == "enum" and names[0] in ("DecPrivateMode", "TerminalMode"):
        return [numbered(text, ["value"])]
    if form == "enum":
        return (["{}m"] if ":" in text else []) + [re.sub(r"\d+(?!:)", "{}", text)]
    return {
        "flag": lambda: ["{}m"],
        "color": lambda: colors(first),
        "keys": lambda: [">{};{/value}m", ">{}m"],
        "report": lambda: [f"<{{}};{member(names[0])};{member(names[1])}{end}" for end in "Mm"],
        "state": lambda: [text[0] + "{/flags};{}u"],
        "extensions": lambda: [re.sub(r";.*", "", text) + "c", re.sub(r";.*", "", text) + f";{member(f'value/{variant}|;')}c"],
        "graphics": lambda: [f"?{item};{{/value/action_or_status}};{{/value/value|;}}S" for item in ("{}", "{/value/item}")],
    }[form]()


def rows():
    """Each action's name with its patterns, in the order in which they are tried."""
    found = {}
    for group in BY_NUMBER:
        for action in SUBJECTS[group].actions:
            name, *part = action.variant
            if action.row.get("read", True):
                texts = texts_of(action.form, list(action.names), action.text(), part and part[0])
                found.setdefault(f"{group}::{name}", []).extend("[" + pattern for pattern in texts)
    codes = [number.to_bytes(2, "big").decode().lstrip("\0") for kind in declared(ESCAPES) for _, number, _ in numbers_of(kind)]
    return {**found, **OTHERS, "Esc::Code": codes}


def codes():
    """The names that stand for numbers."""
    found = {}
    for kind in declared(NAMED + acting()):
        if kind.name in CODED:
            for variant, number, _ in numbers_of(kind):
                if found.setdefault(variant, number) != number:
                    sys.exit(f"table: two numbers of {variant}: csicodec_explain knows names by themselves")
    return found.items()


SAID = """Names of actions, each with the texts that may stand behind ESC, a tab ahead of each. What is between braces stands for something else: the
place of a member (RFC 6901) for what that says, one with `'` behind it for a byte, and one with `|;` for the items of a list with `;` between
them; nothing for a number of which only an enumeration says the name."""


def patterns():
    texts = ((name, "\t".join(texts)) for name, texts in rows().items())
    return f"""//! The texts of actions, and the numbers of names. Written by tools/table.

/// Rows on a line.
macro_rules! pieces {{
    ($($piece:tt)*) => {{ [$($piece)*] }};
}}

{keyed(SAID, "PATTERNS", texts)}
{keyed("Names that stand for a number, a tab, and the number.", "CODES", codes())}"""
