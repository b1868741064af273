"""What the package for JavaScript has for each kind: names by number, the form of each action, and its type as TypeScript has it."""
import textwrap

from bindings.known import known
from bindings.library import BY_NUMBER, PATH, of, type_of
from bindings.python import enumerations, group_docs

HEAD = "// {}. Written by tools/table.\n"
# Each form of table/actions.toml: its fields with their types. A, B and E are the names behind it.
FIELDS = {
    "unit": [],
    "count": [("count", "number")],
    "place": [("place", "number")],
    "places": [("A", "number"), ("B", "number")],
    "int": [("number", "Integer")],
    "ints": [("A", "Integer"), ("B", "Integer")],
    "sizes": [("A", "Integer | undefined"), ("B", "Integer | undefined")],
    "enum": [("value", "E")],
    "mode": [("mode", "ECode | number")],
    "font": [("number", "number")],
    "flag": [("value", "boolean")],
    "color": [("color", "Color")],
    "keys": [("resource", "XtermKeyModifierResource"), ("value", "Integer | undefined")],
    "area": [(name, "Integer" if name in ("request_id", "page_number") else "number") for name in ("request_id", "page_number", "top", "left", "bottom", "right")],
    "report": [("A", "number"), ("B", "number"), ("button", "MouseButton"), ("modifiers", "number")],
    "state": [("flags", "number"), ("mode", "KittyKeyboardMode")],
    "bits": [("flags", "number")],
    "extensions": [("attributes", "readonly (DeviceAttributeCodes | Token)[]")],
    "graphics": [("item", "XtSmGraphicsItem | Integer"), ("action_or_status", "Integer"), ("value", "readonly Integer[]")],
    "path": [("path", "CharacterPath"), ("effect", "Integer")],
    "unknown": [("params", "readonly Token[]"), ("control", "string")],
}


def form_of(form, names):
    """The form, with those of modes and of the font by names of their own, and the names in it."""
    if names == ["Font"]:
        return "font", []
    return ("mode" if names and names[0] in ("DecPrivateMode", "TerminalMode") else form), names


def kinds():
    """Each kind: its number, its type's name, its form, the names in it and its documentation."""
    yield 0, "Unspecified", "unknown", [], "A control sequence that no other action stands for, with nothing lost."
    for group in BY_NUMBER:
        for number, _, variant, form, names in of(group):
            yield number, f"{type_of(group)}.{variant[-1]}", *form_of(form, names), group_docs(group, variant)
    yield PATH, "SelectCharacterPath", "path", [], "SCP (ECMA-48, 8.3.111): the direction of writing."


def laid_out(name, rows):
    """A table of names by number."""
    pairs = ", ".join(f"{number}: '{variant}'" for variant, number in rows)
    return f"    {name}: {{\n" + "\n".join(textwrap.wrap(pairs + ",", 132, initial_indent=" " * 8, subsequent_indent=" " * 8)) + "\n    },\n"


def javascript_actions():
    out = HEAD.format("The actions and enumerations, by their numbers in C") + "\n"
    out += "/** The names of each enumeration. */\nexport const NAMES = {\n"
    out += "".join(laid_out(name, [(variant, number) for variant, number, _ in rows]) for name, _, rows in enumerations())
    out += laid_out("KnownKind", [(name, kind) for name, (kind, *_) in known()])
    out += "};\n\n/** The type of each kind of action, its form, and the names in that. */\nexport const KINDS = {\n"
    out += "".join(f"    {number}: [{', '.join(repr(word) for word in [name, form, *names])}],\n" for number, name, form, names, _ in kinds())
    return out + "};\n"


def field(name, kind, names):
    """A field, with the names of its form."""
    name = names[0] if name == "A" else names[1] if name == "B" else name
    kind = kind.replace("ECode", f"{names[0]}Code") if "ECode" in kind else names[0] if kind == "E" else kind
    return f"readonly {name}: {kind}"


def javascript_types():
    out = HEAD.format("The types of actions and enumerations") + """
/** A whole number; a bigint where it is beyond Number.MAX_SAFE_INTEGER. */
export type Integer = number | bigint;
/** A parameter of an unknown control sequence: a number, or a character such as ';'. */
export type Token = Integer | string;
/** A colour: the terminal's own; a place in the palette, 0 to 255; or its parts, each 0 to 255. */
export type Color =
    | { readonly type: 'DefaultColor' }
    | { readonly type: 'PaletteColor'; readonly index: number }
    | { readonly type: 'TrueColor'; readonly red: number; readonly green: number; readonly blue: number; readonly alpha: number };
"""
    for name, docs, rows in [*enumerations(), ("KnownKind", "A row of docs/SEQUENCES.md, under its name in C.", [(name, 0, "") for name, _ in known()])]:
        union = "\n".join(textwrap.wrap(" | ".join(f"'{variant}'" for variant, _, _ in rows), 132, initial_indent="    ", subsequent_indent="    | ", break_on_hyphens=False))
        out += f"\n/** {' '.join(docs.split())} */\nexport type {name} =\n{union.replace('| |', '|')};\n".replace(" |\n", "\n")
    out += "\n/** An action of a control sequence. */\nexport type Action =\n"
    for _, name, form, names, docs in kinds():
        fields = "; ".join([f"readonly type: '{name}'", *(field(*it, names) for it in FIELDS[form])])
        out += f"    /** {' '.join(docs.split())} */\n    | {{ {fields} }}\n"
    return out.rstrip("\n") + ";\n"
