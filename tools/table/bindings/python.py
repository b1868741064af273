"""What the package for Python has for each kind: the library's enumerations, and a class for each action, over the forms that the package
has of its own."""
import re
import textwrap

from bindings.known import known
from bindings.library import BY_NUMBER, ESCAPES, NAMED, PATH, SUBJECTS, acting, declared, docs_of, numbers_of, of, type_of, types
from bindings.said import said_enumerations

WIDTH = 136
# The form in the package's forms.py of each form of table/actions.toml; of those with names, by these.
FORMS = {
    "count": "OfCount",
    "place": "OfPlace",
    "places line col": "OfLineAndCol",
    "places top bottom": "OfTopAndBottom",
    "places left right": "OfLeftAndRight",
    "int": "OfNumber",
    "ints x y": "OfXAndY",
    "sizes width height": "OfSize",
    "enum Font": "OfFont",
    "enum DecPrivateMode": "OfDecPrivateMode",
    "enum TerminalMode": "OfTerminalMode",
    "flag": "OfFlag",
    "color": "OfColor",
    "keys": "OfResource",
    "area": "OfArea",
    "report x y": "OfCellReport",
    "report x_pixels y_pixels": "OfPixelReport",
    "state": "OfKittyState",
    "bits": "OfKittyFlags",
    "extensions": "OfAttributes",
    "graphics": "OfGraphics",
}
HEAD = '"""{}. Written by tools/table."""\nfrom __future__ import annotations\n\n'


def said(docs):
    """Documentation of Rust as plain words: without its marks, links and examples."""
    lines = [line.strip() for line in re.sub(r"(///\n\s*)?/// ```.*?/// ```\n", "", docs, flags=re.S).strip().split("\n")]
    lines = [line[3:].removeprefix(" ") if line.startswith("///") else line for line in lines]
    return re.sub(r"\[(`[^`]*`)\](\([^)]*\))?", r"\1", "\n".join(lines)).replace("\\", "\\\\").strip()


def filled(text, indent, before):
    return textwrap.fill(" ".join(text.split()), WIDTH, initial_indent=indent + before, subsequent_indent=indent + before.replace('"', "")[:2], break_on_hyphens=False, break_long_words=False)


def docstring(text, indent, example=""):
    """It as a docstring, laid out anew, with an example behind it."""
    parts = ["\n".join(textwrap.wrap(" ".join(part.split()), WIDTH - len(indent) - 6, break_on_hyphens=False, break_long_words=False)) for part in text.split("\n\n")]
    body = textwrap.indent("\n\n".join([*parts, *([example] if example else [])]), indent).strip()
    return f'{indent}"""{body}"""\n' if "\n" not in body else f'{indent}"""{body}\n{indent}"""\n'


def enumerations():
    """Those of which each variant has a number and no values."""
    for kind in declared([*NAMED, *acting(), *ESCAPES]):
        if numbers_of(kind):
            yield kind.name, said(docs_of(kind)), [(variant, number, said(doc)) for variant, number, doc in numbers_of(kind)]
    yield "XtSmGraphicsItem", "What XTSMGRAPHICS asks about; another number stands for itself.", [
        ("NumberOfColorRegisters", 1, "How many colours a picture can have."),
        ("SixelGraphicsGeometry", 2, "The largest picture in sixels, in pixels."),
        ("RegisGraphicsGeometry", 3, "The largest picture in ReGIS, in pixels."),
    ]
    yield from said_enumerations()


def enumeration(name, docs, rows):
    out = f"\n\nclass {name}(IntEnum):\n{docstring(docs, '    ')}\n"
    for variant, number, doc in rows:
        variant = f"{variant}_" if variant in ("None", "True", "False") else variant
        out += (filled(doc, "    ", "#: ") + "\n" if doc else "") + f"    {variant} = {number}\n"
    return out


def listed(names):
    return "__all__ = [\n" + "".join(f'    "{name}",\n' for name in sorted(names)) + "]\n"


def python_enums():
    rows = list(enumerations())
    return HEAD.format("The enumerations, under the names of the library and with its documentation") + "from enum import IntEnum\n\n" + listed(name for name, _, _ in rows) + "".join(enumeration(*row) for row in rows)


def bases(kind, form, names):
    """What the class of an action stands on, and what it tells of itself."""
    if form == "unit":
        return f"{kind}Action", ""
    found = FORMS.get(" ".join([form, *names]))
    if form == "enum" and not found:
        return f"OfMember[enums.{names[0]}], {kind}Action", f", members=enums.{names[0]}"
    return f"{found or FORMS[form]}, {kind}Action", ""


def variant_docs(kind, variant):
    """What a variant of a type says of itself."""
    return said(next(it.doc for it in types()[kind].variants if it.name == variant))


def group_docs(group, variant):
    """What a variant of a group says of itself."""
    return variant_docs(variant[0] if len(variant) > 1 else type_of(group), variant[-1])


def group_of_actions(group):
    kind = type_of(group)
    docs = docs_of(types()[kind])
    text, read = SUBJECTS[group].row["example"]
    example = f'>>> list(events("{text}"))\n{read}'.replace("\\", "\\\\")
    out = f'\n\nclass {kind}Action(Action):\n    """Any action of {kind}."""\n'
    out += f"\n\nclass {kind}({kind}Action, metaclass=Group):\n{docstring(said(docs), '    ', example)}"
    for number, _, variant, form, names in of(group):
        on, more = bases(kind, form, names)
        out += f"\n    class {variant[-1]}({on}, kind={number}{more}):\n{docstring(group_docs(group, variant), ' ' * 8)}"
    return out


def python_actions():
    kinds = [type_of(group) for group in BY_NUMBER]
    body = "".join(group_of_actions(group) for group in BY_NUMBER)
    body += f"\n\nclass SelectCharacterPath(OfPath, kind={PATH}):\n{docstring(variant_docs('CSI', 'SelectCharacterPath'), '    ')}"
    forms = sorted({*re.findall(r"\bOf\w+", body)})
    out = HEAD.format("The actions, under the names of the library and with its documentation")
    out += "from . import enums\nfrom .forms import (\n    Action,\n" + "".join(f"    {form},\n" for form in forms) + "    Unspecified,\n)\nfrom .values import Group\n\n"
    return out + listed(["SelectCharacterPath", "Unspecified", *kinds, *(f"{kind}Action" for kind in kinds)]) + body


def python_known():
    out = HEAD.format("The kinds of control sequences without an action") + "from enum import IntEnum\n\n\n"
    out += 'class KnownKind(IntEnum):\n    """A row of docs/SEQUENCES.md, under its name in C: its form, what it says, and the document that it comes from."""\n\n'
    for name, (kind, _, form, _, words, source) in known():
        out += filled(f"`` {form} ``: {words} ({source}).", "    ", "#: ") + f"\n    {name} = {kind}\n"
    return out
