"""The part of the header that has the kinds, and the numbers in them."""
import re

from bindings.known import GONE, GONE_MEANING, PREFIX, known
from bindings.library import ESCAPES, NAMED, PATH, acting, declared, docs_of, kinds, low, numbers_of, snake, type_of, types
from bindings.said import c_enumerations, c_names

# What the fields of a struct hold, by its form.
FIELDS = {
    "unit": "",
    "count": "first: how many",
    "place": "first: it, from 1",
    "places": "first: {0}; second: {1}; both from 1",
    "int": "first: the number",
    "ints": "first: {0}; second: {1}",
    "sizes": "first: {0}; second: {1}; either may be absent",
    "flag": "first: 1 on, 0 off",
    "color": "first: enum csicodec_color, with second or red, green, blue and alpha",
    "keys": "first: enum csicodec_xterm_key_modifier_resource; second: the value, which may be absent",
    "area": "first: request_id; second: page_number; top, left, bottom, right: from 1",
    "report": "first: {0}; second: {1}; button; modifiers",
    "state": "first: enum csicodec_kitty_keyboard_flags; second: enum csicodec_kitty_keyboard_mode",
    "bits": "first: enum csicodec_kitty_keyboard_flags",
    "extensions": "place, len: the extensions",
    "graphics": "first: the item; second: the action or the status; place, len: the values",
}


def c_name(group, variant):
    """A kind as C has it."""
    return "_".join(["CSICODEC"] + [snake(part) for part in ([group] if variant[0] != "DeviceAttributes" else []) + variant])


def c_enum_of(name):
    name = {"DecPrivateMode": "DecPrivateModeCode", "TerminalMode": "TerminalModeCode"}.get(name, name)
    return "csicodec_" + low(name)


def comment(text, indent="    "):
    """A comment of lines of at most 128 characters."""
    lines, line = [], f"{indent}/*"
    for word in text.replace("`", "").split():
        if len(line) + 1 + len(word) > 128:
            lines.append(line)
            line = f"{indent} *"
        line += " " + word
    return "\n".join(lines + [line + " */"]) + "\n"


def meaning(form, names):
    if form == "enum":
        if names[0] == "Font":
            return "first: 0 the primary font, 1 to 9 another"
        if names[0].endswith("Mode"):
            return f"first: the number of the mode, 0 to 65535, such as one of enum {c_enum_of(names[0])}"
        return f"first: enum {c_enum_of(names[0])}"
    return FIELDS[form].format(*names)


def header_kinds():
    out = "enum csicodec_kind {\n" + comment("A list, or the remainder of one, that no rule reads. (final_char: its final character; place, len: its tokens)") + "    CSICODEC_UNSPECIFIED = 0,\n"
    for number, group, variant, form, names in kinds():
        owner = "DeviceAttributes" if len(variant) > 1 else type_of(group)
        doc = next(it.doc for it in types()[owner].variants if it.name == variant[-1])
        doc = re.sub(r"\[`?([^]`]*)`?\](\([^)]*\))?", r"\1", doc)
        fields = meaning(form, names)
        out += comment(doc + (f" ({fields})" if fields else "")) + f"    {c_name(group, variant)} = {number},\n"
    out += comment("SCP (ECMA-48, 8.3.111): the path of characters (first: enum csicodec_character_path; second: the effect)") + f"    CSICODEC_SELECT_CHARACTER_PATH = {PATH}\n}};\n"
    for kind in declared([*NAMED, *acting(), *ESCAPES]):
        name, rows_ = kind.name, numbers_of(kind)
        if not rows_:
            continue
        text = " ".join(re.sub(r"^/// ?", "", line) for line in docs_of(kind).partition("///\n/// ```")[0].strip().split("\n"))
        out += "\n" + comment(re.sub(r"\[`?([^]`]*)`?\](\([^)]*\))?", r"\1", text), "") + f"enum {c_enum_of(name)} {{\n"
        for v, n, doc in rows_:
            out += (comment(doc) if doc else "") + f"    CSICODEC_{kind.prefix or snake(name)}_{snake(v)} = {n}{',' if (v, n, doc) != rows_[-1] else ''}\n"
        out += "};\n"
    return out + header_known()


def header_known():
    """The kinds of sequences without an action."""
    out = "\n" + comment("Which row of docs/SEQUENCES.md reads a list that no action has: kind of struct csicodec_known. The comment says what stands behind CSI, each value by its name.", "")
    out += "enum csicodec_known_kind {\n"
    said_of = [(name, kind, f"{form} : {said}") for name, (kind, _, form, _, said, _) in known()] + [(name, kind, GONE_MEANING) for name, kind in GONE.items()]
    for name, kind, said in said_of:
        out += comment(said.replace("`", chr(0))).replace(chr(0), "`")
        out += f"    {PREFIX}{name} = {kind}{',' if name != said_of[-1][0] else ''}\n"
    return out + "};\n" + c_enumerations(comment)


def header_names():
    """What gives the name of a kind."""
    names = ["CSICODEC_UNSPECIFIED"] + [c_name(group, variant) for _, group, variant, _, _ in kinds()] + ["CSICODEC_SELECT_CHARACTER_PATH"] + [PREFIX + name for name in [*(name for name, _ in known()), *GONE]]
    out = ""
    for said, call, rows in [("the name of a kind in this header, such as \"CSICODEC_CURSOR_UP\"", "csicodec_kind_name", names), *c_names()]:
        out += f"/* {said[0].upper()}{said[1:]}; NULL for another number. */\nstatic inline const char *{call}(uint32_t kind) {{\n    switch (kind) {{\n"
        out += "".join(f'    case {name}: return "{name}";\n' for name in rows)
        out += "    default: return NULL;\n    }\n}\n\n"
    return f"""/* The names of kinds, of commands of OSC, and of keys. Written by tools/table; csicodec.h includes it. */
#ifndef CSICODEC_NAMES_H
#define CSICODEC_NAMES_H

#include <stddef.h>
#include <stdint.h>

#include "csicodec_kinds.h"

{out}#endif
"""


def header():
    return f"""/* The kinds of actions, and the numbers in them. Written by tools/table; csicodec.h includes it. */
#ifndef CSICODEC_KINDS_H
#define CSICODEC_KINDS_H

/* Which action. The parentheses say what the fields of struct csicodec_action hold; every other field is 0. */
{header_kinds()}
#endif
"""
