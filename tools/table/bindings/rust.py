"""What the package for Rust has for each kind: the library's types, and their structs."""
import dataclasses
import re

from bindings.known import GONE, GONE_MEANING, known
from bindings.library import BY_NUMBER, IN_TURN, PATH, declared, docs_of, has_tokens, is_boxed, low, numbers_of, of, type_of
from bindings.source import source_name, struct_arm
from bindings.specs import names_in

# What serde reads and writes, if it is asked for.
SERDE = '#[cfg_attr(feature = "serde", derive(serde::Serialize, serde::Deserialize))]\n'

# What has a variant more in no later version; the others grow as terminals do.
CLOSED = {"Font", "ColorSpec", "CsiParam", "DecPrivateMode", "TerminalMode", "DeviceAttribute", "Esc"}

# What has its tag in a byte of its own, where an event has its tag too; and what is in a box stands last, so that one comparison tells
# whether there is anything to drop.
TAGGED = {"CSI"}

# The colours of a struct, by its first number.
COLORS = ["ColorSpec::Default", "ColorSpec::PaletteIndex(index(given.second))", "ColorSpec::TrueColor(rgba(given))"]

# The groups whose actions are made where they are asked for.
OFTEN = ["Sgr", "Cursor", "Edit"]


def said(kind):
    """The types in a declaration's variants."""
    for variant in kind.variants:
        yield from re.findall(r"\b[A-Z]\w*", " ".join([variant.holds, *(held for _, held, _ in variant.fields)]))


def laid(kind):
    """The lines of a declaration's variants. Where each is a name alone it has its number, so that `as` gives that too."""
    variants = sorted(kind.variants, key=lambda variant: "Box<" in variant.holds) if kind.name in TAGGED else kind.variants
    return "".join(f"{line}\n" for variant in variants for line in dataclasses.replace(variant, shown=variant.shown or ("" if variant.number is None else str(variant.number))).lines(True))


def rust_types(subject, sources):
    kinds = declared(sources)
    others = {other for kind in kinds for other in said(kind)} - {kind.name for kind in kinds} - {"Box", "Option"}
    out = f"//! {subject}, under the names of the library and with its documentation. Written by tools/table.\n"
    if others:
        out += f"\nuse crate::{{{', '.join(sorted(others))}}};\n"
    if any("Box<" in variant.holds for kind in kinds for variant in kind.variants):
        out += "use alloc::boxed::Box;\n"
    for kind in kinds:
        name, rows_ = kind.name, numbers_of(kind)
        derives = "Clone, Debug, PartialEq, Eq, Hash" if "Drop" in kind.derives else "Clone, Copy, Debug, PartialEq, Eq, Hash"
        growing = ("" if name in CLOSED else "#[non_exhaustive]\n") + ("#[repr(u8)]\n" if name in TAGGED else "")
        out += f"\n{docs_of(kind)}#[derive({derives})]\n{SERDE}{growing}pub enum {name} {{\n{laid(kind)}}}\n"
        if not rows_:
            continue
        out += f"\nimpl {name} {{\n    /// Its number.\n    pub fn to_i64(&self) -> i64 {{\n        match self {{\n"
        out += "".join(f"            {name}::{v} => {n},\n" for v, n, _ in rows_)
        out += "        }\n    }\n\n    /// The one that has this number.\n    pub fn from_i64(number: i64) -> Option<Self> {\n        match number {\n"
        out += "".join(f"            {n} => Some({name}::{v}),\n" for v, n, _ in rows_)
        out += "            _ => None,\n        }\n    }\n}\n"
    return out


def number_in_rust(names):
    return "font_number(value)" if names == ["Font"] else "i64::from(value.number())" if names[0].endswith("Mode") else "value.to_i64()"


OWN = {
    "enum": number_in_rust,
    "flag": "i64::from(*value)",
    "keys": "resource.to_i64()",
    "area": "Action",
    "state": "mode.to_i64()",
    "extensions": "extended_row({}, flags, params)",
    "graphics": "graphics_row({}, graphics, params)",
}


def rust_of(number, group, variant, form, names):
    name, tail = source_name(group, variant)
    a, b = names_in(names)
    passed = lambda value: f"of(CSI::{group}({f'Box::new({value})' if is_boxed(group) else value}))"
    if form == "color":
        return f"{number} => match given.first {{\n" + "".join(f"{n} => {passed(f'{name}({value})')},\n" for n, value in enumerate(COLORS)) + "_ => sure(None),\n},\n"
    right = {
        "unit": "",
        "count": "(count(given.first))",
        "place": "(place(given.first))",
        "places": f" {{ {a}: place(given.first), {b}: place(given.second) }}",
        "int": "(given.first)",
        "ints": f" {{ {a}: given.first, {b}: given.second }}",
        "sizes": f" {{ {a}: first(given), {b}: second(given) }}",
        "enum": f"(sure({names[0] if names else ''}::{'at' if names and names[0].endswith('Mode') else 'from_i64'}(given.first)))" if names != ["Font"] else "(font(given.first))",
        "flag": "(given.first != 0)",
        "keys": " { resource: sure(XtermKeyModifierResource::from_i64(given.first)), value: second(given) }",
        "area": " { request_id: given.first, page_number: given.second, top: sure(OneBased::new(given.top)), left: sure(OneBased::new(given.left)), bottom: sure(OneBased::new(given.bottom)), right: sure(OneBased::new(given.right)) }",
        "report": f" {{ {a}: sure(given.first.try_into().ok()), {b}: sure(given.second.try_into().ok()), button: sure(MouseButton::from_i64(i64::from(given.button))), modifiers: Modifiers::from_bits_retain(given.modifiers) }}",
        "state": " { flags: flags(given.first), mode: sure(KittyKeyboardMode::from_i64(given.second)) }",
        "bits": "(flags(given.first))",
        "extensions": "(extensions(tokens(given, params)))",
        "graphics": "(graphics(given, tokens(given, params)))",
    }[form]
    return f"{number} => {passed(name + right + tail)},\n"


def numbers(group):
    """The numbers that the kinds of a group have, as a pattern."""
    there = [number for number, *_ in of(group)]
    return f"{min(there)}..={max(there)}"


ROWS = """//! The struct of each action, and the action of each struct. Written by tools/table.

use crate::numbers::{color_row, count, extended_row, extensions, first, flags, font, font_number, graphics, graphics_row, index, place, report_row, rgba, row, second, sized_row, sure, tokens, unknown, unknown_row};
use crate::raw::{Action, Param};
use crate::*;
use alloc::{boxed::Box, vec::Vec};
GROUPS
/// The struct of an action; its tokens go behind those that are there.
pub(crate) fn struct_of(action: &CSI, params: &mut Vec<Param>) -> Action {
    match action {
STRUCTS        CSI::SelectCharacterPath(path, effect) => row(PATH, path.to_i64(), *effect),
        CSI::Unspecified(unknown) => unknown_row(unknown, params),
    }
}

/// The action of a struct that the library made, as `of` takes it, if its group is one that streams are full of.
#[inline(always)]
pub(crate) fn often_of<T>(given: &Action, of: impl Fn(CSI) -> T, other: impl Fn() -> T) -> T {
    match given.kind {
ARMS_OFTEN        _ => other(),
    }
}

/// The action of a struct of another group, with its tokens among `params`. The library makes no other struct.
#[inline(never)]
pub(crate) fn other_of(given: &Action, params: &[Param]) -> CSI {
    let of = |action| action;
    match given.kind {
        0 => of(CSI::Unspecified(Box::new(unknown(given, tokens(given, params))))),
ARMS_OTHER        PATH => of(CSI::SelectCharacterPath(sure(CharacterPath::from_i64(given.first)), given.second)),
        _ => sure(None),
    }
}
"""


def group_rows(group):
    """The struct of each action of a group, and the action of each struct."""
    more = ", params: &mut Vec<Param>" if has_tokens(group) else ""
    out = f"\nfn {low(group)}_struct({low(group)}: &{type_of(group)}{more}) -> Action {{\n    match {low(group)} {{\n"
    out += "".join(struct_arm(kind, OWN) for kind in of(group)) + "    }\n}\n"
    more = ", params: &[Param]" if has_tokens(group) else ""
    out += f"\n#[inline(always)]\nfn {low(group)}_of<T>(given: &Action{more}, of: impl Fn(CSI) -> T) -> T {{\n    match given.kind {{\n"
    return out + "".join(rust_of(*kind) for kind in of(group)) + "        _ => sure(None),\n    }\n}\n"


def rust_rows():
    params = {group: ", params" if has_tokens(group) else "" for group in BY_NUMBER}
    arms = {
        "GROUPS": "".join(map(group_rows, BY_NUMBER)),
        "STRUCTS": "".join(f"        CSI::{group}({low(group)}) => {low(group)}_struct({low(group)}{params[group]}),\n" for group in IN_TURN),
        "ARMS_OFTEN": "".join(f"        {numbers(group)} => {low(group)}_of(given, of),\n" for group in OFTEN),
        "ARMS_OTHER": "".join(f"        {numbers(group)} => {low(group)}_of(given{params[group]}, of),\n" for group in BY_NUMBER if group not in OFTEN),
        "PATH": str(PATH),
    }
    out = ROWS
    for name, text in arms.items():
        out = out.replace(name, text)
    return out


def rust_known():
    out = "//! The kinds of sequences without an action. Written by tools/table.\n\nuse crate::known::KnownKind;\n\nimpl KnownKind {\n"
    for name, (kind, _, form, _, said, source) in known():
        out += f"    /// `` {form} ``: {said} ({source}).\n    pub const {name}: KnownKind = KnownKind({kind});\n"
    for name, kind in GONE.items():
        out += f"    /// {GONE_MEANING.capitalize()}.\n    pub const {name}: KnownKind = KnownKind({kind});\n"
    out += "\n    /// The name of its constant, such as `DECSED`.\n    pub fn name(&self) -> &'static str {\n        match self.0 {\n"
    out += "".join(f'            {kind} => "{name}",\n' for name, kind in [*((name, kind) for name, (kind, *_) in known()), *GONE.items()])
    return out + '            _ => "",\n        }\n    }\n}\n'
