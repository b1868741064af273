"""An example of each kind, with its text, as a table for the tests in C and in Rust."""
from bindings.header import c_name
from bindings.known import PREFIX, known
from bindings.library import BY_NUMBER, SUBJECTS, is_boxed, of, types
from bindings.source import source_name
from bindings.specs import names_in
from layout import string


def example(number, group, variant, form, names):
    """The value in Rust, and the fields of the struct."""
    a, b = names_in(names)
    value, field = types()[names[0]].example if form == "enum" else ("", 0)
    inner, fields = {
        "unit": ("", ""),
        "count": ("(5)", ".first = 5"),
        "place": ("(at(7))", ".first = 7"),
        "places": (f" {{ {a}: at(3), {b}: at(4) }}", ".first = 3, .second = 4"),
        "int": ("(1)", ".first = 1"),
        "ints": (f" {{ {a}: 30, {b}: 40 }}", ".first = 30, .second = 40"),
        "sizes": (f" {{ {a}: Some(30), {b}: Some(40) }}", ".first = 30, .second = 40"),
        "enum": (f"({names[0] if names else ''}::{value})", f".first = {field}"),
        "flag": ("(true)", ".first = 1"),
        "color": ("(ColorSpec::PaletteIndex(16))", ".first = CSICODEC_COLOR_PALETTE, .second = 16"),
        "keys": (" { resource: XtermKeyModifierResource::CursorKeys, value: Some(2) }", ".first = 1, .second = 2"),
        "area": (" { request_id: 1, page_number: 2, top: at(3), left: at(4), bottom: at(5), right: at(6) }", ".first = 1, .second = 2, .top = 3, .left = 4, .bottom = 5, .right = 6"),
        "report": (f" {{ {a}: 3, {b}: 4, button: MouseButton::Button1Press, modifiers: Modifiers::SHIFT }}", ".first = 3, .second = 4, .button = CSICODEC_MOUSE_BUTTON1_PRESS, .modifiers = CSICODEC_MODIFIERS_SHIFT"),
        "state": (" { flags: KittyKeyboardFlags::from_bits_retain(3), mode: KittyKeyboardMode::SetSpecified }", ".first = 3, .second = CSICODEC_KITTY_KEYBOARD_MODE_SET_SPECIFIED"),
        "bits": ("(KittyKeyboardFlags::from_bits_retain(5))", ".first = 5"),
        "extensions": ("(extensions())", ".len = 2"),
        "graphics": ("(XtSmGraphics { item: XtSmGraphicsItem::SixelGraphicsGeometry, action_or_status: 1, value: vec![9, 8] })", ".first = 2, .second = 1, .len = 2"),
    }[form]
    name, tail = source_name(group, variant)
    value = f"{name}{inner}{tail}"
    boxed = f"Box::new({value})" if is_boxed(group) else value
    params = {"extensions": "{0, 2}, {0, 7}", "graphics": "{0, 9}, {0, 8}"}.get(form, "")
    return f"CSI::{group}({boxed})", fields, params


def examples():
    """Each kind with its text, and whether it is read back."""
    for group in BY_NUMBER:
        for kind, action in zip(of(group), SUBJECTS[group].actions, strict=True):
            yield kind, action.text(), action.row.get("read", True)


def rust_examples():
    out = """//! Each kind of action, its text, and whether it is read back. Written by tools/table.

use crate::{at, extensions};
use csicodec::*;

pub(crate) fn kinds() -> Vec<(CSI, &'static str, bool)> {
    vec![
"""
    for kind, text, read in examples():
        out += f'        ({example(*kind)[0]}, "{text}", {str(read).lower()}),\n'
    out += """        (CSI::SelectCharacterPath(CharacterPath::LeftToRightOrTopToBottom, 2), "1;2 k", true),
        (
            CSI::Unspecified(Box::new(Unspecified { params: vec![CsiParam::Integer(0), CsiParam::P(b'%')], control: 'm' })),
            "0%m",
            true,
        ),
    ]
}

/// A text of each kind of sequence without an action.
pub(crate) fn known() -> Vec<(&'static str, KnownKind)> {
    vec![
"""
    for name, (_, _, _, text, _, _) in known():
        out += f"        ({string(text)}, KnownKind::{name}),\n"
    return out + "    ]\n}\n"


def c_examples():
    out = """/* Each kind of action: its text, whether it is read back, its struct and its tokens. Written by tools/table. */
static const struct {
    const char *text;
    int read;
    struct csicodec_action action;
    struct csicodec_param params[2];
} kinds[] = {
"""
    for kind, text, read in examples():
        _, fields, params = example(*kind)
        fields = f".kind = {c_name(kind[1], kind[2])}" + (", " + fields if fields else "")
        out += f'    {{"\\x1b[" "{text}", {int(read)}, {{{fields}}}, {{{params or "{0, 0}"}}}}},\n'
    out += """    {"\\x1b[" "1;2 k", 1, {.kind = CSICODEC_SELECT_CHARACTER_PATH, .first = 1, .second = 2}, {{0, 0}}},
    {"\\x1b[" "0%m", 1, {.kind = CSICODEC_UNSPECIFIED, .final_char = 'm', .len = 2}, {{0, 0}, {1, '%'}}},
};
/* Each kind of sequence without an action, and a text of it. */
static const struct {
    const char *text;
    uint32_t kind;
} known[] = {
"""
    for name, (_, _, _, text, _, _) in known():
        out += f'    {{"\\x1b[" {string(text)}, {PREFIX}{name}}},\n'
    return out + "};\n"
