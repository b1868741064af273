"""The specs of csicodec_structs that have a line for each kind: which struct an action is, which actions are in range, and which are by their
name."""
import re

from bindings.library import BY_NUMBER, IN_TURN, PATH, has_tokens, low, module, number_of, of, text_of, type_of, used


def spec_use(crate, file, text):
    """The `use` line of what the text says of the definitions of a file of specs."""
    names = re.findall(r"^(?:abbrev |unfoldable )?pub (?:record )?(\w+) ", text_of(f"crates/{crate}/specs/{file}.antt"), re.M)
    said = used(names, text)
    return f"use Rattle.{crate}.specs.{file}.{{{said}}}\n" if said else ""


def own_use(text):
    """The `use` line of what the text says of the definitions that are written here."""
    names = ["struct_of", "params_of", "InRange", "IsNamed"]
    for group in IN_TURN:
        names += [f"{low(group)}_struct", f"{low(group)}_params", f"{group}InRange", f"IsNamed{group}"]
    return f"use Rattle.csicodec_structs.specs.Rows.{{{used(names, text)}}}\n"


def type_use(group, text):
    """The `use` lines of the type of a group, and of its variants where the text says one. What has tokens is a type of the specs."""
    said = module(type_of(group)).rpartition(".")[0]
    said, own = (f"Rattle.csicodec_actions.specs.{group}s", "") if has_tokens(group) else (f"{said}.{type_of(group)}", ".TheVariants")
    out = f"use {said}.{{{type_of(group)}}}\n" if re.search(rf"(?<![\w.]){type_of(group)}\b", text) else ""
    return out + (f"use {said}{own} as {low(group)}\n" if re.search(rf"\b{low(group)}\.", text) else "")


def type_uses(text):
    return "".join(type_use(group, text) for group in IN_TURN) + """\
use Rattle.csicodec_actions.specs.Actions.{Action}
use Rattle.csicodec_actions.specs.Actions as action
"""


def value(group, variant, left):
    """A value as a pattern, with what stands behind the name of its variant."""
    name = f"{low(group)}.{variant[0]}"
    if len(variant) > 1:
        inner = f"{low(group)}.{variant[1]}"
        return f"{name} " + (f"({inner}{left})" if left else inner)
    return name + left


def names_in(names):
    return (names + ["a", "b"])[:2]


# ---- the structs


def spec_row(number, group, variant, form, names):
    a, b = names_in(names)
    left, right = {
        "unit": ("", f"row {number} (pos 0) (pos 0)"),
        "count": (" n", f"row {number} (pos n) (pos 0)"),
        "place": (" n", f"row {number} (pos n) (pos 0)"),
        "places": (f" {a} {b}", f"row {number} (pos {a}) (pos {b})"),
        "int": (" z", f"row {number} z (pos 0)"),
        "ints": (f" {a} {b}", f"row {number} {a} {b}"),
        "sizes": (f" {a} {b}", f"sized_row {number} {a} {b}"),
        "enum": (" v", f"row {number} (pos ({number_of(names[0])[0]} v)) (pos 0)" if form == "enum" else ""),
        "flag": (" v", f"row {number} (pos (flag_number v)) (pos 0)"),
        "color": (" c", f"color_row {number} c"),
        "keys": (" resource value", f"sized_row {number} (Some (pos (resource_number resource))) value"),
        "area": (" request_id page_number top left bottom right", f"area_row {number} request_id page_number top left bottom right"),
        "report": (f" {a} {b} button modifiers", f"report_row {number} {a} {b} button modifiers"),
        "state": (" flags mode", f"row {number} (pos (kitty_bits flags)) (pos (kitty_mode_number mode))"),
        "bits": (" flags", f"row {number} (pos (kitty_bits flags)) (pos 0)"),
        "extensions": (" list", f"list_row {number} (pos 0) (pos 0) place (length list)"),
        "graphics": (" item action_or_status value", f"list_row {number} (item_number item) action_or_status place (length value)"),
    }[form]
    said = value(group, variant, left)
    said = f"({said})" if " " in said else said
    return (f"place {said}" if has_tokens(group) else said), right


def params_row(number, group, variant, form, names):
    """The tokens, where it has some."""
    left, right = {"extensions": (" list", "map attribute_param list"), "graphics": (" item action_or_status value", "map value_param value")}.get(form, ("", None))
    return right and f"{low(group)}_params ({value(group, variant, left)}) = {right}\n"


def structs():
    body = "\n-- ---- the struct of each action: a row for each kind\n"
    for group in BY_NUMBER:
        place = "ℕ → " if has_tokens(group) else ""
        body += f"\nabbrev pub {low(group)}_struct : {place}{type_of(group)} → Struct\n"
        for kind in of(group):
            left, right = spec_row(*kind)
            body += f"{low(group)}_struct {left} = {right}\n"
    for group in BY_NUMBER:
        if has_tokens(group):
            body += f"\n-- the tokens of an action: of a terminal's extensions, and the values of graphics\nabbrev pub {low(group)}_params : {type_of(group)} → List Param\n"
            body += "".join(filter(None, (params_row(*kind) for kind in of(group)))) + f"{low(group)}_params other = []\n"
    body += "\n-- and of an unknown one\nabbrev pub params_of : Action → List Param\n"
    for group in IN_TURN:
        x = group[0].lower()
        body += f"params_of (action.{group} {x}) = " + (f"{low(group)}_params {x}\n" if has_tokens(group) else "[]\n")
    body += """params_of (action.SelectCharacterPath path effect) = []
params_of (action.Unspecified params flag final) = map param_of params

-- an action whose tokens stand from this place on
abbrev pub struct_of : ℕ → Action → Struct
"""
    for group in IN_TURN:
        x = group[0].lower()
        body += f"struct_of place (action.{group} {x}) = {low(group)}_struct {'place ' if has_tokens(group) else ''}{x}\n"
    body += f"""struct_of place (action.SelectCharacterPath path effect) = row {PATH} (pos (path_number path)) effect
struct_of place (action.Unspecified params flag final) = unknown_row final place (length params)
"""
    return body


# ---- what is in range


def range_row(number, group, variant, form, names):
    """Which of its numbers are in range; None where the struct, or the type, says it all, and of a colour."""
    a, b = names_in(names)
    left, right = {
        "count": (" n", "n < 2 ^ 32"),
        "place": (" n", "IsOneBased n"),
        "places": (f" {a} {b}", f"IsOneBased {a} × IsOneBased {b}"),
        "enum": (" v", {"Font": "HasText v", "DecPrivateMode": "dec_number v < 65536", "TerminalMode": "terminal_number v < 65536"}.get((names + [""])[0])),
        "area": (" request_id page_number top left bottom right", "IsOneBased top × IsOneBased left × IsOneBased bottom × IsOneBased right"),
        "report": (f" {a} {b} button modifiers", f"({a} < 65536) × ({b} < 65536)"),
        "state": (" flags mode", "kitty_bits flags < 65536"),
        "bits": (" flags", "kitty_bits flags < 65536"),
        "extensions": (" list", "All AttributeInRange list"),
    }.get(form, (None, None))
    return right and (value(group, variant, left), right)


def ranges():
    body = """
-- ---- the actions that a struct can stand for: each number is one that its type lets stand, and a font has a text. What isn't listed is in range
"""
    for group in BY_NUMBER:
        is_typed = f"pub {group}InRange :" in text_of("crates/csicodec_actions/specs/Ranges.antt")
        body += f"\nabbrev pub {group}InRange : {type_of(group)} → Type 0\n"
        rows_ = [range_row(*kind) for kind in of(group)]
        body += "".join(f"{group}InRange ({row[0]}) = {row[1]}\n" for row in rows_ if row)
        if is_typed:
            body += f"{group}InRange other = typed.{group}InRange other\n"
        elif not all(rows_):
            body += f"{group}InRange other = Unit {{0}}\n"
    body += "\nabbrev pub InRange : Action → Type 0\n"
    body += "".join(f"InRange (action.{group} a) = {group}InRange a\n" for group in BY_NUMBER)
    body += """InRange (action.SelectCharacterPath path effect) = Unit {0}
InRange (action.Unspecified params flag final) = All TokenInRange params × IsScalar final
"""
    return body


# ---- what is by its name


def named_row(number, group, variant, form, names):
    """What of it could stand by a name or by a number."""
    left, right = {
        "enum": (" v", {"DecPrivateMode": "IsNamedDec v", "TerminalMode": "IsNamedTerminal v"}.get((names + [""])[0])),
        "extensions": (" list", "All IsNamedAttribute list"),
        "graphics": (" item action_or_status value", "IsNamedItem item"),
    }.get(form, (None, None))
    return right and (value(group, variant, left), right)


def can_be_named(group):
    return any(named_row(*kind) for kind in of(group))


def named():
    body = """
-- ---- which action is meant, of those that have one struct: a mode, an extension of a terminal and an item of graphics are by their
-- names where they have one, and the flag of an unknown action isn't set. Any other action has no like
"""
    for group in filter(can_be_named, BY_NUMBER):
        body += f"\nabbrev pub IsNamed{group} : {type_of(group)} → Type 0\n"
        rows_ = [named_row(*kind) for kind in of(group)]
        body += "".join(f"IsNamed{group} ({row[0]}) = {row[1]}\n" for row in rows_ if row)
        body += "" if all(rows_) else f"IsNamed{group} other = Unit {{0}}\n"
    body += "\nabbrev pub IsNamed : Action → Type 0\n"
    body += "".join(f"IsNamed (action.{group} a) = IsNamed{group} a\n" for group in filter(can_be_named, BY_NUMBER))
    body += """IsNamed (action.Unspecified params flag final) = flag ≡ false
IsNamed other = Unit {0}
"""
    return body


def specs():
    body = structs() + ranges() + named()
    return f"""-- The struct of each action, and of an action that has a struct which one is in range and which one is meant. Written by tools/table.
use Rattle.std.specs.Prelude.{{ℕ, ◌≡◌, ◌<◌, ◌^◌, List, [], map, length, false, pos, Some}}
use Rattle.std.specs.Char.{{IsScalar}}
use Rattle.std.specs.List.{{All}}
{spec_use("csicodec_names", "EnumNumbers", body)}{spec_use("csicodec_names", "FlagBits", body)}{type_uses(body)}\
{spec_use("csicodec_actions", "XtSmGraphics", body)}{spec_use("csicodec_actions", "Kinds", body)}{spec_use("csicodec_actions", "Modes", body)}\
use Rattle.csicodec_actions.specs.Ranges as typed
use Rattle.csicodec_structs.specs.declared.structs.Param.{{Param}}
use Rattle.csicodec_structs.specs.declared.structs.Struct.{{Struct}}
{spec_use("csicodec_structs", "Structs", body)}""" + body
