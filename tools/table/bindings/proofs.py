"""The proof of csicodec_structs that has lines for each kind: a struct and its tokens are those of one action by its name, and of one."""
import re

from bindings.library import BY_NUMBER, FIRST, has_tokens, kinds, low, module, number_of, of, text_of, type_of, types, used
from bindings.specs import named_row, names_in, own_use, spec_use, type_uses, value
from layout import folded

# Of an enumeration whose numbers csicodec_actions reads, the kind of these there.
READ = {
    "CursorStyle": "Style",
    "CursorTabulationControl": "Control",
    "EraseInDisplay": "InDisplay",
    "EraseInLine": "InLine",
    "TabulationClear": "Clear",
    "DecPrivateMode": "Dec",
    "TerminalMode": "Terminal",
}
# Those whose variants stand here, under these names.
NUMBERED = {"Blink": "blink", "Intensity": "intensity", "MouseButton": "button", "Underline": "line", "VerticalAlign": "align"}
# The forms, each with what a struct and its tokens say there.
FORMS = """
-- ---- forms: a value by what a struct says

abbrev unit : {A : Type 0} → A → Struct → Option A
unit a given = Some a

abbrev count : {A : Type 0} → (ℕ → A) → Struct → Option A
count make given = Some (make (nat_abs given.first))

abbrev pair : (ℕ → ℕ → Cursor) → Struct → Option Cursor
pair make given = Some (make (nat_abs given.first) (nat_abs given.second))

abbrev sizes : (Option ℤ → Option ℤ → Window) → Struct → Option Window
sizes make given = Some (make (first_at given) (second_at given))

abbrev flag : (Bool → Sgr) → Struct → Option Sgr
flag make given = Some (make (is_number 1 given.first))

abbrev painted : (ColorSpec → Sgr) → Struct → Option Sgr
painted make given = Some (make (color_at given))

abbrev listed : {E : Type 0} → (E → ℕ) → List E → (E → Sgr) → Struct → Option Sgr
listed number all make given = option_map make (with_number number all given.first)

abbrev coded : {A : Type 0} (k : Kind) → (Value k → A) → Struct → Option A
coded k make given = option_map make (read k given.first)

abbrev extended : List Param → (List DeviceAttribute → Attributes) → Struct → Option Device
extended params make given = Some (device.DeviceAttributes (make (map attribute_at params)))

abbrev reported : (ℕ → ℕ → MouseButton → Modifiers → MouseReport) → Struct → Option MouseReport
reported make given =
    let made = λ (b : MouseButton). make (nat_abs given.first) (nat_abs given.second) b (record { bits = given.modifiers }) in
    option_map made (with_number button_number buttons (pos given.button))

abbrev state : (KittyKeyboardFlags → KittyKeyboardMode → Keyboard) → Struct → Option Keyboard
state make given = option_map (λ v. make (record { bits = nat_abs given.first }) v) (read Way given.second)
"""


def all_of(name):
    """Each variant of an enumeration, as a list."""
    return [*(f"{NUMBERED[name]}.{variant.name}" for variant in types()[name].variants), "[]"]


def maker(number, group, variant, form, names):
    """What makes the value of a struct of this kind."""
    bare, one = value(group, variant, ""), (lambda left: f"(λ given. Some ({value(group, variant, left)}))")
    if form == "enum" and names[0] in READ:
        return f"coded {READ[names[0]]} {bare}"
    if form == "enum" and names[0] != "Font":
        return f"listed {number_of(names[0])[0]} ({' ∷ '.join(all_of(names[0]))}) {bare}"
    return {
        "unit": f"unit ({bare})" if " " in bare else f"unit {bare}",
        "count": f"count {bare}",
        "place": f"count {bare}",
        "places": f"pair {bare}",
        "int": one(" given.first"),
        "ints": one(" given.first given.second"),
        "sizes": f"sizes {bare}",
        "enum": one(" (font_at given.first)"),
        "flag": f"flag {bare}",
        "color": f"painted {bare}",
        "keys": f"(λ given. option_map (λ v. {bare} v (second_at given)) (read Resource given.first))",
        "area": one(" given.first given.second given.top given.left given.bottom given.right"),
        "report": f"reported {bare}",
        "state": f"state {bare}",
        "bits": one(" (record { bits = nat_abs given.first })"),
        "extensions": f"extended params {low(group)}.{variant[-1]}",
        "graphics": one(" (item_of given.first) given.second (map value_at params)"),
    }[form]


def back_rows(number, group, variant, form, names):
    """That it is found again, where it isn't by computing alone: what stands behind the name of its variant, and why."""
    a, b = names_in(names)
    found_ = lambda left, fact: [(left, f"rw ({fact}) refl")]
    if form == "enum" and names[0] in ("DecPrivateMode", "TerminalMode"):
        return []
    if form == "enum" and names[0] in READ:
        return found_(" v", f"read-good {READ[names[0]]} v tt")
    if form == "enum":
        return found_(" v", "font-back v range") if names[0] == "Font" else [(f" {all_of(names[0])[0]}", "refl")]
    return {
        "sizes": [(" None None", "refl"), (" (Some a) None", "refl")],
        "flag": [(" true", "refl")],
        "color": [(" color.Default", "refl")],
        "keys": found_(" v None", "read-good Resource v tt") + found_(" v (Some z)", "read-good Resource v tt"),
        "report": [(f" {a} {b} button.None modifiers", "refl")],
        "state": found_(" flags v", "read-good Way v tt"),
        "extensions": found_(" list", "attributes-back list named"),
        "graphics": found_(" item action_or_status list", "item-back item named, values-back list"),
    }.get(form, [])


def action(group, variant, left):
    return f"action.{group} ({value(group, variant, left)})" if left or len(variant) > 1 else f"action.{group} {value(group, variant, left)}"


def found():
    """The action of any struct and its tokens, and that each action by its name is found by its own."""
    out = f"\nabbrev buttons : List MouseButton\n{folded('buttons', all_of('MouseButton'), '∷')}\n{FORMS}\n-- ---- what makes each kind, by its number\n"
    for group in BY_NUMBER:
        head, params = f"{low(group)}_makers", has_tokens(group)
        out += f"\nabbrev {head} : {'List Param → ' * params}List (Struct → Option {type_of(group)})\n"
        out += folded(head + " params" * params, [*(maker(*kind) for kind in of(group)), "[]"], "∷") + "\n"
    out += """
abbrev pick : {A : Type 0} → List (Struct → Option A) → ℕ → (A → Action) → Struct → Option Action
pick makers at make given = option_map make (get_or makers at (λ _. None) given)

-- the action of a struct and its tokens
action_at : Struct → List Param → Option Action
action_at given params =
    if given.kind == 0 then Some (action.Unspecified (map token_at params) false given.final_char) else
"""
    for group in BY_NUMBER:
        makers = f"({low(group)}_makers params)" if has_tokens(group) else f"{low(group)}_makers"
        out += f"    if nat_lt given.kind {(FIRST[group] + 99) // 100 * 100} then pick {makers} (given.kind - {of(group)[0][0]}) action.{group} given else\n"
    out += "    option_map (λ v. action.SelectCharacterPath v given.second) (read Path given.first)\n"
    out += "\naction-back : (place : ℕ) (a : Action) → InRange a → IsNamed a → action_at (struct_of place a) (params_of a) ≡ Some a\nunfolding action_at\n"
    for kind in kinds():
        out += "".join(f"action-back place ({action(kind[1], kind[2], left)}) range named = {right}\n" for left, right in back_rows(*kind))
    out += """action-back place (action.Mode m) range named = simp (dec-back, terminal-back)
action-back place (action.SelectCharacterPath v effect) range named = rw (read-good Path v tt) refl
action-back place (action.Unspecified params flag final) range named = rw (tokens-back params, named) refl
action-back place other range named = refl
"""
    return out


def like_row(number, group, variant, form, names):
    """What stands behind the name of its variant, and the one by its name that has the struct and the tokens of this one."""
    if form == "enum":
        return " v", f"alike {value(group, variant, '')} ({low(READ[names[0]])}-named v range) (λ m n e. (rw e range, n, rw e))"
    if form == "extensions":
        return " list", f"\n    let l = attributes-named list range in like ({action(group, variant, ' l.others')}) l.in_range l.named (rw l.long) l.same"
    one = action(group, variant, " (item_of (item_number item)) action_or_status list")
    return " item action_or_status list", f"\n    let h = item_named (item_number item) in\n    like ({one}) range h.0 (rw h.1) refl"


def likes():
    """That each action has its like by its name."""
    out = """
like : {place : ℕ} {a : Action} (one : Action) → InRange one → IsNamed one → struct_of place one ≡ struct_of place a
    → params_of one ≡ params_of a → ByName place a
like one in_range named given params = record { one = one; in_range = in_range; named = named; given = given; params = params }

alike : {place : ℕ} {M : Type 0} {Named : M → Type 0} {number : M → ℕ} {v : M} (make : M → Mode)
    → ((m : M) × Named m × (number m ≡ number v))
    → ((m : M) → Named m → number m ≡ number v → ModeInRange (make m) × IsNamedMode (make m) × (mode_struct (make m) ≡ mode_struct (make v)))
    → ByName place (action.Mode (make v))
alike make (m, named, is) facts = (let (range, by_name, given) = facts m named is in like (action.Mode (make m)) range by_name given refl)

pub action-named : (place : ℕ) (a : Action) → InRange a → ByName place a
"""
    for kind in filter(lambda kind: named_row(*kind), kinds()):
        left, right = like_row(*kind)
        out += f"action-named place ({action(kind[1], kind[2], left)}) range = {right}\n".replace(" = \n", " =\n")
    out += """action-named place (action.Unspecified params flag final) range = like (action.Unspecified params false final) range refl refl refl
action-named place other range = like other range tt refl refl
"""
    return out


def proof():
    body = found() + """
-- so two by their names with one struct and its tokens are one
pub same-action : (place : ℕ) (a b : Action) → InRange a → IsNamed a → InRange b → IsNamed b → struct_of place a ≡ struct_of place b
    → params_of a ≡ params_of b → a ≡ b
same-action place a b in_a named_a in_b named_b given params =
    let same = ap (λ p. action_at p (params_of a)) given ∙ ap (action_at (struct_of place b)) params in
    same_Some a b (sym (action-back place a in_a named_a) ∙ same ∙ action-back place b in_b named_b)
""" + likes()
    uses = ""
    for name in sorted(types()):
        uses += f"use {module(name)}.{{{name}}}\n" if name in ("MouseButton", "KittyKeyboardMode", "DeviceAttribute") else ""
        uses += f"use {module(name)}.TheVariants as {NUMBERED[name]}\n" if name in NUMBERED else ""
    values = used(re.findall(r"^(?:abbrev )?pub (?:record )?([\w-]+) ", text_of("crates/csicodec_structs/proofs/OneValue.antt"), re.M), body)
    return f"""-- A struct and its tokens are those of one action by its name, whatever action has them. Written by tools/table.
use Rattle.std.proofs.Common.{{◌≡◌, ℕ, ◌-◌, List, [], ◌∷◌, Option, None, Some, map, refl, sym, ap, ◌∙◌, pos, get_or, nat_lt}}
use Rattle.std.specs.Prelude.{{ℤ, Bool, true, false, nat_abs, ◌==◌, if◌then◌else◌}}
use Rattle.std.specs.Option.{{option_map}}
use Rattle.std.proofs.lemmas.Option.{{same_Some}}
use Rattle.csicodec_names.specs.Numbered.{{is_number, with_number}}
use Rattle.csicodec_names.specs.declared.color.ColorSpec.{{ColorSpec}}
use Rattle.csicodec_names.specs.declared.color.ColorSpec.TheVariants as color
use Rattle.csicodec_names.specs.declared.flags.Modifiers.{{Modifiers}}
use Rattle.csicodec_names.specs.declared.flags.KittyKeyboardFlags.{{KittyKeyboardFlags}}
{uses}{type_uses(body)}\
use Rattle.csicodec_actions.specs.Devices.{{Attributes}}
use Rattle.csicodec_actions.proofs.Values.{{read-good}}
{spec_use("csicodec_actions", "XtSmGraphics", body)}\
use Rattle.csicodec_actions.specs.Kinds.{{{", ".join(sorted({*READ.values(), "Path", "Resource", "Way", "Kind", "Value", "read"}))}}}
use Rattle.csicodec_structs.specs.declared.structs.Param.{{Param}}
use Rattle.csicodec_structs.specs.declared.structs.Struct.{{Struct}}
{own_use(body)}{spec_use("csicodec_structs", "Structs", body)}\
use Rattle.csicodec_structs.proofs.ModeNumbers.{{dec-back, dec-named, terminal-back, terminal-named}}
use Rattle.csicodec_structs.proofs.OneValue.{{{values}}}
""" + body
