"""The source of csicodec_structs that has a line for each kind: the struct of an action, and what a struct without tokens may stand for."""
import re
import textwrap

from bindings.library import BY_NUMBER, IN_TURN, LISTS, NAMED, PATH, acting, declared, has_tokens, is_boxed, kinds, low, number_of, of, snake, span, text_of, type_of, types, used
from bindings.specs import can_be_named, names_in, own_use


def source_use(text):
    """The `use` lines of the types that the text of a source says, each of the crate that `csicodec` has it of."""
    names = [kind.name for kind in declared(NAMED + acting())] + ["Modifiers"]
    # A variant in a table of kinds, behind its number, isn't the type of its name.
    said = re.sub(r"(?<=[0-9] )[A-Z]\w*[(]", "", text)
    homes = re.findall(r"^pub use (\w+)::\{([^}]*)\};", text_of("crates/csicodec/src/lib.rt"), re.M)
    ours = [(crate, used([name for name in names if name in re.findall(r"\w+", own)], said)) for crate, own in homes]
    return "".join(f"use {crate}::{{{own}}};\n" for crate, own in ours if own)


def numbers_use(text):
    """The `use` line of the functions between numbers and values that it calls."""
    names = re.findall(r"^pub\(crate\) fn (\w+)", text_of("crates/csicodec_structs/src/numbers.rt"), re.M)
    return f"use crate::numbers::{{{used([name for name in names if re.search(rf'[ (]{name}[()]', text)], text)}}};\n"


def source_name(group, variant):
    """A variant in Rust or Rattle, and what stands behind its value."""
    name = f"{type_of(group)}::{variant[0]}"
    return (f"{name}(DeviceAttributes::{variant[1]}", ")") if len(variant) > 1 else (name, "")


def struct_arm(kind, own):
    """The arm that gives the struct of an action; `own` has what the core or the package for Rust has by itself, of these forms."""
    number, group, variant, form, names = kind
    name, tail = source_name(group, variant)
    a, b = names_in(names)
    sides = ", ".join(f"{side}: {side}.as_one_based()" for side in ("top", "left", "bottom", "right"))
    left, right = {
        "unit": ("", f"row({number}, 0, 0)"),
        "count": ("(count)", f"row({number}, i64::from(*count), 0)"),
        "place": ("(place)", f"row({number}, i64::from(place.as_one_based()), 0)"),
        "places": (f" {{ {a}, {b} }}", own.get("places", "row({0}, i64::from({1}.as_one_based()), i64::from({2}.as_one_based()))").format(number, a, b)),
        "int": ("(number)", f"row({number}, *number, 0)"),
        "ints": (f" {{ {a}, {b} }}", f"row({number}, *{a}, *{b})"),
        "sizes": (f" {{ {a}, {b} }}", f"sized_row({number}, *{a}, *{b})"),
        "enum": ("(value)", f"row({number}, {own['enum'](names)}, 0)" if form == "enum" else ""),
        "flag": ("(value)", f"row({number}, {own['flag']}, 0)"),
        "color": ("(color)", f"color_row({number}, color)"),
        "keys": (" { resource, value }", f"sized_row({number}, Some({own['keys']}), *value)"),
        "area": (" { request_id, page_number, top, left, bottom, right }", f"{own['area']} {{ {sides}, ..row({number}, *request_id, *page_number) }}"),
        "report": (f" {{ {a}, {b}, button, modifiers }}", f"report_row({number}, *{a}, *{b}, *button, *modifiers)"),
        "state": (" { flags, mode }", f"row({number}, i64::from(flags.bits()), {own['state']})"),
        "bits": ("(flags)", f"row({number}, i64::from(flags.bits()), 0)"),
        "extensions": ("(flags)", own["extensions"].format(number)),
        "graphics": ("(graphics)", own["graphics"].format(number)),
    }[form]
    return f"{name}{left}{tail} => {right},\n"


OWN = {
    "enum": lambda names: number_of(names[0])[1],
    "places": "places_row({}, *{}, *{})",
    "flag": "i64::from(*value)",
    "keys": "i64::from(resource.number())",
    "area": "Struct",
    "state": "i64::from(mode.number())",
    "extensions": "flags_row({}, place, flags)",
    "graphics": "list_row({}, graphics.item.number(), graphics.action_or_status, place, graphics.value.len())",
}


# What a short sequence has, and what is said of it.
SAID = {
    "Sgr": "/// The struct of an attribute.\n#[inline(always)]\n",
    "Cursor": "/// The struct of an action of the cursor.\n#[inline(always)]\n",
    "Edit": "/// The struct of an edit.\n#[inline(always)]\n",
    "Mode": "/// The struct of a change of a mode, or of a question for one.\n#[inline(always)]\n",
}

# What the arms of a `match` are, of a kind and what it says, both ways.
ARMS = """
/// The struct of a kind, by its number and what it says.
macro_rules! kind_row {
    ($number:literal) => { row($number, 0, 0) };
    ($number:literal place $value:ident) => { row($number, i64::from($value.as_one_based()), 0) };
    ($number:literal number $value:ident) => { row($number, *$value, 0) };
    ($number:literal coded $value:ident) => { row($number, $value.to_i64(), 0) };
    ($number:literal listed $value:ident) => { row($number, *$value as i64, 0) };
    ($number:literal font $value:ident) => { row($number, font_number(*$value), 0) };
    ($number:literal color $value:ident) => { color_row($number, $value) };
    ($number:literal private_mode $value:ident) => { row($number, i64::from($value.number()), 0) };
    ($number:literal terminal_mode $value:ident) => { row($number, i64::from($value.number()), 0) };
    ($number:literal flags $value:ident) => { row($number, i64::from($value.bits()), 0) };
    ($number:literal $form:ident $value:ident) => { row($number, i64::from(*$value), 0) };
    ($number:literal places $a:ident $b:ident) => { places_row($number, *$a, *$b) };
    ($number:literal numbers $a:ident $b:ident) => { row($number, *$a, *$b) };
    ($number:literal sizes $a:ident $b:ident) => { sized_row($number, *$a, *$b) };
    ($number:literal keys $a:ident $b:ident) => { sized_row($number, Some(i64::from($a.number())), *$b) };
    ($number:literal state $a:ident $b:ident) => { row($number, i64::from($a.bits()), i64::from($b.number())) };
    ($number:literal report $x:ident $y:ident $a:ident $b:ident) => { report_row($number, *$x, *$y, *$a, *$b) };
    ($number:literal area $a:ident $b:ident $($side:ident)*) => { Struct { $($side: $side.as_one_based(),)* ..row($number, *$a, *$b) } };
}

/// What a struct says in a field, for a value of a kind.
macro_rules! said {
    ($given:ident place) => { place($given.first) };
    ($given:ident number) => { $given.first };
    ($given:ident coded $type:ident $other:ident) => { $type::from_i64($given.first).unwrap_or($type::$other) };
    ($given:ident listed $by:ident) => { $by($given.first) };
    ($given:ident color) => { color(*$given) };
    ($given:ident $form:ident) => { $form($given) };
    ($given:ident places $at:ident) => { place($given.$at) };
    ($given:ident numbers $at:ident) => { $given.$at };
    ($given:ident sizes $at:ident) => { $at($given) };
    ($given:ident keys first) => { XtermKeyModifierResource::parse($given.first).unwrap_or(XtermKeyModifierResource::Keyboard) };
    ($given:ident keys second) => { second($given) };
    ($given:ident state first) => { flags($given) };
    ($given:ident state second) => { KittyKeyboardMode::from_i64($given.second).unwrap_or(KittyKeyboardMode::AssignAll) };
    ($given:ident report button) => { button($given.button) };
    ($given:ident report modifiers) => { Modifiers::from_bits_retain($given.modifiers) };
    ($given:ident report $at:ident) => { word($given.$at) };
    ($given:ident area first) => { $given.first };
    ($given:ident area second) => { $given.second };
    ($given:ident area $side:ident) => { side($given.$side) };
}

/// The struct of a value, whatever its kind.
macro_rules! struct_of_value {
    ($value:ident $type:ident $($number:literal $name:ident $(($form:ident $($of:ident)*))? $($fields:ident { $($field:ident: $at:ident),* })?,)*) => {
        match $value {
            $($type::$name $(($form))? $({ $($field),* })? => kind_row!($number $($form $form)? $($fields $($field)*)?),)*
        }
    };
}

/// A value of a kind, with what a struct says.
macro_rules! value_of_kind {
    ($given:ident $type:ident $name:ident $(($form:ident $($of:ident)*))? $($fields:ident { $($field:ident: $at:ident),* })?) => {
        $type::$name $((said!($given $form $($of)*)))? $({ $($field: said!($given $fields $at)),* })?
    };
}

/// What a struct may stand for, by its kind; one of another kind is taken for the first.
macro_rules! value_of_struct {
    ($given:ident $type:ident $first:literal $other:ident $(($($of:tt)*))? $($fields:ident { $($at:tt)* })?,
        $($number:literal $name:ident $(($($form:tt)*))? $($said:ident { $($field:tt)* })?,)*) => {
        match $given.kind {
            $($number => value_of_kind!($given $type $name $(($($form)*))? $($said { $($field)* })?),)*
            _ => value_of_kind!($given $type $other $(($($of)*))? $($fields { $($at)* })?),
        }
    };
}
"""


def kind_row(number, group, variant, form, names):
    """A kind in the table: its number, its variant, and what that says; a value's name is its form."""
    a, b = names_in(names)
    two = lambda what: f" {what} {{ {a}: first, {b}: second }}"
    left = {
        "unit": "",
        "count": "(count)",
        "place": "(place)",
        "places": two("places"),
        "int": "(number)",
        "ints": two("numbers"),
        "sizes": two("sizes"),
        "flag": "(flag)",
        "color": "(color)",
        "keys": " keys { resource: first, value: second }",
        "area": " area { request_id: first, page_number: second, top: top, left: left, bottom: bottom, right: right }",
        "report": f" report {{ {a}: first, {b}: second, button: button, modifiers: modifiers }}",
        "state": " state { flags: first, mode: second }",
        "bits": "(flags)",
        "enum": "",
    }[form]
    if form == "enum":
        read = number_of(names[0])[2]
        own = re.fullmatch(r"(\w+)\(given(\.first)?\)\?", read)
        left = f"({f'listed {own[1]}' if own[2] else own[1]})" if own else f"(coded {names[0]} {types()[names[0]].variants[0].name})"
    return f"{number} {variant[0]}{left},"


def spans(numbers):
    """These numbers as a pattern."""
    found = []
    for number in numbers:
        if found and found[-1][1] == number - 1:
            found[-1][1] = number
        else:
            found.append([number, number])
    return " | ".join(str(first) if first == last else f"{first}..={last}" for first, last in found)


def tables():
    """The kinds of each subject, of which each says what a struct has in numbers alone."""
    out = "\n/// The kinds of each subject: their numbers, and what they say.\nmacro_rules! kinds {\n"
    for group in BY_NUMBER:
        if has_tokens(group):
            continue
        rows_ = textwrap.wrap(" ".join(kind_row(*kind).replace(" ", "\0") for kind in of(group)), 130, break_long_words=False, break_on_hyphens=False)
        out += f"    ({type_of(group)} $arms:ident $value:ident) => {{\n        $arms! {{ $value {type_of(group)}\n"
        out += "".join(f"            {row}\n" for row in rows_).replace("\0", " ")
        out += "        }\n    };\n"
    return out + "}\n"


def rows():
    body = ARMS + tables()
    for group in BY_NUMBER:
        value = f"place ({low(group)}_of {low(group)}.now)" if has_tokens(group) else f"{low(group)}.now"
        place = "place: usize, " if has_tokens(group) else ""
        # What takes memory is laid by other calls than `struct_of`, and so is a short sequence.
        public = "pub(crate) " if group in SAID or is_boxed(group) else ""
        body += f"\n{SAID.get(group, '')}{public}fn {low(group)}_struct({place}{low(group)}: &{type_of(group)}) -> Struct\n    ensures {{ result ≡ {low(group)}_struct {value} }}\n{{\n"
        if has_tokens(group):
            body += f"    match {low(group)} {{\n" + "".join(struct_arm(kind, OWN) for kind in of(group)) + "    }\n}\n"
        else:
            body += f"    kinds!({type_of(group)} struct_of_value {low(group)})\n}}\n"
        body += candidate_of(group)
    body += """
/// An action whose tokens, if it has any, stand from this place on.
pub(crate) fn struct_of(place: usize, action: &CSI) -> Struct
    ensures { result ≡ struct_of place (action_of action.now) }
{
    match action {
"""
    for group in IN_TURN:
        body += f"        CSI::{group}({low(group)}) => {low(group)}_struct({'place, ' if has_tokens(group) else ''}{low(group)}),\n"
    body += f"""        CSI::SelectCharacterPath(path, effect) => row({PATH}, i64::from(path.number()), *effect),
        CSI::Unspecified(unknown) => unknown_row(unknown.control, place, unknown.params.len()),
    }}
}}
"""
    small = "".join(f"        {span(group)} => Some(CSI::{group}({low(group)}_candidate(given))),\n" for group in BY_NUMBER if not is_boxed(group))
    small += f"        {PATH} => Some(CSI::SelectCharacterPath(CharacterPath::from_i64(given.first)?, given.second)),\n"
    boxed = "".join(f"""        {spans(kind[0] for kind in bare(group))} => {{
            Ok(Some(CSI::{group}(Box::new(alloc, {low(group)}_candidate(given))?)))
        }}
""" for group in BY_NUMBER if is_boxed(group))
    body += SMALL.replace("ARMS", small) + ALL.replace("ARMS", boxed)
    numbers = "use std::alloc::{AllocError, Global};\n\n/// What none of the rules reads.\npub(crate) const UNSPECIFIED: u32 = 0;\n"
    numbers += "".join(f"/// `{variant[-1]}`.\npub(crate) const {snake(variant[-1])}: u32 = {number};\n" for number, _, variant, form, _ in kinds() if form in LISTS)
    return f"""//! The struct of each action, subject by subject, and what a struct without tokens may stand for: a value with this struct is found
//! wherever there is one, by its name. Of another struct nothing is promised: the caller sees whether what is found has it. Written by
//! tools/table.
ghost use Rattle.std.specs.Prelude.{{◌≡◌, [], IfOk, IfSome}};
ghost use Rattle.std.specs.Option.{{option_map}};
ghost use Rattle.csicodec_actions.specs.Devices.{{device_of}};
ghost use Rattle.csicodec_parser.specs.ActionOf.{{action_of}};
ghost use Rattle.csicodec_structs.specs.Private.Steps.{{Finds, FindsSome, HasNoList, IsBare, IsOwn, IsSmall}};
ghost {own_use(body).strip()};

{numbers_use(body)}use crate::structs::{{
    Struct, color_row, flags_row, list_row, places_row, report_row, row, sized_row, unknown_row,
}};
use bitflags::Flags;
{source_use(body)}""" + numbers + body


def candidate(number, group, variant, form, names):
    """The arm of a kind of a subject that has tokens too."""
    name, tail = source_name(group, variant)
    return f"{number} => {name}{dict(unit='', int='(given.first)')[form]}{tail},\n"


SMALL = """
/// Of what takes no memory.
pub(crate) fn small_candidate(given: &Struct) -> Option<CSI>
    ensures fits { IfSome result (λ csi. IsOwn [] (action_of csi)) }
    ensures finds { FindsSome (struct_of given.now.place) IsSmall given.now
        (option_map action_of result) }
{
    match given.kind {
ARMS        _ => None,
    }
}
"""
ALL = """
/// Of all that have no tokens.
pub(crate) fn candidate(alloc: Global, given: &Struct) -> Result<Option<CSI>, AllocError>
    ensures fits { IfOk result (λ r. IfSome r (λ csi. IsOwn [] (action_of csi))) }
    ensures finds { IfOk result (λ r. FindsSome (struct_of given.now.place) IsBare given.now
        (option_map action_of r)) }
{
    match given.kind {
ARMS        _ => Ok(small_candidate(given)),
    }
}
"""


def bare(group):
    """Those of a group that have no tokens."""
    return [kind for kind in of(group) if kind[3] not in LISTS]


def candidate_of(group):
    """What a struct of a group without tokens may stand for."""
    name = low(group)
    value = f"({name}_of result)" if has_tokens(group) else "result"
    clauses = {"in_range": f"{group}InRange {value}"}
    if can_be_named(group):
        clauses["named"] = f"IsNamed{group} {value}"
    if has_tokens(group):
        clauses["bare"] = f"{name}_params {value} ≡ []"
        clauses["finds"] = f"Finds ({name}_struct given.now.place) HasNoList given.now {value}"
    else:
        clauses["finds"] = f"Finds {name}_struct {group}InRange given.now result"
    ensures = "".join(f"    ensures {clause} {{ {says} }}\n" for clause, says in clauses.items())
    head = f"\nfn {name}_candidate(given: &Struct) -> {type_of(group)}\n{ensures}{{\n"
    if not has_tokens(group):
        return f"{head}    kinds!({type_of(group)} value_of_struct given)\n}}\n"
    *arms, other = [candidate(*kind) for kind in bare(group)]
    return f"{head}    match given.kind {{\n" + "".join(arms) + re.sub("^[0-9]+", "_", other) + "    }\n}\n"
