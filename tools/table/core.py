"""Parts of the core and its tests that have a line for each action that is read from a list of one count, one place, or a line and a column, and
nothing else: those of the cursor and of edits, which their rows have a `final` of."""
import pathlib
import re
import textwrap

from layout import byte, folded, low, string
from parts import Part
from read import TOP

WIDTH = 100
# What each of the two subjects is called in the specs, and the first lines behind the parts, which stand there by hand.
CURSOR = {
    "name": "cursor",
    "write": "            Cursor::TabulationControl(control) => write_choice(text, control.to_i64() as u8, b'W'),",
    "read": "        'W' => Some(Cursor::TabulationControl(CursorTabulationControl::from_i64(choice(params)?)?)),",
    "indent": 8,
    "count": "    let count = place.as_one_based();",
    "rows": "moves =",
    "row": "    ∷ []",
    "written": "written_cursor (cursor.TabulationControl c) = choice Control c \"W\"",
}
EDIT = {
    "name": "edit",
    "write": "            Edit::EraseInDisplay(part) => write_choice(text, part.to_i64() as u8, b'J'),",
    "read": "        'J' => Some(Edit::EraseInDisplay(EraseInDisplay::from_i64(choice(params)?)?)),",
    "indent": 16,
    "count": "            let count = place(params)?.as_one_based();",
    "rows": "edit_rows =",
    "row": "    ∷ before \"J\" (chosen InDisplay display.EraseToEndOfDisplay (λ c. Edit (edit.EraseInDisplay c)))",
    "written": "written_edit (edit.EraseInDisplay c) = choice InDisplay c \"J\"",
}


def name(action, between="-"):
    """The name of its variant, in small letters."""
    return low(action.variant[0], between)


def rust(action):
    return f"{action.subject}::{action.variant[0]}"


def single(actions):
    """Those of one number, and those of two."""
    return [action for action in actions if action.form != "places"], [action for action in actions if action.form == "places"]


def fields(action):
    return ", ".join(action.row["fields"])


def arm(pattern, said, indent=12):
    """An arm, in a block where its line is too long."""
    line, ahead = f"{pattern} => {said},", " " * indent
    return [ahead + line] if len(ahead + line) <= WIDTH else [f"{ahead}{pattern} => {{", f"{ahead}    {said}", f"{ahead}}}"]


# ---- csicodec_actions


def write_arms(actions):
    number = {"count": ("count", "*count"), "place": ("col", "col.as_one_based()")}
    for action in actions:
        if action.form == "places":
            first, second = action.row["fields"]
            yield f"            {rust(action)} {{ {first}, {second} }} => write_pair(text, *{first}, *{second}, {byte(action.row['final'])}),"
        else:
            of, given = number[action.form]
            yield f"            {rust(action)}({of}) => write_count(text, {given}, {byte(action.row['final'])}),"


def either(patterns, said, indent=12):
    """An arm of several patterns, on a line where they fit."""
    line, ahead = " | ".join(patterns), " " * indent
    if len(f"{ahead}{line} => {{") <= WIDTH and "\n" not in line:
        return arm(line, said, indent)
    return (ahead + f"\n{ahead}| ".join(patterns) + f" => {said},").split("\n")


def canonical_arms(actions):
    """Each number of a list is one that is read as itself."""
    by_form = {form: [action for action in actions if action.form == form] for form in ("count", "place", "places")}
    two = "{name} {{\n                {0}: first,\n                {1}: second,\n            }}"
    patterns = {
        "is_count(*count)": [f"{rust(action)}(count)" for action in by_form["count"]],
        "is_one_based(*place)": [f"{rust(action)}(place)" for action in by_form["place"]],
        "is_one_based(*first) && is_one_based(*second)": [two.format(*action.row["fields"], name=rust(action)) for action in by_form["places"]],
    }
    return [line for said, of in patterns.items() if of for line in either(of, said)]


def numbers(action):
    return "a b" if action.form == "places" else "n"


def value(action):
    """Its constructor in the specs."""
    return f"{action.subject.lower()}.{action.variant[0]}"


def row_lines(actions, all_behind=False):
    for action in actions:
        ahead = "    " if action is actions[0] and not all_behind else "    ∷ "
        reads = "paired" if action.form == "places" else "counted"
        yield f"{ahead}before {string(action.row['final'])} ({reads} (λ {numbers(action)}. {action.subject} ({value(action)} {numbers(action)})))"


def written_lines(actions):
    for action in actions:
        said = f'write (two Count a b) {string(action.row["final"])}' if action.form == "places" else f'count n {string(action.row["final"])}'
        yield f"written_{action.subject.lower()} ({value(action)} {numbers(action)}) = {said}"


# ---- the lists of csicodec_actions, and csicodec_structs


def read_arms(actions, indent):
    """Those of one number, which is there."""
    for action in actions:
        yield f"{indent}{byte(action.row['final'])[1:]} => Some({rust(action)}({action.form})),"


def pair_arms(actions):
    for action in actions:
        yield f"        {byte(action.row['final'])[1:]} => {{"
        yield f"            let ({fields(action)}) = places(params, 1)?;"
        yield f"            Some({rust(action)} {{ {fields(action)} }})"
        yield "        }"


def together(called, kinds, makes, actions, opened=None):
    """One proof for all these finals: what the rows before each read. `kinds` and `makes` are those of one number and of two, which find by themselves
    what is made of numbers."""
    said = [f"{kinds[action.form == 'places']} {ord(action.row['final'])} {value(action)}" for action in actions]
    yield from folded(f"pub {called} :", said, "×").replace(": =\n   ", ":", 1).replace(": =", ":", 1).split("\n")
    yield f"unfolding as_{opened or actions[0].subject.lower()}"
    yield from (f"{called} = ({', '.join(makes[action.form == 'places'] + ' _' for action in actions)})", "")


def front_arms(actions):
    for action in actions:
        final = byte(action.row["final"])
        said = {"count": "(count)", "place": "(OneBased::new(count))", "places": f" {{ {fields(action)} }}" if action.form == "places" else ""}[action.form]
        yield f"        {final} => Some({rust(action)}{said}),"


# ---- csicodec_compact


def runs(finals):
    """Patterns of these finals: one of several that stand side by side, of which a grave accent is none."""
    finals = sorted(finals)
    while finals:
        more = 1 if finals[0] == "`" else next(place for place in range(1, len(finals) + 1) if place == len(finals) or ord(finals[place]) - ord(finals[0]) != place)
        run, finals = finals[:more], finals[more:]
        yield from [f"'{run[0]}'..='{run[-1]}'"] if len(run) > 2 else [f"'{final}'" for final in run]


def default_arms(actions):
    """Which number compact leaves out before which finals."""
    left = {number: [(action.row.get("final") or action.text())[-1] for action in actions if action.row.get("left_out") == number] for number in (0, 1)}
    zero = " | ".join(f"'{final}'" for final in sorted(left[0]))
    return [f"        {zero} => 1,", f"        {' | '.join(runs(left[1]))} => {{", "            2", "        }"]


# ---- documents


def code(text):
    return f"`` {text} ``" if "`" in text else f"`{text}`"


def documents(actions):
    one, two = single(actions)
    said = lambda action: f"| {code(action.row['final'])} | {action.variant[0]} ({action.row['name']}) | "
    counts = [said(action) + f"{action.subject} |" for action in one]
    pairs = [said(action) + f"({fields(action)}) |" for action in two]
    path = "docs/SPECIFICATION.md"
    yield path, Part(counts, ("**Count.** The list is empty or `a`. Left out or 0 is 1.", "|---|---|---|"), "")
    yield path, Part(pairs, ("| final | action | its two numbers |", "|---|---|---|"), "| `r` | SetTopAndBottomMargins (DECSTBM, DEC VT100) | b left out or 0 is MAX |")


def mirrored(subject):
    """The variants of a type that the package for Rust has a second time, under the names of termwiz."""
    variants = subject.declared()
    units = [it.name for it in variants if not it.holds and not it.fields]
    tuples = [f"{it.name}({it.holds})" for it in variants if it.holds]
    records = [f"        {it.name} {{ {', '.join(f'{field}: {kind}' for field, kind, _ in it.fields)} }}" for it in variants if it.fields]
    wrapped = [line for some in (units, tuples) for line in textwrap.wrap(" ".join(some) + ";", 128, initial_indent=" " * 8, subsequent_indent=" " * 8)]
    yield "rust/src/termwiz.rs", Part(wrapped + records, (f"        {subject.type}:",), "    }")


# ---- all of them


def of_subject(subject, said):
    """The parts of a subject that both have."""
    actions, name_of = [action for action in subject.actions if "final" in action.row], said["name"]
    one, two = single(actions)
    own = f"crates/csicodec_actions/src/{name_of}.rt"
    table = f"crates/csicodec_actions/specs/Table/{subject.name}.antt"
    rest = {"cursor": "            _ => true,", "edit": "            Edit::EraseInDisplay(_) | Edit::EraseInLine(_) => true,"}[name_of]
    yield own, Part(list(write_arms(actions)), ("    pub fn write_to(&self, text: &mut Text)", "        match self {"), said["write"])
    yield own, Part(canonical_arms(subject.actions), ("    pub fn is_canonical(&self) -> bool", "        match self {"), rest)
    yield table, Part(list(row_lines(one)), (said["rows"],), said["row"])
    yield table, Part(list(written_lines(actions)), (f"abbrev pub written_{name_of} : {name_of}_type.{subject.name} → Written",), said["written"])
    head = f"pub fn {name_of}_action(params: &[CsiParam], control: char) -> Option<{subject.name}>"
    lists, indent = f"crates/csicodec_actions/src/lists/{name_of}.rt", " " * said["indent"]
    yield lists, Part(list(pair_arms(two)), (head, "    match control {"), said["read"])
    yield lists, Part(list(read_arms(one, indent)), (said["count"], f"{indent[4:]}match control {{"), f"{indent}_ => None,")


def of_cursor(actions):
    one, two = single(actions)
    front, rows = "crates/csicodec_structs/src/movement.rt", "crates/csicodec_structs/proofs/Moved.antt"
    yield front, Part(list(front_arms(one)), ("fn moved_by(number: u32, control: u8) -> Option<Cursor>", "    match control {"), "        _ => None,")
    yield front, Part(list(front_arms(two)), ("pub(crate) fn moved_to(first: u32, second: u32, control: u8) -> Option<Cursor>", "    match control {"), "        b'r' => Some(Cursor::SetTopAndBottomMargins {")
    table, lists = "crates/csicodec_actions/specs/Table/Cursor.antt", "crates/csicodec_actions/proofs/Finals.antt"
    yield table, Part(list(row_lines(two, True)), ("cursor_rows =", "    Cursor (cursor.TabulationClear c)))"), "    ∷ before \"r\" top_and_bottom")
    head = "Counts final make = (list : List CsiParam) → as_move list final ≡ option_map (λ n. Cursor (make n)) (given (counted (λ n. n)) list)"
    pairs = "TwoCounts final make = (list : List CsiParam) → as_cursor list final ≡ option_map (λ (p : ℕ × ℕ). Cursor (make p.0 p.1)) (given (paired (λ a b. (a, b))) list)"
    kinds, makes = ("Counts", "TwoCounts"), ("one-count", "two-counts")
    yield lists, Part(list(together("moves", kinds, makes, one, "move")), (head, ""), pairs.split(" final")[0].replace("TwoCounts", "abbrev pub TwoCounts : ℕ → (ℕ → ℕ → cursor_type.Cursor) → Type 0"))
    yield lists, Part(list(together("pairs", kinds, makes, two))[:-1], (pairs, ""), None)
    kinds, makes = ("OneMove", "TwoMoves"), ("one_count", "two_counts")
    moves = [*together("counted", kinds, makes, one), *together("twos", kinds, makes, two)]
    margins = "pub margins : (a b j k : ℕ) → j ≡ or_default 1 a → k ≡ or_default most b → a < 2 ^ 32 → b < 2 ^ 32 → (list : List CsiParam) → IsTwo a b list"
    yield rows, Part(moves, ("    → as_cursor list final ≡ Some (Moves (make j k))", ""), margins)


def of_edit(actions):
    yield "crates/csicodec_structs/src/movement.rt", Part(list(front_arms(actions)), ("fn edited(number: u32, control: u8) -> Option<Edit>", "    match control {"), "        b'J' => Some(Edit::EraseInDisplay(EraseInDisplay::from_i64(i64::from(number))?)),")
    head = "OneEdit final make = (n k : ℕ) → k ≡ or_default 1 n → n < 2 ^ 32 → (list : List CsiParam) → IsOne n list → as_edit list final ≡ Some (Edits (make k))"
    behind = "pub erase_in_display : (n : ℕ) (v : EraseInDisplay) → Some v ≡ with_number erase_in_display_number erases_in_display (pos n) → (list : List CsiParam)"
    yield "crates/csicodec_structs/proofs/Moved.antt", Part(list(together("edits", ("OneEdit", ""), ("one_count", ""), actions)), (head, ""), behind)


# ---- csicodec_overwrite


# What an action does in a line that is overwritten, in the source and in the definitions, by `in_line` of its row: it goes to another row, or maybe
# so, in the same column or to the first, or it does nothing there. Of one that acts there they say by hand what.
IN_LINE = {"leaves": ("Some(Step::Leave(None))", "Step.Leave None ∷ []"), "first": ("Some(Step::Leave(Some(1)))", "Step.Leave (Some 1) ∷ []"), "nothing": ("None", "[]"), "acts": None}
STEPS, TEXT = (f"crates/csicodec_overwrite/{path}" for path in ("specs/Steps.antt", "src/text.rt"))
# The last lines by hand ahead of what is written for each subject.
ACTS = {
    "Cursor": ("of_cursor (Cursor.LinePositionAbsolute row) = Step.Row row None ∷ []", "        Cursor::LinePositionAbsolute(row) => Some(Step::Row(*row, None)),"),
    "Edit": ("of_edit (Edit.EraseInDisplay EraseInDisplay.EraseScrollback) = []", "        Edit::EraseInDisplay(EraseInDisplay::EraseScrollback) => None,"),
}


def any_of(action):
    """It with any numbers, in the definitions and in the source."""
    spec, source = f"{action.subject}.{action.variant[0]}", rust(action)
    if action.form == "unit":
        return spec, source
    return (f"({spec} a b)", f"{source} {{ .. }}") if action.form == "places" else (f"({spec} x)", f"{source}(_)")


def lines_of_steps(function, rows):
    """Lines of a definition: of each pattern what it does in a line."""
    return [f"{function} {pattern} = {IN_LINE[does][1]}" for does in IN_LINE for pattern, of in rows if of == does and IN_LINE[does]]


def arms_of_steps(rows):
    """Arms of the source, one for all patterns that do the same."""
    grouped = [([pattern for pattern, of in rows if of == does], said[0]) for does, said in IN_LINE.items() if said]
    return [line for patterns, said in grouped if patterns for line in either(patterns, said, 8)]


def of_steps(subject):
    """What its actions do in a line, but for those that act there."""
    of, (spec, source) = low(subject.name), ACTS[subject.name]
    rows = [(*any_of(action), action.row["in_line"]) for action in subject.actions]
    yield STEPS, Part(lines_of_steps(f"of_{of}", [(row[0], row[2]) for row in rows]), (f"abbrev pub of_{of} : {subject.name} → List Step", spec), "")
    yield TEXT, Part(arms_of_steps([row[1:] for row in rows]), (f"fn {of}_step({of}: &{subject.name}) -> Option<Step>", source), "    }")


def faults(subjects):
    """Where csicodec_overwrite doesn't say by hand what a row does that acts within a line, or says so of another one."""
    by_name, hand = {subject.name: subject for subject in subjects}, {}
    for path, part in [it for name in ACTS for it in of_steps(by_name[name])]:
        lines = hand.setdefault(path, pathlib.Path(TOP, path).read_text(encoding="utf-8").split("\n"))
        start, end = part.span(lines)
        hand[path] = lines[:start] + lines[end:]
    for action in (action for name in ACTS for action in by_name[name].actions):
        for path, called in ((STEPS, f"{action.subject}.{action.variant[0]}"), (TEXT, rust(action))):
            said, acts = re.search(rf"\b{re.escape(called)}\b", "\n".join(hand[path])), action.row["in_line"] == "acts"
            if bool(said) != acts:
                yield rust(action), f"in_line is {action.row['in_line']}, and {path} {'has no line for it' if acts else 'has a line for it by hand'}"


def parts(subjects):
    """All of them, by path."""
    by_name = {subject.name: subject for subject in subjects}
    regular = {name: [action for action in by_name[name].actions if "final" in action.row] for name in ("Cursor", "Edit")}
    every = [action for subject in subjects for action in subject.actions]
    found = [*of_subject(by_name["Cursor"], CURSOR), *of_subject(by_name["Edit"], EDIT), *of_cursor(regular["Cursor"]), *of_edit(regular["Edit"])]
    found += [*mirrored(by_name["Cursor"]), *mirrored(by_name["Window"]), *of_steps(by_name["Cursor"]), *of_steps(by_name["Edit"])]
    found += [("crates/csicodec_compact/src/spell.rt", Part(default_arms(every), ("fn least_said(control: char) -> i64 {", "    match control {"), "        _ => 0,"))]
    out = {}
    for path, part in [*found, *documents([*regular["Cursor"], *regular["Edit"]])]:
        out.setdefault(path, []).append(part)
    return out
