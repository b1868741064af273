"""The commands of OSC in csicodec_osc: their numbers, forms and words."""
import sys

from examples import all_examples
from layout import comment, low, packed, rows_of_parts, string
from read import first_line

TABLE = "osc.toml"
# What stands in a table beside its rows.
OF_WORDS = ("ahead", "form", "source")
OF_TABLE = ("doc", "command", "resets", "further", "source", "form")
FORMS = ("OneText", "Message", "Several", "TwoTexts", "TextAsked")
# What stands behind a content's begin, as the last byte of its front says it.
ALONE = {"Bare": ".", "OneText": ";", "Several": "?", "Value": "=", "Rest": "*", "Whole": "#"}


FRONTS = """What a content begins with that has words alone, and a byte for what stands behind that: `.` for nothing, `;` for `;` and a text, `?` for
either, `=` for nothing or `=` and a text, `*` for a text at once, and `#` for one that is all that is behind the number. The first that fits is told."""


# The macros that are told all commands.
BEGINS_RT = """\
macro_rules! begins {
    ($command:expr; $($over:ident($kind:ident) { $($variant:ident $begins:literal,)* })*; $($single:ident $front:literal,)*) => {
        match $command {
            $($(Command::$over($kind::$variant) => $begins,)*)*
            $(Command::$single => $front,)*
        }
    };
}

macro_rules! all {
    (; $($over:ident($kind:ident) { $($variant:ident $begins:literal,)* })*; $($single:ident $front:literal,)*) => {
        [$($(Command::$over($kind::$variant),)*)* $(Command::$single,)*]
    };
}
"""


class Group:
    """An enumeration: its variants, each with what it begins with."""

    def __init__(self, name, table):
        self.name, self.snake = name, low(name)
        self.doc, self.command, self.form = table["doc"], table["command"], table["form"]
        source = {"source": table["source"]} if "source" in table else {}
        self.resets, self.further = table.get("resets"), table.get("further", False)
        self.rows = {row: {**source, **of} for row, of in table.items() if row not in OF_TABLE}

    def commands(self):
        """The constructors over its variants, each with the column of what they begin with and the function that says it."""
        yield self.command, "begins", "number"
        if self.resets:
            yield self.resets, "resets", "reset_number"


def alone_of(tables):
    """The rows of words alone, by what a content begins with: its form, words and source."""
    rows = {}
    for table in tables["words"].values():
        common = {column: table[column] for column in OF_WORDS if column in table}
        ahead = common.pop("ahead", "")
        for begins, of in table.items():
            if begins not in OF_WORDS:
                rows[ahead + begins] = {**common, **(of if isinstance(of, dict) else {"words": of})}
    return rows


def row_faults(name, of, wanted, may, forms):
    """What a row lacks, or has too much."""
    if lacks := wanted - of.keys():
        yield f"{name}: no {', '.join(sorted(lacks))}"
    if more := of.keys() - wanted - may:
        yield f"{name}: nothing reads {', '.join(sorted(more))}"
    if of.get("form") not in (None, *forms):
        yield f"{name}: there is no form {of['form']}"


def faults(groups, single, alone):
    for group in groups:
        if group.form not in FORMS:
            yield f"[{group.name}]: there is no form {group.form}"
        for row, of in group.rows.items():
            yield from row_faults(f"[{group.name}] {row}", of, {"begins", "doc", "source", *(["resets"] if group.resets else [])}, {"words"}, FORMS)
    for row, of in single.items():
        yield from row_faults(f"[Command] {row}", of, {"begins", "doc", "form", "source"}, {"words"}, FORMS)
    for row, of in alone.items():
        yield from row_faults(f"[words] {row}", of, {"form", "words", "source"}, set(), ALONE)
    begins = [of[column] for rows in [*(group.rows for group in groups), single] for of in rows.values() for column in ("begins", "resets") if column in of]
    yield from (f"two commands begin with {text}" for text in sorted({text for text in begins if begins.count(text) > 1}))
    said = [sequence[3:] for sequence, *_ in all_examples() if sequence.startswith("\\e]")]
    unsaid = [text for text in [*begins, *alone] if not any(one.startswith(text) and (alone.get(text, {}).get("form") in ("Rest", "Whole") or not one[len(text):][:1].isalnum()) for one in said)]
    yield from (f"{text} has no line in .ci/sequences" for text in unsaid)
    order = list(alone)
    yield from (f"[words] {late} is behind {early}, which fits first" for at, late in enumerate(order) for early in order[:at] if late.startswith(early + ";"))


def enumeration(group):
    """Its type."""
    lines = [f"/// {group.doc}", "#[derive(Clone, Copy, Debug, PartialEq, Eq)]", f"pub enum {group.name} {{"]
    for variant, row in group.rows.items():
        lines += [f"    /// {row['doc']}", f"    {variant},"]
    return lines + ["}", ""]


def command_rt(groups, single):
    """src/command.rt of csicodec_osc."""
    lines = ["//! Commands: what each begins with.", "ghost use Rattle.std.specs.Prelude.{◌≡◌};", "ghost use Rattle.csicodec_osc.specs.Commands.{number};", ""]
    for group in groups:
        lines += enumeration(group)
    lines += ["/// A command, without what stands behind its number.", "#[derive(Clone, Copy)]", "pub(crate) enum Command {"]
    lines += [f"    {command}({group.name})," for group in groups for command, _, _ in group.commands()]
    lines += [f"    {name}," for name in single]
    lines += ["}", ""]
    lines += comment("Tells a macro all commands: with each constructor over an enumeration what those of its variants begin with, and behind them the single ones. The last one has the "
                     "number that others go on with, and so is tried when none of them is meant.")
    lines += ["macro_rules! commands {", "    ($macro:ident $($command:expr)?) => {", "        $macro! { $($command)?;"]
    for group in groups:
        for command, column, _ in group.commands():
            rows = rows_of_parts([f'{variant} b"{row[column]}"' for variant, row in group.rows.items()], " " * 16)
            one = f"            {command}({group.name}) {{ {rows[0].strip()} }}"
            lines += [one] if len(rows) == 1 and len(one) < 120 else [f"            {command}({group.name}) {{", *rows, "            }"]
    lines[-1] += ";"
    lines += [*rows_of_parts([f'{name} b"{row["begins"]}"' for name, row in single.items()], " " * 12), "        }", "    };", "}", "", *BEGINS_RT.split("\n")]
    lines += ["impl Command {", "    /// What it begins with.", "    pub(crate) fn number(self) -> &'static [u8]",
              "        ensures { result.now ≡ number self }", "    {", "        commands!(begins self)", "    }", "}", ""]
    count = sum(len(group.rows) for group in groups for _ in group.commands()) + len(single)
    lines += ["/// All of them.", f"pub(crate) static COMMANDS: [Command; {count}] = commands!(all);"]
    return "\n".join(lines) + "\n"


def commands_antt(groups, single):
    """specs/Commands.antt of csicodec_osc."""
    declared = "use Rattle.csicodec_osc.specs.declared.command"
    lines = ["-- The commands: the number of each, and the form of what stands behind it, each with its document.",
             "use Rattle.std.specs.Prelude.{ℕ, List, codes}", "use Rattle.csicodec_osc.specs.Forms.{Form, OneText, Message, Several, TwoTexts, TextAsked}"]
    lines += [f"{declared}.Command.{{Command}}", f"{declared}.Command.TheVariants as command"]
    lines += [f"{declared}.{group.name}.TheVariants as {group.snake}" for group in groups]
    lines += ["", "-- What a command begins with: its number, and a letter, a word or a further number where it has one.", "abbrev pub number : Command → List ℕ"]
    lines += [f'number (command.{command} {group.snake}.{variant}) = codes "{row[column]}"  -- {row["source"]}'
              for group in groups for command, column, _ in group.commands() for variant, row in group.rows.items()]
    lines += [f'number command.{name} = codes "{row["begins"]}"  -- {row["source"]}' for name, row in single.items()]
    lines += ["", "-- The form of what stands behind it.", "abbrev pub form : Command → Form"]
    lines += [f"form (command.{command} v) = {group.form}" for group in groups for command, _, _ in group.commands() if group.form != "Several"]
    lines += [f"form command.{name} = {row['form']}" for name, row in single.items() if row["form"] != "Several"]
    lines += ["form _ = Several"]
    return "\n".join(lines) + "\n"


def places_antt(groups):
    """proofs/Places.antt of csicodec_osc: where a command lies in the list of all, by computing it of each."""
    declared = "use Rattle.csicodec_osc.specs.declared.command"
    lines = ["-- Each command is in the table.", "use Rattle.std.proofs.Common.{◌≡◌, ℕ, suc, List, [], ◌∷◌, Some, refl}",
             "use Rattle.std.specs.Prelude.{slice_get, if◌then◌else◌}", "use Rattle.std.specs.Str.{bytes_eq}",
             f"{declared}.Command.{{Command}}", f"{declared}.Command.TheVariants as command"]
    lines += [f"{declared}.{group.name}.TheVariants as {group.snake}" for group in groups]
    lines += [f"{declared}.TheConstants.{{COMMANDS}}", "use Rattle.csicodec_osc.specs.Commands.{number}", "",
              "abbrev pub place_in : List Command → List ℕ → ℕ", "place_in [] n = 0",
              "place_in (k ∷ commands) n = if bytes_eq (number k) n then 0 else suc (place_in commands n)", "",
              "pub lies-at : (k : Command) → slice_get COMMANDS (place_in COMMANDS (number k)) ≡ Some k"]
    lines += [f"lies-at (command.{command} {group.snake}.{next(iter(group.rows))}) = refl" for group in groups for command, _, _ in group.commands()]
    return "\n".join([*lines, "lies-at _ = refl"]) + "\n"


def words_rt(groups, single, alone):
    """src/osc_words.rt of csicodec_osc."""
    worded = [group for group in groups if all("words" in row for row in group.rows.values())]
    lines = ["//! Words of the commands of OSC.", ""]
    for group in worded:
        said = f"Those of [`{group.name}`](crate::command::{group.name}), by their place among the others."
        lines.append(packed(said, f"{group.snake.upper()}_WORDS", "&str", [string(row["words"]) for row in group.rows.values()]))
    for name, row in single.items():
        if "words" in row:
            lines += [f"pub const {low(name).upper()}: &str = {string(row['words'])};", ""]
    return "\n".join(lines) + "\n" + packed(FRONTS, "FRONTS", "&str", [string(begins + ALONE[row["form"]]) for begins, row in alone.items()]) + "\n" + packed(
        "The words of each front, at the same place.", "ALONE", "&str", [string(row["words"]) for row in alone.values()])


def numbered(groups, single):
    """Every command: the constructor, the variant in it if there is one, its row, and its number in C. Sixteen numbers are kept for each constructor, and for
    the commands that stand alone what is behind them."""
    tables = [(group, command, function) for group in groups for command, _, function in group.commands()]
    for place, (group, command, function) in enumerate(tables, 1):
        for at, (variant, row) in enumerate(group.rows.items()):
            yield group, command, variant, row, 16 * place + at
    for at, (name, row) in enumerate(single.items()):
        yield None, name, "", row, 16 * (len(tables) + 1) + at


def commands(tables):
    """The commands as C and the languages over it have them: name, number and what is said of it."""
    groups = [Group(name, table) for name, table in tables.items() if name not in ("Command", "words")]
    for group, command, variant, row, number in numbered(groups, tables["Command"]):
        if group is None:
            yield command, number, f"`{row['begins']}`: {row['doc']}"
        else:
            column = "resets" if command == group.resets else "begins"
            yield command + variant, number, f"`{row[column]}`: {row['doc'] if column == 'begins' else 'the same as at first.'}"


def kind_function(group, function):
    return f"{group.snake}_{function.replace('number', 'kind')}"


def kinds_antt(groups, single):
    """specs/OscKinds.antt of csicodec_c."""
    numbers = {(command, variant): number for _, command, variant, _, number in numbered(groups, single)}
    declared = "use Rattle.csicodec_osc.specs.declared.command"
    lines = ["-- The numbers of `enum csicodec_osc_kind`, of what lists its commands: 16 are kept for each list.", "use Rattle.std.specs.Prelude.{ℕ, ◌+◌}",
             f"{declared}.{{{', '.join(f'{group.name}.{group.name}' for group in groups)}}}"]
    lines += [f"{declared}.{group.name}.TheVariants as {group.snake}" for group in groups]
    for group in groups:
        (_, _, function), *others = group.commands()
        name = kind_function(group, function)
        lines += ["", f"abbrev pub {name} : {group.name} → ℕ"]
        lines += [f"{name} {group.snake}.{variant} = {numbers[group.command, variant]}" for variant in group.rows]
        for _, _, function in others:
            lines += ["", f"abbrev pub {kind_function(group, function)} : {group.name} → ℕ", f"{kind_function(group, function)} command = {name} command + 16"]
    for name in single:
        lines += ["", f"abbrev pub {low(name)}_kind : ℕ", f"{low(name)}_kind = {numbers[name, '']}"]
    return "\n".join(lines) + "\n"


def files(tables):
    groups = [Group(name, table) for name, table in tables.items() if name not in ("Command", "words")]
    single, alone = tables["Command"], alone_of(tables)
    wrong = list(faults(groups, single, alone))
    if wrong:
        sys.exit("\n".join(f"table/{TABLE}: {fault}" for fault in wrong))
    rust, antt = first_line(TABLE), first_line(TABLE, "--")
    return {
        "crates/csicodec_osc/src/command.rt": rust + command_rt(groups, single),
        "crates/csicodec_osc/specs/Commands.antt": antt + commands_antt(groups, single),
        "crates/csicodec_osc/proofs/Places.antt": antt + places_antt(groups),
        "crates/csicodec_c/specs/OscKinds.antt": antt + kinds_antt(groups, single),
        "crates/csicodec_osc/src/osc_words.rt": rust + words_rt(groups, single, alone),
    }
