"""table/values.toml: enumerations that actions have. The core declares them, and C and the packages have their numbers."""
from declared import Type, Variant, declaration, in_turn
from checks import check_columns, check_once, refuse
from layout import rows_of_parts
from parts import Part
from read import rows_of

TABLE = "values.toml"
WIDTH = 100


def variant_of(name, row, numbers):
    fields = tuple((field, *said) for field, said in row.get("fields", {}).items())
    return Variant(name, row.get("doc", ""), row.get("number"), str(row["number"]) if numbers == "declared" else "", row.get("holds", ""), tuple((name, kind, *(doc or [""])) for name, kind, *doc in fields))


def types():
    """Each with its variants; those of a type that is `of` a subject are actions, and stand there."""
    for name, row in rows_of(TABLE).items():
        variants = [variant_of(variant, of, row.get("numbers")) for variant, of in row.get("variants", {}).items()]
        yield Type(name, row["file"], row["doc"], row["derives"], variants, row.get("prefix", ""), row.get("plain", False), tuple(row.get("example", ())))


def check(rows):
    for name, row in rows.items():
        check_columns(TABLE, {name: row}, ("file", "doc", "derives", "of" if "of" in row else "variants"), ("numbers", "specs", "reads", "prefix", "plain", "example", "others"))
        for variant, of in row.get("variants", {}).items():
            for column in of:
                if column not in ("number", "holds", "fields", "words", "doc"):
                    refuse(TABLE, f"{name}::{variant}", f"nothing is written from a column {column}")
            if "numbers" in row and "number" not in of:
                refuse(TABLE, f"{name}::{variant}", "it has no number")
        check_once(TABLE, {f"{name}::{variant}": of for variant, of in row.get("variants", {}).items()}, "number")


def numbers(kind, specs):
    """The parts of its specs: the number of each variant, and the list of all."""
    variants = sorted(kind.variants, key=lambda variant: variant.number)
    yield Part([f"{specs['number']} {specs['as']}.{variant.name} = {variant.number}" for variant in variants], (f"abbrev pub {specs['number']} : {kind.name} → ℕ",), "")
    if "list" in specs:
        every = [f"{specs['as']}.{variant.name}" for variant in variants]
        line = f"{specs['list']} = {in_turn(every, True)[0]}"
        is_inline = not specs["file"].startswith("csicodec_names/")
        lines = [line] if is_inline and len(line) <= WIDTH else [f"{specs['list']} =", *(["    " + in_turn(every, True)[0]] if is_inline else in_turn(every))]
        yield Part(lines, (f"abbrev pub {specs['list']} : List {kind.name}",), "")


def functions(kind, reads):
    """The parts of its functions: the variant of a number, and the other way where the declaration hasn't got it."""
    ahead = f"impl {kind.name} {{"
    if kind.file.startswith("csicodec_names/"):
        yield Part(rows_of_parts([f"{variant.number} {variant.name}" for variant in kind.variants], " " * 12), (ahead, f"        numbered! {{ {reads}, {kind.name}:"), "        }")
    else:
        yield Part([f"            {variant.number} => Some({kind.name}::{variant.name})," for variant in kind.variants], (ahead, f"        match {reads} {{"), "            _ => None,")
    if not kind.variants[0].shown:
        yield Part([f"            {kind.name}::{variant.name} => {variant.number}," for variant in kind.variants], (ahead, "        match self {"), "        }")


def files(rows):
    check(rows)
    parts = {}
    for kind in types():
        row = rows[kind.name]
        own = parts.setdefault(f"crates/{kind.file}", [])
        own += [declaration(kind)] if kind.variants else []
        own += functions(kind, row["reads"]) if "reads" in row else []
        if "specs" in row:
            parts.setdefault(f"crates/{row['specs']['file']}", []).extend(numbers(kind, row["specs"]))
    return parts
