"""What the tables say of the kinds: groups, types, numbers and documentation; and the names that follow from them."""
import dataclasses
import functools
import os
import re
import textwrap

import actions
import escapes
import modes
from declared import comment_lines
from layout import low
from read import TOP

# The groups as a `match` has them, and by their numbers, which are of one hundred.
SUBJECTS = {subject.name: subject for subject in actions.subjects()}
IN_TURN = list(SUBJECTS)
FIRST = {name: subject.first() for name, subject in SUBJECTS.items()}
BY_NUMBER = sorted(IN_TURN, key=FIRST.get)
# The number of the one that CSI has beside the groups.
PATH = 801
# The forms of what has tokens.
LISTS = ("extensions", "graphics")

# What stands as a number, but not as its own `to_i64` and `from_i64` say: how the specs and the source give it, and how the
# source reads it again.
NUMBERS = {
    "Intensity": ("intensity_number", "*value as i64", "intensity(given.first)?"),
    "Underline": ("underline_number", "*value as i64", "underline(given.first)?"),
    "Blink": ("blink_number", "*value as i64", "blink(given.first)?"),
    "VerticalAlign": ("align_number", "*value as i64", "align(given.first)?"),
    "Font": ("font_number", "font_number(*value)", "font(given)?"),
    "CursorTabulationControl": ("tabulation_control_number", "value.to_i64()", "CursorTabulationControl::from_i64(given.first)?"),
    "DecPrivateMode": ("dec_number", "i64::from(value.number())", "private_mode(given)?"),
    "TerminalMode": ("terminal_number", "i64::from(value.number())", "terminal_mode(given)?"),
}

# What the library's documentation says of itself alone, and what stands in its place in the package.
OWN = [
    (r" ?(It prints its|They print their) [^;]*; `CSI` prints the `ESC \[` too\.", ""),
    (r"; `of` makes the one or the other of a (number|token)", ""),
    (r" and has no text, not even a final byte: .*? of the sequence\. `CSI::is_canonical` is false of it\.", "."),
]


def kinds():
    """Each kind: its number, group, variant in parts, form and the names in it."""
    for group in BY_NUMBER:
        for action in SUBJECTS[group].actions:
            yield action.number, group, list(action.variant), action.form, list(action.names)


def of(group):
    return [k for k in kinds() if k[1] == group]


def snake(name):
    return low(name).upper()


def span(group):
    """The numbers of a group, as a pattern."""
    return f"{FIRST[group]}..={FIRST[group] + 99}"


@functools.cache
def text_of(path):
    with open(os.path.join(TOP, path), encoding="utf-8") as file:
        return file.read()


def type_of(group):
    return SUBJECTS[group].type


def is_boxed(group):
    return SUBJECTS[group].is_boxed


def has_tokens(group):
    return any(form in LISTS for _, _, _, form, _ in of(group))


def module(name):
    """Where the specs have the type of an enumeration."""
    crate, place = re.fullmatch(r"(\w+)/src/(.*)\.rt", types()[name].file).groups()
    return f"Rattle.{crate}.specs.declared.{place.replace('/', '.')}.{name}"


def number_of(name):
    """How the specs and the source give the number of an enumeration, and how the source reads it again."""
    return NUMBERS.get(name, (f"{low(name)}_number", "value.to_i64()", f"{name}::from_i64(given.first)?"))


def used(names, text):
    """Those of the names that the text says, by the alphabet."""
    return ", ".join(sorted(name for name in set(names) if re.search(rf"(?<![\w:.]){re.escape(name)}(?![\w'-])", text)))


# ---- the types

# The files that the types of the package's types.rs are in.
NAMED = ["csicodec_base/src/sgr.rt"] + [f"csicodec_names/src/{name}.rt" for name in ("color", "enums", "modes", "device")]
# The files that escape sequences are in.
ESCAPES = ["csicodec_names/src/esc.rt", "csicodec_names/src/esc_codes.rt"]


@functools.cache
def types():
    """Each type by its name, with its documentation as the packages have it."""
    every = [*actions.types().values(), *modes.types(), *escapes.types()]
    return {kind.name: mended(kind) for kind in every}


@functools.cache
def acting():
    """The files that those of its actions.rs are in."""
    files = [subject.row[column] for subject in map(SUBJECTS.get, BY_NUMBER) for column in ("file", "beside") if column in subject.row]
    return [file for file in files if file not in NAMED] + [types()[name].file for name in ("CharacterPath", "CsiParam", "CSI")]


def declared(sources):
    """The types of these files."""
    return [kind for path in sources for kind in types().values() if kind.file == path]


def mended(kind):
    """A type without what OWN says of the library alone."""
    variants = [dataclasses.replace(variant, doc=own(variant.doc, 4)) for variant in kind.variants]
    return dataclasses.replace(kind, doc=own(kind.doc, 0), variants=variants)


def own(doc, indent):
    """A comment without that: if it changes it is laid out anew, but for an example."""
    doc = doc.replace("](crate::", "](")
    words, fence, example = doc.partition("\n\n```")
    said = kept = "\n".join(" ".join(part.split("\n")) for part in words.split("\n\n"))
    for of_library, ours in OWN:
        kept = re.sub(of_library, ours, kept)
    if kept == said:
        return doc
    laid = ["\n".join(textwrap.wrap(part.strip(), 116 - indent, break_on_hyphens=False)) for part in kept.split("\n") if part.strip()]
    return "\n\n".join(laid) + fence + example


def docs_of(kind):
    """The comment of a type, as it stands in Rust."""
    return "".join(f"{line}\n" for line in comment_lines(kind.doc))


def numbers_of(kind):
    """Each variant that has a number, with it and its docs."""
    return [(variant.name, variant.number, variant.doc) for variant in kind.variants if variant.number is not None]
