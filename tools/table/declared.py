"""Enumerations, as the core declares them."""
from dataclasses import dataclass, field

from layout import comment
from parts import Part

# How long a comment of one line may be.
LONGEST = 128


def in_turn(names, is_inline=False):
    """A list of the specs, on a line or in lines of some 100 columns."""
    if is_inline:
        return [" ∷ ".join([*names, "[]"])]
    lines = [f"    {names[0]}"]
    for name in (*names[1:], "[]"):
        lines = [*lines[:-1], f"{lines[-1]} ∷ {name}"] if len(lines[-1]) + len(name) < 100 else [*lines, f"    ∷ {name}"]
    return lines


def comment_lines(text, indent=""):
    """The lines of a comment: of a text with lines of its own these, or one if it may be longer than others."""
    if "\n" in text or len(indent) + len(text) <= LONGEST:
        return [f"{indent}/// {line}".rstrip() for line in text.split("\n") if text]
    return comment(text, indent) if text else []


@dataclass(frozen=True)
class Variant:
    """A variant: its number, if it has one, and how the declaration shows it; what it holds between parentheses, or the name, type and comment of
    each of its fields; and its comment."""
    name: str
    doc: str = ""
    number: int | None = None
    shown: str = ""
    holds: str = ""
    fields: tuple = ()

    def lines(self, has_docs):
        out = comment_lines(self.doc, "    ") if has_docs else []
        if not self.fields:
            return [*out, f"    {self.name}{self.holds and f'({self.holds})'}{self.shown and f' = {self.shown}'},"]
        inside = [line for name, kind, doc in self.fields for line in (*comment_lines(doc, "        "), f"        {name}: {kind},")]
        return [*out, f"    {self.name} {{", *inside, "    },"]


@dataclass(frozen=True)
class Type:
    """An enumeration: its file below crates/, its comment, what the core derives for it, how its constants begin in C, and its variants."""
    name: str
    file: str
    doc: str
    derives: str
    variants: list = field(compare=False)
    prefix: str = ""
    is_plain: bool = False
    example: tuple = ()

    def body(self, has_docs=True):
        return [line for variant in self.variants for line in variant.lines(has_docs)]

    def lines(self):
        """The declaration in the core; that of a plain type has no comments at its variants."""
        return [*comment_lines(self.doc), f"#[derive({self.derives})]", f"pub enum {self.name} {{", *self.body(not self.is_plain), "}"]


@dataclass(frozen=True)
class Declaration(Part):
    """The declaration of an enumeration in its file, with the comment and the attributes ahead of it."""
    name: str = ""

    def span(self, lines):
        start = self.find(lines, f"pub enum {self.name} {{", 0)
        end = self.find(lines, "}", start)
        while lines[start - 1].startswith(("///", "#[")):
            start -= 1
        return start, end + 1


def declaration(kind):
    return Declaration(kind.lines(), name=kind.name)
