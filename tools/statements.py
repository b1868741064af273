"""What the contracts of the crates and the definitions behind them say, read from crates/*/src and crates/*/specs. See believe."""
import hashlib
import pathlib
import re
from functools import lru_cache

TOP = pathlib.Path(__file__).resolve().parent.parent
WORD = re.compile(r"[^\s(){}\[\];,]+")
# What heads a definition: its words, its name, and what its first line says behind that.
HEAD = re.compile(r"((?:(?:abbrev|unfoldable|pub|record|data) )+)(\S+)(.*)", re.S)
USE = re.compile(r"^\s*(?:pub )?(?:ghost )?use\s+(Rattle\.[\w.+]+?)(?:\.\{([^}]*)\}| as (\w+))?;?$", re.M)
CLAUSE = re.compile(r"\b(requires|ensures)\*?(?:\s+(?:after\s+)?(\w+))?\s*\{")


def bare(text):
    """Without comments."""
    return re.sub(r"(?m)(^|\s)--.*$", "", text)


def normal(text):
    """Without comments, with one blank between words."""
    return " ".join(bare(text).split())


def closing(text, at):
    """Behind the brace that closes the one at this place."""
    depth = 0
    for i in range(at, len(text)):
        depth += (text[i] in "{([") - (text[i] in "})]")
        if depth == 0:
            return i + 1
    return len(text)


class Uses:
    """What the names of a file stand for: (file, name) of a definition, or a file for an alias."""

    def __init__(self, text, path):
        self.names, self.files = {}, {}
        text = re.sub(r"\b(use\s+Rattle\.[\w.+]+)(\{[^}]*\})", lambda it: it[1] + " ".join(it[2].split()), text)
        found = list(USE.finditer(text))
        if len(found) != len(re.findall(r"\buse\s+Rattle\.", text)):
            unread = next(line for line in text.split("\n") if re.search(r"\buse\s+Rattle\.", line) and not USE.match(line))
            raise SystemExit(f"{path.relative_to(TOP)}: an import isn't read: {unread.strip()}")
        for use in found:
            if use[2] is not None:
                for part in filter(None, (it.strip() for it in use[2].split(","))):
                    whole, _, other = part.partition(" as ")
                    inner, _, name = whole.rpartition(".")
                    self.names[other or name] = (".".join(filter(None, (use[1], inner))), name)
            else:
                self.files[use[3] or use[1].rpartition(".")[2]] = use[1]


class Definition:
    def __init__(self, file, name, head, text, comment):
        self.file, self.name, self.head, self.text, self.comment = file, name, head, text, comment

    @property
    def key(self):
        return self.file.module, self.name

    def lines(self):
        return sum(1 for line in bare(self.text).split("\n") if line.strip())


class File:
    """A file of definitions."""

    def __init__(self, path, module):
        self.path, self.module, self.own, self.made, last, comment = path, module, {}, {}, None, []
        text, within, rest = path.read_text().partition("\nmodule _")
        text += re.sub(r"(?m)^  ", "", rest.partition("\n")[2]) if within else ""
        self.uses = Uses(text, path)
        self.again = re.findall(r"(?m)^pub use (Rattle\.[\w.]+)$", text)
        for line in text.split("\n"):
            head = HEAD.match(line)
            if line.startswith("--"):
                comment.append(line)
            elif head and head[2] not in ("mod", "use") and not line.startswith(("pub mod", "pub use")):
                last = Definition(self, head[2], line, line + "\n", "\n".join(comment))
                self.own[head[2]], comment = last, []
            elif line.startswith((" ", "}")) or last and re.match(rf"(?:unfolding|{re.escape(last.name)})(?![\w'-])", line):
                if last:
                    last.text += line + "\n"
                    maker = re.match(r"  (\S+) : ", line)
                    if maker and "data " in last.head:
                        self.made[maker[1]] = last
            elif not line.strip():
                comment = []


@lru_cache(None)
def files():
    found = {}
    for path in sorted(TOP.glob("crates/*/specs/**/*.antt")):
        crate = path.relative_to(TOP / "crates").parts[0]
        inner = path.relative_to(TOP / "crates" / crate / "specs").with_suffix("").parts
        module = ".".join(("Rattle", crate, "specs", *inner))
        found[module] = File(path, module)
    return found


# A part of the name of a module that Rattle makes.
GENERATED = re.compile(r"\.(declared|contracts)\.")


def lost():
    """The imports of definitions that lead nowhere."""
    crates = {module.split(".")[1] for module in files()}
    for file in files().values():
        for module, name in (handed(*it) for it in file.uses.names.values()):
            # A constructor stands behind its type.
            owner, _, last = module.rpartition(".")
            if module.split(".")[1] in crates and not GENERATED.search(module) and defined(module, name) is None and defined(owner, last) is None:
                yield f"{file.module} imports {module}.{name}, which isn't there"


def handed(module, name):
    """Where a name comes from that a file passes on."""
    file = files().get(module)
    while file and name not in file.own and name not in file.made and name in file.uses.names:
        module, name = file.uses.names[name]
        file = files().get(module)
    return module, name


def defined(module, name):
    """The definition of a name in a file, or of what the file passes on."""
    file = files().get(module)
    if file:
        return file.own.get(name) or file.made.get(name)
    crate, _, last = module.rpartition(".")
    lib = files().get(crate + ".Lib")
    for again in lib.again if lib else ():
        if again.endswith("." + last):
            return defined(again, name)
    return None


def resolved(word, uses, own=None):
    """The definition, or the type in Rust, that a word stands for; None for what is the kit's, and for variables."""
    if own and (word in own.own or word in own.made):
        return own.own.get(word) or own.made[word]
    first, dot, rest = word.partition(".")
    if word in uses.names:
        module, name = uses.names[word]
    elif dot and first in uses.files:
        module, name = uses.files[first], rest.split(".")[0]
    elif dot:
        # A field of what a definition says, or a constructor of its own.
        return resolved(first, uses, own)
    else:
        return None
    module, name = handed(module, name)
    if ".declared." in module:
        return module.removesuffix(".TheVariants")
    return defined(module, name)


def named(text, uses, own=None):
    """The definitions that a text names, in its order, and the types of Rust."""
    found = {}
    for word in WORD.findall(bare(text)):
        it = resolved(word, uses, own)
        if it is not None:
            found[it.key if isinstance(it, Definition) else it] = it
    return list(found.values())


def behind(starts):
    """All definitions behind these, each behind those that it names, and the types of Rust."""
    done, types = {}, set()

    def visit(it):
        if isinstance(it, str):
            types.add(it)
        elif it.key not in done:
            done[it.key] = None
            for other in named(it.text, it.file.uses, it.file):
                visit(other)
            done[it.key] = done.pop(it.key) or it

    for it in starts:
        visit(it)
    return list(done.values()), types


class Contract:
    """A function with clauses."""

    def __init__(self, crate, path, name, uses, clauses, public):
        self.crate, self.path, self.name, self.uses, self.clauses, self.public = crate, path, name, uses, clauses, public
        self.is_law = path.name == "laws.rt" and public

    def text(self):
        return "\n".join(f"{kind} {name + ' ' if name else ''}{body}" for kind, name, body in self.clauses)

    def starts(self):
        return named(self.text(), self.uses)

    def title(self):
        return f"{self.crate}::{'laws::' if self.is_law else ''}{self.name}"


def blank(text):
    """The text with comments and strings as spaces, each at its place."""
    form = r"//[^\n]*|/\*.*?\*/|b?\"(?:\\.|[^\"\\])*\"|b?'(?:\\.[^']*|[^'\\])'(?!\w)"
    return re.sub(form, lambda m: re.sub(r"[^\n]", " ", m[0]), text, flags=re.S)


def clauses_of(text, at):
    """The clauses of a function from its name on."""
    found, depth, i = [], 0, at
    while i < len(text):
        clause = CLAUSE.match(text, i) if not text[i - 1].isalnum() else None
        if clause and not depth:
            end = closing(text, clause.end() - 1)
            found.append((clause[1], clause[2] or "", " ".join(text[clause.end() : end - 1].split())))
            i = end
            continue
        depth += (text[i] in "([") - (text[i] in ")]")
        if not depth and text[i] in "{;":
            return found
        i += 1
    return found


@lru_cache(None)
def contracts():
    found = []
    for path in sorted(TOP.glob("crates/*/src/**/*.rt")):
        crate, text = path.relative_to(TOP / "crates").parts[0], blank(path.read_text())
        uses = Uses(text, path)
        blocks = [(it.end(), closing(text, it.end() - 1), it[1], it[0].lstrip().startswith("pub") or it[0].lstrip().startswith("impl")) for it in re.finditer(r"(?m)^[ \t]*(?:pub )?(?:impl|trait)\b(?:<[^{]*?>)?\s*(?:[\w:<>', ]+? for )?(?:&mut |&)?(\w+)[^{;]*\{", text)]
        for fn in re.finditer(r"(?m)^[ \t]*(pub )?(?:(?:const|unsafe|extern)\s+)*fn (\w+)", text):
            clauses = clauses_of(text, fn.end())
            within = next((it for it in blocks if it[0] <= fn.start() < it[1]), None)
            if clauses:
                name = f"{within[2]}::{fn[2]}" if within else fn[2]
                found.append(Contract(crate, path, name, uses, clauses, bool(fn[1]) or bool(within and within[3])))
    return found


def digest(texts):
    return hashlib.sha256("\n".join(texts).encode()).hexdigest()


def hash_of(contract):
    """Of a contract and of all definitions behind it."""
    own, types = behind(contract.starts())
    return digest([normal(contract.text()), *sorted(f"{it.key[0]} {normal(it.text)}" for it in own), *sorted(types)])[:16], len(own)
