"""Which files follow from the actions, from the values that they have, and from the other tables: whole files of csicodec_structs, of csicodec_words, of csicodec_explain, of include/, of c/,
of python/, of web/ and of rust/ (FILES), in which nothing else stands, and the numbers of new names in include/numbers.txt. A number that was given
isn't changed."""
import importlib.machinery
import importlib.util
import os
import shutil
import subprocess
import sys
import tempfile

from bindings.digits import digits
from bindings.examples import c_examples, rust_examples
from bindings.header import header, header_names, meaning
from bindings.javascript import javascript_actions, javascript_types
from bindings.library import ESCAPES, IN_TURN, NAMED, TOP, acting, kinds, numbers_of, types
from bindings.numbers import LIST, changes, grown, pairs, read, table_faults
from bindings.patterns import patterns
from bindings.proofs import proof
from bindings.python import python_actions, python_enums, python_known
from bindings.rust import rust_known, rust_rows, rust_types
from bindings.said import rust_keys, rust_osc
from bindings.source import rows
from bindings.specs import specs
from bindings.words import words

HEADER = "include/csicodec_kinds.h"
FILES = {
    "crates/csicodec_structs/specs/Rows.antt": specs,
    "crates/csicodec_structs/proofs/OneAction.antt": proof,
    "crates/csicodec_structs/src/rows.rt": rows,
    "crates/csicodec_words/src/action_words.rt": words,
    "crates/csicodec_explain/src/patterns.rt": patterns,
    "crates/csicodec_explain/src/digits.rt": digits,
    HEADER: header,
    "include/csicodec_names.h": header_names,
    "rust/src/types.rs": lambda: rust_types("The attributes, and what has a name", NAMED),
    "rust/src/actions.rs": lambda: rust_types("The actions", acting()),
    "rust/src/esc.rs": lambda: rust_types("Escape sequences", ESCAPES),
    "rust/src/rows.rs": rust_rows,
    "rust/src/kinds.rs": rust_known,
    "rust/src/osc_kinds.rs": rust_osc,
    "rust/src/key_codes.rs": rust_keys,
    "rust/tests/kinds/table.rs": rust_examples,
    "python/csicodec/enums.py": python_enums,
    "python/csicodec/actions.py": python_actions,
    "python/csicodec/known_kinds.py": python_known,
    "web/actions.mjs": javascript_actions,
    "web/actions.d.ts": javascript_types,
    "c/kinds.inc": c_examples,
}


def faults():
    """What the tables lack for C and the packages."""
    yield from table_faults()
    for variant in types()["CSI"].variants:
        if variant.name not in [*IN_TURN, "SelectCharacterPath", "Unspecified"]:
            yield f"table/actions.toml has no table of CSI::{variant.name}"
    for _, group, variant, form, names in kinds():
        if form == "enum" and names[0] not in types():
            yield f"table/values.toml lacks {names[0]}, which {group}::{' '.join(variant)} has"
        elif form == "enum" and not types()[names[0]].example:
            yield f"table/values.toml has no example of {names[0]}"
        elif meaning(form, names).startswith("first: enum") and form == "enum" and not numbers_of(types()[names[0]]):
            yield f"table/values.toml has no numbers of {names[0]}"


def stop_at(found):
    found = list(found)
    if found:
        sys.exit("\n".join(f"table: {fault}" for fault in found))


def run(words, **more):
    try:
        return subprocess.run(words, capture_output=True, check=True, encoding="utf-8", **more).stdout
    except FileNotFoundError:
        sys.exit(f"table: refused: no {words[0]} in PATH, which lays out what is written")
    except subprocess.CalledProcessError as error:
        sys.exit(f"table: {' '.join(words)}: {error.stderr or error.stdout}")


def settled(text):
    """The text of a file of definitions or proofs, with its imports laid out by tools/imports."""
    loader = importlib.machinery.SourceFileLoader("imports", os.path.join(TOP, "tools/imports"))
    module = importlib.util.module_from_spec(importlib.util.spec_from_loader("imports", loader))
    loader.exec_module(module)
    return module.settled(text)


# What lays out the files of each kind, and those that it isn't here for, so that they are compared but for their layout.
TOOLS = {".rt": "rt", ".rs": "rustfmt"}
LOOSE = set()


def left_out(texts):
    """The texts that can be compared with their files as they stand there, or whose tool is needed."""
    for end, tool in TOOLS.items():
        paths = [path for path in texts if path.endswith(end)]
        if not shutil.which(tool):
            LOOSE.update(paths)
            print(f"table: no {tool}: the layout of {len(paths)} written files was not compared")
    return {path: text for path, text in texts.items() if path not in LOOSE}


def laid_out(texts):
    """The texts as they stand in their files: Rattle as `rt fmt` lays it out, in a crate of its own, imports as tools/imports does, and Rust as `rustfmt` does."""
    out = {path: settled(text) if path.endswith(".antt") else text for path, text in texts.items()}
    with tempfile.TemporaryDirectory() as room:
        source = os.path.join(room, "crates/kinds/src")
        os.makedirs(source)
        sources = {path: os.path.join(source, path.split("/src/")[1]) for path in texts if path.endswith(".rt")}
        with open(os.path.join(room, "crates.txt"), "w", encoding="utf-8") as file:
            file.write("kinds:\n")
        with open(os.path.join(source, "lib.rt"), "w", encoding="utf-8") as file:
            file.write("//! The tables.\n" + "".join(f"mod {os.path.basename(path)[:-3]};\n" for path, place in sources.items() if os.path.dirname(place) == source))
        for path, place in sources.items():
            os.makedirs(os.path.dirname(place), exist_ok=True)
            with open(place, "w", encoding="utf-8") as file:
                file.write(texts[path])
        if sources:
            run(["rt", "fmt"], cwd=os.path.join(room, "crates/kinds"))
        for path, place in sources.items():
            with open(place, encoding="utf-8") as file:
                out[path] = file.read()
    for path in texts:
        if path.endswith(".rs"):
            out[path] = run(["rustfmt", "--edition", "2024"], input=texts[path])
    return out


def files(is_check=False):
    """The texts by path from the top of the repository. To compare, none of the tools that lay them out is needed."""
    stop_at(faults())
    texts = {path: make() for path, make in FILES.items()}
    texts |= laid_out(left_out(texts) if is_check else texts)
    numbers = {**pairs(read("include/csicodec.h")), **pairs(read("include/csicodec_stream.h")), **pairs(texts[HEADER])}
    stop_at(changes(numbers))
    return {**texts, LIST: grown(numbers)}
