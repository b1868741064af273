"""python3 tools/table [--check]: writes the files that follow from the facts in table/.

Each table/NAME.toml holds facts, and tools/table/NAME.py says in `files(rows)` which files follow from its rows, as texts by path, or as parts
of files that are else by hand. Those of bindings/ follow from several tables. A row that .ci/witness.tsv has no line for, or says otherwise of, is
refused, and all else is made before anything is written. With --check nothing is written, and each file that differs is named.
"""
import importlib
import os
import pathlib
import re
import sys

sys.dont_write_bytecode = True
import witnessed  # noqa: E402
from actions import subjects  # noqa: E402
from bindings.files import LOOSE, files  # noqa: E402
from parts import with_parts  # noqa: E402
from read import TOP, rows_of  # noqa: E402
from sequences import all_rows  # noqa: E402


def text_of(path):
    return pathlib.Path(TOP, path).read_text(encoding="utf-8")


def written():
    """What all tables write, by path from the top of the repository: whole files, and parts of others."""
    texts, parts = {}, {}
    for table in sorted(pathlib.Path(TOP, "table").glob("*.toml")):
        for path, said in importlib.import_module(table.stem).files(rows_of(table.name)).items():
            if isinstance(said, list):
                parts.setdefault(path, []).extend(said)
            elif path in texts:
                sys.exit(f"table: {path} is written by two tables, the second is table/{table.name}")
            else:
                texts[path] = said
    return texts | {path: with_parts(path, texts.get(path) or text_of(path), of) for path, of in parts.items()}


def loose(text):
    """A text without what laying it out changes."""
    return re.sub(r"[\s,{}]+", "", text)


def differs(path, text):
    """Whether the file isn't there, or has another text, or where its layout can't be told more than another layout."""
    file = pathlib.Path(TOP, path)
    return not file.is_file() or text_of(path) != text and (path not in LOOSE or loose(text_of(path)) != loose(text))


def stray(known):
    """The files that say that a table writes them, which none does any more."""
    for folder, _, names in os.walk(TOP):
        if {".git", "out", "target", "__pycache__"} & {*pathlib.PurePath(os.path.relpath(folder, TOP)).parts}:
            continue
        for path in (os.path.relpath(os.path.join(folder, name), TOP) for name in names):
            with open(os.path.join(TOP, path), "rb") as file:
                head = file.read(300)
            if re.search(rb"\bWritten by\s+(//!\s+)?tools/table", head) and path not in known:
                yield path


def settled(texts, is_check):
    """Writes those that differ, or says which; and whether there was nothing to say."""
    stale = [path for path, text in texts.items() if differs(path, text)]
    for path in stale:
        if is_check:
            print(f"table: {path} isn't what table/ says: run python3 tools/table")
        else:
            pathlib.Path(TOP, path).write_text(texts[path], encoding="utf-8")
    return not stale or not is_check


def unwitnessed():
    """Stops where the witness says otherwise than the tables."""
    tables = {path.name: rows_of(path.name) for path in pathlib.Path(TOP, "table").glob("*.toml")}
    said = witnessed.facts(tables, [action for subject in subjects() for action in subject.actions], all_rows(tables["sequences.toml"]))
    found = witnessed.faults(witnessed.lines(), said)
    if found:
        sys.exit("\n".join(f"table: refused: {fault}" for fault in found))


def main(words):
    if words not in ([], ["--check"]):
        sys.exit(__doc__)
    unwitnessed()
    is_check = bool(words)
    texts = written() | files(is_check)
    is_good, strays = settled(texts, is_check), list(stray(texts))
    for path in strays:
        print(f"table: {path} says that it is written by tools/table, and no table writes it: take it away")
    if is_check and is_good and not strays:
        print(f"table: {len(texts)} files are what table/ says, and no number of them changed")
    return 0 if is_good and not strays else 1


if __name__ == "__main__":
    sys.exit(main(sys.argv[1:]))
