#!/usr/bin/env python3
"""tools/release_page.py TO [PAGE]: writes the page of these sources, with the program that a page has inside (dist/web/index.html's), to be tried
while one works on it. What tools/release writes has the program that was built.

The page is one file. Its modules of JavaScript become one script, since a page that was opened from a folder may load no other file, and its
policy (Content-Security-Policy) names the sums of this script and of its style sheet, so that nothing else runs.
"""
import base64
import hashlib
import json
import lzma
import os
import re
import struct
import sys

sys.dont_write_bytecode = True
from release_build import TOP, Stop, version  # noqa: E402

sys.path.insert(0, f"{TOP}/tools/table")
from examples import all_examples  # noqa: E402

MOST = 700_000
LZMA = [{"id": lzma.FILTER_LZMA1, "preset": 9 | lzma.PRESET_EXTREME, "lc": 3, "lp": 0, "pb": 0}]


def read(path):
    with open(f"{TOP}/{path}", encoding="utf-8", newline="") as file:
        return file.read()


def packed(held):
    """The number of bytes, in four of them, and what LZMA makes of these, as web/page/packed.mjs unpacks it."""
    return struct.pack("<I", len(held)) + lzma.compress(held, format=lzma.FORMAT_RAW, filters=LZMA)


# Two digits of base 85 (RFC 1924) that markup has, and those in their place.
MARKUP, OTHERS = "<&", "/,"


def inside(held):
    """Bytes as the page has them inside."""
    return base64.b85encode(packed(held)).decode().translate(str.maketrans(MARKUP, OTHERS))


def plain(text):
    """A module without its comments and the blanks at the front of its lines; no text of it has either."""
    return re.sub(r"^\s*//.*\n|^\s+", "", re.sub(r"/\*\* .*?\*/ ?|/\*\*\n.*?\*/", "", text, flags=re.S), flags=re.M)


def tight(text):
    """A script without the new lines behind a sign that says that more follows, and in lines that have no text and no regular expression
    without the blanks beside signs that stand for themselves."""
    lines = (line if re.search(r"""['"`/]""", line) else re.sub(r" ?(=>|[=!]==|&&|\|\||[=,{};:()]) ?", r"\1", line) for line in text.split("\n"))
    return re.sub(r"([;{(,])\n", r"\1", "\n".join(lines))


def bundle(entry):
    """One script of a module and those that it stands on, lowest first: each of them a function that gives what it exports."""
    made = {}

    def name_of(path):
        return "$" + os.path.basename(path).split(".")[0]

    def add(path):
        if path in made:
            return
        text, folder = read(path), os.path.dirname(path)
        for used in re.findall(r"^import .* from '(.*)';$", text, re.M):
            add(os.path.normpath(f"{folder}/{used}"))
        text = re.sub(r"^import (\{.*\}) from '(.*)';$", lambda it: f"const {it[1].replace(' as ', ': ')} = {name_of(it[2])};", text, flags=re.M)
        exported = re.findall(r"^export (?:async )?(?:function|class|const) ([\w$]+)", text, re.M)
        text = re.sub(r"^export (?=async |function |class |const )", "", plain(text), flags=re.M)
        made[path] = text if path == entry else f"const {name_of(path)} = (() => {{\n{text}return {{ {', '.join(exported)} }};\n}})();\n"

    add(entry)
    text = "".join(made.values())
    if re.search(r"</script|<!--|^(?:import|export) |[^:'\"`]//", text, re.I | re.M):
        raise Stop(f"release: {entry}: what can't stand in a page's script")
    return f"\n{tight(text)}"


def rows_of(document, heading):
    """The cells of the rows of a table in a document, behind a heading."""
    lines = read(document).split(f"{heading}\n", 1)[1].split("\n## ", 1)[0].split("\n")
    rows = [re.split(r"(?<!\\)\|", line.strip().strip("|")) for line in lines if line.startswith("| ")]
    return [[re.sub(r"^``|``$", "", cell.strip()).strip().replace("\\|", "|") for cell in row] for row in rows[1:]]


def tables():
    """What the reference card has: sequences with their words and documents, forms of many, and where terminals read otherwise."""
    examples = all_examples()
    forms = rows_of("docs/SEQUENCES.md", "# Control sequences without an action")
    differences = rows_of("docs/DIFFERENCES.md", "## Kept, where a terminal or a program reads otherwise")
    if not all(len(row) == 4 for row in [*examples, *forms]) or not all(len(row) == 3 for row in differences):
        raise Stop("release: a row of the reference card has other columns")
    return json.dumps({"examples": examples, "forms": forms, "differences": differences}, ensure_ascii=False, separators=(",", ":"))


def source(text):
    """How a policy names a script or a style sheet: by its sum."""
    return f"'sha256-{base64.b64encode(hashlib.sha256(text.encode()).digest()).decode()}'"


def page(program):
    """The page, with the program as a module of WebAssembly."""
    # Blanks beside these four, and behind the colon of a declaration, say nothing in a style sheet, and no string of it has one of them.
    style = re.sub(r"(?<=[a-z-]): ", ":", re.sub(r"\s*([{};,])\s*", r"\1", read("web/page/page.css")))
    script = bundle("web/page.mjs")
    parts = {
        "script": source(script),
        "style": source(style),
        "page.css": style,
        "page.mjs": script,
        "worker.mjs": inside(bundle("web/worker.mjs").encode()),
        "version": version(),
        "LICENSE": read("LICENSE").replace("&", "&amp;").replace("<", "&lt;"),
        "program.wasm": inside(program),
        "tables": inside(tables().encode()),
        "vim.stream": inside(read_bytes("examples/vim.stream")),
    }
    text = re.sub(r"<!-- ([\w.]+) -->", lambda it: parts[it[1]], read("web/index.html"))
    if len(text.encode()) > MOST:
        raise Stop(f"release: the page has {len(text.encode())} bytes, over {MOST}")
    return text


def read_bytes(path):
    with open(f"{TOP}/{path}", "rb") as file:
        return file.read()


def program_of(page_file):
    """The module of the program that a page has inside."""
    with open(page_file, encoding="utf-8") as file:
        found = re.search(r'id="program">([^<]+)<', file.read())
    if not found:
        raise Stop(f"release: {page_file} has no program inside")
    held = base64.b85decode(found[1].translate(str.maketrans(OTHERS, MARKUP)))
    return lzma.decompress(held[4:], format=lzma.FORMAT_RAW, filters=LZMA)


if __name__ == "__main__":
    try:
        made = page(program_of(sys.argv[2] if len(sys.argv) > 2 else f"{TOP}/dist/web/index.html"))
        with open(sys.argv[1], "w", encoding="utf-8", newline="") as file:
            file.write(made)
    except Stop as why:
        sys.exit(str(why))
