"""python3 .ci/languages/table.py FOLDER [--write]: compares the table of docs/FOREIGN.md, of what each language has, with what the programs
beside this one said of the installed packages, which stands in FOLDER under the names of the languages."""
import os
import sys

TOP = os.path.dirname(os.path.dirname(os.path.dirname(os.path.abspath(__file__))))
LANGUAGES = ["C", "Rust", "Python", "JavaScript"]
#: Each row: its name in the programs, what it is, and notes by language. What no program has is in no language.
ROWS = [
    ("events", "events of a stream", {}),
    ("parser", "a parser for a stream that comes in pieces", {}),
    ("input", "what a terminal sends: keys, the mouse and answers, in each dialect, and the pause behind an ESC", {}),
    ("keys", "keys as one type", {}),
    ("known", "names and values of sequences without an action, such as most keys", {}),
    ("osc", "what an OSC says, such as a title, a link, colours or the clipboard, and its whole content up to a limit", {}),
    ("spans", "spans", {}),
    ("whole", "`strip`, `clean`, `filter` and `compact` of a whole stream", {}),
    ("stream", "the same of a stream that comes in pieces", {}),
    ("html", "`html` and overwritten lines of a whole stream", {}),
    ("lines", "the same of lines as they come", {}),
    ("encode", "actions that you build, written as sequences", {}),
    ("logs", "`check`, `--lines`, `--log` and `--visible`, which are the program's", {}),
    ("explain", "`explain`", {language: "runs the program" for language in ("C", "Rust", "Python")}),
]
BEGIN, END = "| | C | Rust | Python | JavaScript |\n|---|---|---|---|---|\n", "\n\n"


def table(folder):
    said = {}
    for language in LANGUAGES:
        with open(f"{folder}/{language}", encoding="utf-8") as file:
            said[language] = set(file.read().split())
    strangers = set().union(*said.values()) - {name for name, _, _ in ROWS}
    if strangers:
        sys.exit(f"languages: no row is named {', '.join(sorted(strangers))}")

    def cell(name, notes, language):
        if name not in said[language]:
            return "no"
        return f"yes, {notes[language]}" if language in notes else "yes"

    return BEGIN + "\n".join(f"| {what} | {' | '.join(cell(name, notes, language) for language in LANGUAGES)} |" for name, what, notes in ROWS)


def main(folder, *words):
    path = f"{TOP}/docs/FOREIGN.md"
    with open(path, encoding="utf-8") as file:
        text = file.read()
    begin = text.index(BEGIN)
    end = text.index(END, begin)
    made = text[:begin] + table(folder) + text[end:]
    if words == ("--write",):
        with open(path, "w", encoding="utf-8") as file:
            file.write(made)
    elif made != text:
        sys.exit("languages: docs/FOREIGN.md has another table than what the installed packages have: python3 .ci/languages/table.py FOLDER --write")


main(*sys.argv[1:])
