"""The numbers of the header's names, which stay: include/numbers.txt has each that was given, and may only grow."""
import os
import re
import shutil
import subprocess
import sys

from bindings.library import FIRST, IN_TURN, PATH, TOP, kinds
from read import place

LIST = "include/numbers.txt"
HEAD = """\
# The number of each name in the headers. A number stays what it is: a name that is new gets a line at the end, and no line is changed or
# taken out. tools/table adds the lines, and refuses all else, also against the list as each commit had it.
"""


def pairs(text):
    """What is written as `NAME = number`."""
    return dict(re.findall(r"^ *(CSICODEC_\w+) = (\d+),?$", text, re.M))


def read(path):
    try:
        with open(os.path.join(TOP, path), encoding="utf-8") as file:
            return file.read()
    except FileNotFoundError:
        return ""


def git(*words):
    return subprocess.run(["git", "-C", TOP, *words], capture_output=True, encoding="utf-8", check=False)


def earlier():
    """The list as each commit had it."""
    if not os.path.exists(os.path.join(TOP, ".git")):
        print(f"table: no history here: the numbers are compared with {LIST} as it is")
        return
    if not shutil.which("git"):
        print(f"table: no git: the numbers are compared with {LIST} as it is")
        return
    commits = git("rev-list", "--full-history", "HEAD", "--", LIST)
    if commits.returncode:
        sys.exit(f"table: {LIST} can't be compared with what it was: {commits.stderr.strip()}")
    for commit in commits.stdout.split():
        yield f"{LIST} of {commit[:7]}", git("show", f"{commit}:{LIST}").stdout


def table_faults():
    """Where the numbers of the table aren't those of their subject, or are those of what stands in none."""
    for number, group, variant, _, _ in kinds():
        name = f"{place('actions.toml', group, *variant)}: {group}::{' '.join(variant)}"
        if number in (0, PATH):
            yield f"{name} has the number {number} of {'SelectCharacterPath' if number else 'Unspecified'}"
        if not FIRST[group] <= number < FIRST[group] + 100:
            yield f"{name} has the number {number}, which is of another hundred than the others of {group}"
    for group in IN_TURN:
        others = [other for other in IN_TURN if other != group and FIRST[other] == FIRST[group]]
        if others:
            yield f"{group} and {others[0]} have numbers of one hundred"


def changes(now):
    """Where a number isn't what it was."""
    for where, text in [(LIST, read(LIST)), *earlier()]:
        for name, number in pairs(text).items():
            if now.get(name) != number:
                yield f"{name} is {now.get(name, 'gone')}, and {number} in {where}: a number stays"


def grown(now):
    """The list, with a line for each name that is new."""
    old = pairs(read(LIST))
    lines = [f"{name} = {number}\n" for name, number in {**old, **now}.items()]
    return HEAD + "".join(lines)
