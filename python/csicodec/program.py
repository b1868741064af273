"""The program csicodec, which an installer puts among its scripts."""
from __future__ import annotations

import os
import sys
from collections.abc import Iterable as IterableOf
from typing import Any, Dict, Iterable, List, Optional

from .library import Data, bytes_of


def path() -> str:
    """Where the program is: among the scripts of this Python, or of this user, or beside what this package lies in."""
    import sysconfig

    beside = os.path.dirname(os.path.dirname(os.path.abspath(__file__)))
    folders = [sysconfig.get_path("scripts"), sysconfig.get_path("scripts", f"{os.name}_user"), os.path.join(beside, "bin")]
    name = "csicodec.exe" if os.name == "nt" else "csicodec"
    found = [os.path.join(folder, name) for folder in folders]
    for place in found:
        if os.access(place, os.X_OK):
            return place
    raise FileNotFoundError(f"the program csicodec isn't where an installer puts it: {', '.join(found)}")


def explain(stream: Data, *, only: Optional[Iterable[str]] = None, unknown: bool = False, decode: bool = False) -> List[Dict[str, Any]]:
    """The spans of a stream in words: dictionaries with the place `at`, the `kind`, the bytes as `text` or `hex`, and the `actions`, each
    with a `name` and `words`. It runs the program. A stream that begins with { and whose first line is that of an asciicast (of version 2
    or 3, and of at most 4,096 bytes with its newline) is read as the recording, or refused.

    >>> explain(b"\\x1b[5;7H")[0]["actions"][0]["words"]
    'cursor to line 5, column 7'
    """
    import json
    import subprocess

    words = [path(), "explain", "--json"]
    if not isinstance(only, (type(None), str, IterableOf)):
        raise TypeError(f"only must be names, not {type(only).__name__}")
    if only is not None:
        words.append("--only=" + ",".join([only] if isinstance(only, str) else only))
    words += ["--unknown"] * unknown + ["--decode"] * decode
    ran = subprocess.run(words, input=bytes_of(stream), stdout=subprocess.PIPE, stderr=subprocess.PIPE, check=False)
    # Without a message status 1 says that nothing is unknown.
    if ran.returncode > 1 or ran.stderr:
        raise ValueError(ran.stderr.decode("utf-8", "replace").strip())
    return [json.loads(line) for line in ran.stdout.splitlines()]


def main() -> None:
    """Runs the program with the words of the command line."""
    place = path()
    if os.name == "nt":
        # There a process can't become another: this one waits.
        import subprocess

        sys.exit(subprocess.call([place, *sys.argv[1:]]))
    os.execv(place, ["csicodec", *sys.argv[1:]])
