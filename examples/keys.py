"""Reads keys from a terminal in raw mode, and says which they are, until q is pressed.

    python3 keys.py
"""
import os
import select
import sys
import termios
import tty
from typing import Iterator

from csicodec import Input, InputEvent, InputParser, MouseReport, Text, Unspecified, known

#: How long an ESC is waited behind, in seconds, before it is a key of its own.
PATIENCE = 0.05


def pressed(file: int) -> Iterator[InputEvent]:
    """The events of a terminal, as they come."""
    parser = InputParser()
    while True:
        is_ready, _, _ = select.select([file], [], [], PATIENCE)
        data = os.read(file, 4096) if is_ready else b""
        if is_ready and not data:
            yield from parser.finish()
            return
        yield from parser.feed(data) if data else parser.pause()


def name_of(event: InputEvent) -> str:
    """What an event is, in words."""
    if isinstance(event, Text):
        return "text " + ascii(event.text)
    if isinstance(event, Unspecified):
        it = known(event)
        return f"{it.kind.name} {list(it.values)}" if it else f"unknown {bytes(event)!r}"
    if isinstance(event, (Input, MouseReport)):
        return repr(event)
    return f"{event}"


def main() -> None:
    file = sys.stdin.fileno()
    before = termios.tcgetattr(file)
    tty.setraw(file)
    try:
        for event in pressed(file):
            print(name_of(event), end="\r\n", flush=True)
            if event == Text("q"):
                return
    finally:
        termios.tcsetattr(file, termios.TCSADRAIN, before)


if __name__ == "__main__":
    main()
