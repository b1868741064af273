"""python3 figures.py STREAM..: what the installed package costs beside re, pyte and rich, where these are there, in one run: the least processor time of
several, each round all of them in turn. The streams are taken joined."""
import re
import sys
import time

import csicodec

SHORT = "\x1b[1mbold\x1b[0m plain"
LINE = "2026-11-26 18:00:00 INFO  [worker-3] request handled in 12 ms status=200 path=/index.html\n"
#: The expression that is mostly given for this, and strip-ansi's (ansi-regex 6).
OFTEN = re.compile(r"\x1B(?:[@-Z\\-_]|\[[0-?]*[ -/]*[@-~])")
STRIP_ANSI = re.compile(
    r"[\x1b\x9b][\[\]()#;?]*(?:(?:(?:(?:;[-a-zA-Z\d\/#&.:=?%@~_]+)*|[a-zA-Z\d]+(?:;[-a-zA-Z\d\/#&.:=?%@~_]*)*)?(?:\x07|\x1b\\|\x9c))"
    r"|(?:(?:\d{1,4}(?:;\d{0,4})*)?[\dA-PR-TZcf-nq-uy=><~]))"
)


def drained(events):
    for _ in events:
        pass


def in_pieces(stream):
    parser = csicodec.Parser()
    for at in range(0, len(stream), 4096):
        parser.feed(stream[at : at + 4096])


def rivals(text):
    """What others do with a text."""
    yield "re", lambda: OFTEN.sub("", text)
    yield "strip-ansi's expression", lambda: STRIP_ANSI.sub("", text)
    try:
        import pyte

        class Listener:
            """Hears each event of pyte, and does nothing."""

        for name in pyte.Stream.events:
            setattr(Listener, name, lambda *_, **__: None)
        yield "pyte's Stream, no screen", lambda: pyte.Stream(Listener()).feed(text)
    except ImportError:
        pass
    try:
        from rich.text import Text

        yield "rich's from_ansi", lambda: Text.from_ansi(text)
    except ImportError:
        pass


def least(calls, seconds, repeat):
    """The least time of each call."""
    found = {name: 9e9 for name, _ in calls}
    end = time.monotonic() + seconds
    while time.monotonic() < end:
        for name, call in calls:
            begin = time.process_time_ns()
            for _ in range(repeat):
                call()
            found[name] = min(found[name], (time.process_time_ns() - begin) / repeat)
    return found


def main(paths):
    stream = b"".join(open(path, "rb").read() for path in paths)
    text = stream.decode("utf-8", "replace")
    calls = [("strip", lambda: csicodec.strip(stream)), ("strip of a str", lambda: csicodec.strip(text)), ("clean", lambda: csicodec.clean(stream))]
    calls += [("compact", lambda: csicodec.compact(stream)), ("events", lambda: drained(csicodec.events(stream))), ("Parser.feed of 4,096 bytes", lambda: in_pieces(stream))]
    calls += [("spans", lambda: drained(csicodec.spans(stream))), *rivals(text)]
    print(f"{len(stream)} bytes, ms a MB")
    for name, ns in least(calls, 40, 1).items():
        print(f"{name:28} {ns / len(stream):8.1f}")
    print("a short text, a line of a log, µs")
    texts = [(("strip", it), lambda it=it: csicodec.strip(it)) for it in (SHORT, LINE)] + [(("clean", it), lambda it=it: csicodec.clean(it)) for it in (SHORT, LINE)]
    texts += [(("re", it), lambda it=it: OFTEN.sub("", it)) for it in (SHORT, LINE)] + [(("strip-ansi's expression", it), lambda it=it: STRIP_ANSI.sub("", it)) for it in (SHORT, LINE)]
    times = least(texts, 16, 200)
    for name in dict.fromkeys(name for name, _ in times):
        print(f"{name:28} {times[name, SHORT] / 1000:8.2f} {times[name, LINE] / 1000:8.2f}")
    times = least([("events", lambda: list(csicodec.events(SHORT))), ("bytes", lambda: bytes(csicodec.Cursor.Up(3)))], 4, 50)
    print(f"events of the short text {times['events'] / 1000:.2f}, bytes of an action {times['bytes'] / 1000:.2f}")


main(sys.argv[1:])
