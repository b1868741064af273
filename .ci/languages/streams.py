"""Whether the package for Python tells the events of streams.tsv, whose path is given."""
import sys
from csicodec import ControlString, Esc, Malformed, Parser, Text, UnknownEsc, encode, events


def word(event):
    """An event as a row has it, and what may be joined with the next one."""
    if isinstance(event, Text):
        return "T" + event.text.encode("utf-8", "surrogateescape").hex()
    if isinstance(event, Malformed):
        return "M" + event.data.hex()
    if isinstance(event, ControlString):
        return (f"{event.kind}(" if event.first else "+") + event.data.hex() + ")" * event.last
    if isinstance(event, Esc):
        return f"E{event.code.value:x}"
    if isinstance(event, UnknownEsc):
        return "E" + (event.intermediate + event.final).encode("ascii").hex()
    return "A" + encode([event])[2:].decode("ascii")


def told(all_events):
    words = []
    for now in map(word, all_events):
        if now[0] == "+":
            words[-1] += now[1:]
        elif words and now[0] == words[-1][0] and now[0] in "TM":
            words[-1] += now[1:]
        else:
            words.append(now)
    return " ".join(words)


count = 0
with open(sys.argv[1], encoding="ascii") as rows:
    for row in rows:
        if row[0] == "#":
            continue
        stream, wanted = row.rstrip("\n").split("\t")
        held, count = bytes.fromhex(stream), count + 1
        assert told(events(held)) == wanted, (stream, told(events(held)), wanted)
        for cut in range(len(held) + 1):
            parser = Parser()
            found = [*parser.feed(held[:cut]), *parser.feed(held[cut:]), *parser.finish()]
            assert told(found) == wanted, (stream, cut, told(found), wanted)
assert count > 20, count
print(f"streams: {count} of Python")
