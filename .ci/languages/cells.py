"""What the package for Python has, each row tried: a row's name is said behind it."""
from csicodec import Cleaner, Cursor, Filter, HtmlWriter, Input, InputParser, Key, KeyCode, KeyModifiers, KeyParser, KnownKind, OscKind, OscReader, Parser, Sgr, Stripper, Text
from csicodec import clean, compact, encode, events, explain, filter, html, inputs, keys as keys_of, known, osc, overwrite, spans, strip


def says(row: str, is_so: bool) -> None:
    assert is_so, row
    print(row)


parser, keys, stripper, cleaner, filtered = Parser(), InputParser(), Stripper(), Cleaner(), Filter()
says("events", list(events("a\x1b[5;7H")) == [Text("a"), Cursor.Position(5, 7)])
says("parser", [*parser.feed("\x1b[5"), *parser.feed(";7H\x1b["), *parser.finish()][0] == Cursor.Position(5, 7))
says("input", list(inputs("\x1bOP")) == [Input.Ss3("P")] and keys.feed("\x1b") == [] and keys.pause() == [Input.Escape()])
pressed, presses, reader = list(keys_of("\x1b[97;5u"))[0], KeyParser(), OscReader()
says("keys", isinstance(pressed, Key) and (pressed.code, pressed.value, pressed.modifiers) == (KeyCode.Char, "a", KeyModifiers.CTRL)
     and list(keys_of("\x1bPa\x1bP")) == [b"\x1bPa", b"\x1bP"])
says("osc", [it.first for piece in ("\x1b]2;a ti", "tle\a") for event in parser.feed(piece) for it in reader.take(event)] == [b"a title"] and osc("8;;x").kind == OscKind.Link)
says("html", html("1\r\x1b[1m<", fragment=True) == '<span style="font-weight:bold;">&lt;</span>' and overwrite("1\r2") == "2")
page = HtmlWriter(fragment=True)
says("lines", page.feed("1\r\x1b[1m<\n&") + page.finish() == b'<span style="font-weight:bold;">&lt;</span>\n<span style="font-weight:bold;">&amp;</span>')
assert presses.feed("\x1b") == [] and [it.code for it in presses.pause() if isinstance(it, Key)] == [KeyCode.Escape]
says("known", [known(it).kind for it in events("\x1b[?2K")] == [KnownKind.DECSEL])
says("spans", [it.data for it in spans("a\x1b[m")] == [b"a", b"\x1b[m"])
says("whole", [it("\x1b[01m\x1b[3ma") for it in (strip, clean, filter, compact)] == ["a", "\x1b[1m\x1b[3ma\x1b[0m", "\x1b[1m\x1b[3ma", "\x1b[1;3ma"])
as_it_comes = [it.feed("\x1b[01") + it.feed("ma") + it.finish() for it in (stripper, cleaner)]
says("stream", as_it_comes == [b"a", b"\x1b[1ma\x1b[0m"] and filtered.feed("\x1b[01m") == b"\x1b[1m")
says("encode", encode([Sgr.Italic(True), Cursor.Up(2)]) == b"\x1b[3m\x1b[2A")
says("explain", explain("\x1b[5;7H")[0]["actions"][0]["words"] == "cursor to line 5, column 7")
