"""Tests of the package for Python: `python3 test_codec.py [REPOSITORY]`, with the package in the path. It takes the examples of each kind and
the streams from the repository."""
import copy
import doctest
import glob
import importlib
import os
import pathlib
import pickle
import random
import re
import subprocess
import sys
import threading
import unittest
from unittest import mock

import csicodec
import csicodec.text as text_module
from csicodec import Cleaner, ControlString, Cursor, CursorAction, FieldError, Filter, Input, InputParser, Malformed, PaletteColor, Parser, Sgr, Stripper
from csicodec import MouseButton, MouseReport, Text, UnknownEsc, Unspecified, library

REPOSITORY = pathlib.Path(sys.argv.pop(1) if len(sys.argv) > 1 else os.path.join(os.path.dirname(os.path.abspath(__file__)), "../.."))
STREAMS = [pathlib.Path(name).read_bytes() for name in sorted(glob.glob(str(REPOSITORY / "examples/*.stream")))]
ODD = b"a\xc3\xa9\x1b[1\x08;5Hb\x1b]0;title\x07\x1b[38;2;1;2;3m\x1b[99z\x1b(0\x1bPdata\x1b\\\x1b[?25h\xff\x1b[1\x1b[2Jx\xe2\x82\x1b#3\xe2\x82\xac\x1b["

PALETTE = [f"#{i:02x}0{i % 10}ff" for i in range(18)]


def in_one(it, stream):
    """What one call for a whole writes as it comes."""
    return it.feed(stream) + it.finish()


def joined(events):
    """The events with texts and strings that were cut put together."""
    out = []
    for event in events:
        before = out[-1] if out else None
        if isinstance(event, Text) and isinstance(before, Text):
            out[-1] = Text((bytes(before) + bytes(event)).decode("utf-8", "surrogateescape"))
        elif isinstance(event, Malformed) and isinstance(before, Malformed):
            out[-1] = Malformed(before.data + event.data)
        elif isinstance(event, ControlString) and isinstance(before, ControlString) and not event.first:
            out[-1] = ControlString(event.kind, before.data + event.data, before.first, event.last)
        else:
            out.append(event)
    return out


def rows(name):
    """The rows of a table beside this file."""
    for line in (REPOSITORY / "python/tests" / name).read_text(encoding="utf-8").splitlines():
        if line and not line.startswith("#"):
            yield line.split("\t")


def spelled(text):
    """The bytes of a row, with \\e for ESC."""
    return text.replace("\\e", "\\x1b").encode().decode("unicode_escape").encode("latin-1")


class Codec(unittest.TestCase):
    def test_each_kind_there_and_back(self):
        table = (REPOSITORY / "rust/tests/kinds/table.rs").read_text(encoding="utf-8")
        examples = re.findall(r'"([^"\n]*)",\s*(true|false),?\s*\)', table)
        self.assertGreater(len(examples), 100)
        kinds = set()
        for text, is_read in examples:
            given = b"\x1b[" + text.encode()
            if is_read == "true":
                [action] = csicodec.events(given)
                self.assertEqual(bytes(action), given)
                self.assertTrue(action.is_canonical)
                self.assertEqual(eval(re.sub(r"<(\w+)[^:<>]*: (\d+)>", r"\1(\2)", repr(action)), {name: getattr(csicodec, name) for name in csicodec.__all__}), action)
                kinds.add(type(action).__qualname__)
        self.assertGreater(len(kinds), 100)

    def test_values_by_hand(self):
        names = {name: getattr(csicodec, name) for name in csicodec.__all__}
        for value, text, *mark in rows("values.tsv"):
            action, written = eval(value, names), spelled(text)
            self.assertEqual(csicodec.encode([action]), written, value)
            self.assertEqual(action.is_canonical, mark == ["reads back"], value)
            self.assertEqual(list(csicodec.events(written)) == [action], action.is_canonical, value)

    def test_events_by_hand(self):
        for dialect, limit, given, *wanted in rows("events.tsv"):
            data = spelled(given)
            for size in (1, 7, 64):
                parser = Parser(int(limit)) if dialect == "Output" else InputParser(csicodec.Dialect[dialect], int(limit))
                told = joined(event for at in range(0, len(data), size) for event in parser.feed(data[at : at + size]))
                paused = [] if dialect == "Output" else parser.pause()
                self.assertEqual([repr(it) for it in (told, paused, parser.finish())], wanted, (given, size))

    def test_limits(self):
        self.assertEqual(Parser(limit=4).feed(b"\x1b[12m\x1b[1m"), [Malformed(b"\x1b[12m"), Sgr.Intensity(csicodec.Intensity.Bold)])
        self.assertEqual([(it.kind.name, it.data) for it in csicodec.spans(b"\x1b$(Ca")], [("Other", b"\x1b$(C"), ("Text", b"a")])

    def test_matching(self):
        [action] = csicodec.events("\x1b[5;7H")
        self.assertIsInstance(action, CursorAction)
        self.assertEqual((action.line, action.col), (5, 7))
        self.assertEqual(csicodec.encode_compact([Sgr.Reset(), Sgr.Italic(True), Cursor.Up(1)]), b"\x1b[;3m\x1b[A")

    def test_refusals(self):
        with self.assertRaises(csicodec.CodecError) as caught:
            csicodec.normalise(b"\x1b[1m\x1b[9223372036854775808m")
        self.assertEqual((caught.exception.start, caught.exception.at, caught.exception.status), (4, 20, 3))
        with self.assertRaises(csicodec.CodecError):
            csicodec.encode([Unspecified([], "\ud800")])
        with self.assertRaisesRegex(ValueError, "colors must be None, 256 or 16, not 8"):
            csicodec.clean("a", colors=8)

    def test_a_wrong_field_is_named(self):
        for make, said in [
            (lambda: Sgr.Font(12), "Sgr.Font: number must be 0 to 9, not 12"),
            (lambda: Cursor.Up(1 << 70), "Cursor.Up: count must be 0 to 4294967295, not 1180591620717411303424"),
            (lambda: Cursor.Up("x"), "Cursor.Up: count must be int, not str"),
            (lambda: Cursor.Position(0, 1), "Cursor.Position: line must be 1 to 4294967295, not 0"),
            (lambda: PaletteColor(300), "PaletteColor: index must be 0 to 255, not 300"),
            (lambda: Sgr.Foreground(1), "Sgr.Foreground: color must be DefaultColor or PaletteColor or TrueColor, not int"),
            (lambda: Sgr.Underline("x"), "Sgr.Underline: value must be Underline, not 'x'"),
            (lambda: MouseReport.SGR1006(1, 2, MouseButton.Button1Press, 70000), "MouseReport.SGR1006: modifiers must be Modifiers, not 70000"),
            (lambda: Text(1), "Text: text must be str, not int"),
            (lambda: Unspecified([None], "z"), "Unspecified: params must be int, not NoneType"),
        ]:
            with self.assertRaises(FieldError) as caught:
                make()
            self.assertEqual(str(caught.exception), said)
            self.assertIsInstance(caught.exception, TypeError)

    def test_other_types_are_refused(self):
        for make in [csicodec.strip, csicodec.clean, csicodec.filter, csicodec.compact, csicodec.normalise, csicodec.events, csicodec.inputs]:
            for wrong in [1, None, [1], {}]:
                with self.assertRaisesRegex(TypeError, f"not {type(wrong).__name__}"):
                    make(wrong)
        for it in [Parser(), Cleaner(), Stripper(), Filter(), InputParser()]:
            with self.assertRaisesRegex(TypeError, "a str or bytes-like object is required, not int"):
                it.feed(3)
        with self.assertRaisesRegex(TypeError, "an action of csicodec is required, not int"):
            csicodec.encode([1])
        with self.assertRaisesRegex(TypeError, "an Unspecified is required, not Up"):
            csicodec.known(Cursor.Up(1))
        for make, said in [
            (lambda: csicodec.keys(1), "a str or bytes-like object is required, not int"),
            (lambda: csicodec.encode(Cursor.Up(1)), "an iterable of actions is required, not Up"),
            (lambda: csicodec.clean("a", links="no"), "links must be bool, not str"),
            (lambda: csicodec.html("a", overwrite=1), "overwrite must be bool, not int"),
            (lambda: csicodec.html("a", palette=5), "palette must be colours, not int"),
            (lambda: csicodec.compact("a", semicolons=None), "semicolons must be bool, not NoneType"),
            (lambda: csicodec.explain("a", only=5), "only must be names, not int"),
            (lambda: csicodec.OscReader().take("x"), "an event is required, not str"),
            (lambda: ControlString("XX", b""), "ControlString: kind must be OSC, DCS, SOS, PM or APC, not 'XX'"),
            *((lambda make=make: make(limit="x"), "limit must be int, not str") for make in (Parser, InputParser, csicodec.OscReader)),
        ]:
            with self.assertRaises(TypeError) as caught:
                make()
            self.assertEqual(str(caught.exception), said)
        with self.assertRaisesRegex(ValueError, "limit must be 1 or more, not 0"):
            Parser(limit=0)

    def test_an_action_is_of_its_group(self):
        self.assertIsInstance(Cursor.Up(1), Cursor)
        self.assertNotIsInstance(Cursor.Up(1), Sgr)
        self.assertIsInstance(Input.Escape(), Input)
        with self.assertRaisesRegex(TypeError, "Cursor has no instances of its own"):
            Cursor()

    def test_values_stay_as_they_are(self):
        with self.assertRaises(AttributeError):
            Cursor.Up(1).count = 2
        with self.assertRaises(AttributeError):
            Cursor.Up(1).other = 2
        self.assertEqual({Cursor.Up(1), Cursor.Up(1), Cursor.Down(1)}, {Cursor.Up(1), Cursor.Down(1)})
        self.assertEqual(Cursor.Position(1, 2).__replace__(col=3), Cursor.Position(1, 3))

    def test_copies(self):
        for value in [*csicodec.events(ODD), *csicodec.inputs(b"\x1bOP\x1b[M !!"), *csicodec.spans(ODD)]:
            self.assertEqual(pickle.loads(pickle.dumps(value)), value)
            self.assertEqual(copy.deepcopy(value), value)
        for error in [FieldError("a"), csicodec.CodecError("b")]:
            self.assertEqual(repr(pickle.loads(pickle.dumps(error))), repr(error))
        reader, event = csicodec.OscReader(), ControlString("OSC", b"2;a", last=False)
        reader.take(event)
        for other in [pickle.loads(pickle.dumps(reader)), copy.deepcopy(reader)]:
            self.assertEqual([said.first for said in other.take(ControlString("OSC", b"b", first=False))], [b"ab"])
        for it in [Parser(), InputParser(), csicodec.KeyParser(), Cleaner(), Stripper(), Filter(), Filter.compact(), csicodec.Overwriter(), csicodec.HtmlWriter()]:
            it.feed(b"a\x1b[1m\x1b]0;t\x1b[3")
            others = [pickle.loads(pickle.dumps(it)), copy.deepcopy(it), copy.copy(it)]
            wanted = (it.feed("1mé"), it.finish())
            for other in others:
                self.assertEqual((other.feed("1mé"), other.finish()), wanted)

    def test_with(self):
        for it in [Parser(), InputParser(), csicodec.KeyParser(), Cleaner(), Stripper(), Filter(), csicodec.Overwriter()]:
            with it:
                it.feed("\x1b[1")
            self.assertFalse(it.finish())

    def test_inputs(self):
        given = b"a\x1bOP\x1b[A\x1b[97;5u\x1b[[A\x1b[M !\"\x1bx\x1b]11;rgb:0/0/0\x07\x1b[3~\x1b[200~p\x1b[201~\x1b[7$\x1b"
        wanted = list(csicodec.inputs(given))
        for cut in range(len(given)):
            parser = InputParser()
            read = parser.feed(given[:cut]) + parser.feed(given[cut:]) + parser.finish()
            self.assertEqual(joined(read), joined(wanted), cut)
        self.assertEqual([it for it in wanted if isinstance(it, Input)], [Input.Ss3("P"), Input.Linux("A"), Input.Mouse(0, 1, 2), Input.Alt("x"), Input.Rxvt(7), Input.Escape()])
        self.assertIn(ControlString("OSC", b"11;rgb:0/0/0"), wanted)
        names = [csicodec.known(it).kind.name for it in wanted if isinstance(it, Unspecified)]
        self.assertEqual(names, ["KEY_CHARACTER", "KEY_DELETE", "PASTE_START", "PASTE_END"])
        [mouse] = csicodec.inputs("\x1b[M \u0121!", csicodec.Dialect.Utf8Input)
        self.assertEqual(mouse, Input.Mouse(0, 257, 1))

    def test_spans(self):
        for stream in [ODD, *STREAMS]:
            self.assertEqual(b"".join(span.data for span in csicodec.spans(stream)), stream)

    def test_plain_text_is_left_alone(self):
        for text in ["", "a", "a\n", "é€\n", "\xa0", "a\tb", "\n\n", "\x9b1m", "\x7f", "\u200b", "\ud800", "a\r\n"]:
            held = text.encode("utf-8", "surrogatepass")
            self.assertEqual(csicodec.strip(text).encode(), library.TextCall().written(held), text)
            self.assertEqual(csicodec.clean(text).encode(), library.TextCall(0, 0).written(held), text)

    def test_each_name_is_where_it_is_looked_for(self):
        for name in csicodec.__all__:
            self.assertIsNotNone(getattr(csicodec, name))
        for module in ["actions", "enums"]:
            self.assertLessEqual({*importlib.import_module(f"csicodec.{module}").__all__}, {*csicodec.__all__})
        ran = subprocess.run([sys.executable, "-c", "import csicodec, sys; csicodec.strip('a'); print('csicodec.actions' in sys.modules)"], capture_output=True)
        self.assertEqual(ran.stdout.strip(), b"False")

    def test_events_don_t_depend_on_cuts(self):
        for stream in [ODD, *(stream[:600] for stream in STREAMS)]:
            whole = joined(csicodec.events(stream))
            for cut in range(len(stream)):
                parser = Parser()
                self.assertEqual(joined(parser.feed(stream[:cut]) + parser.feed(stream[cut:]) + parser.finish()), whole, (stream, cut))

    def test_as_terminals(self):
        for stream, taken in [("0;1;98;31m", "0m 1m 98m 31m"), ("1;m", "1m 0m"), (";H", "1;1H"), ("10;20;H", "10;20H"), ("?1049!l", "?1049!l"), ("1;31m", "1m 31m")]:
            wanted = "".join(f"\x1b[{text}" for text in taken.split())
            self.assertEqual(csicodec.encode(csicodec.events(f"\x1b[{stream}", as_terminals=True)).decode(), wanted)
            parser = Parser(as_terminals=True)
            self.assertEqual(csicodec.encode([action for character in f"\x1b[{stream}" for action in parser.feed(character)]).decode(), wanted)
        self.assertEqual(len(list(csicodec.events("\x1b[0;98;31m"))), 2)
        with self.assertRaisesRegex(TypeError, "as_terminals must be bool, not int"):
            Parser(as_terminals=1)

    def test_many_actions_and_tokens(self):
        long = b"\x1b[" + b";".join(b"%d" % (i % 8 + 30) for i in range(5000)) + b"m"
        self.assertEqual(len(list(csicodec.events(long * 3))), 15000)
        [unknown] = csicodec.events(b"\x1b[" + b"1;" * 3000 + b"~")
        self.assertIsInstance(unknown, Unspecified)
        self.assertEqual(len(unknown.params), 6000)
        self.assertEqual(list(csicodec.events(b"\x1b%@")), [UnknownEsc("%", "@")])

    def test_bytes_are_kept(self):
        for text in csicodec.events(b"\xff\xc3a"):
            self.assertEqual(bytes(text), b"\xff\xc3a")

    def test_text_as_it_comes(self):
        for stream in [ODD, *(stream[:600] for stream in STREAMS)]:
            for cut in range(len(stream)):
                for wanted, it in [
                    (csicodec.strip(stream), Stripper()),
                    (csicodec.clean(stream), Cleaner()),
                    (csicodec.clean(stream, colors=16), Cleaner(colors=16)),
                    (csicodec.filter(stream), Filter()),
                    (in_one(Filter.compact(), stream), Filter.compact()),
                ]:
                    self.assertEqual(it.feed(stream[:cut]) + it.feed(stream[cut:]) + it.finish(), wanted, (stream, cut))

    def test_the_argument_of_old(self):
        for styles, wanted in [(False, b"red"), (True, b"\x1b[31mred\x1b[0m")]:
            with self.assertWarnsRegex(DeprecationWarning, "Stripper is for styles=False"):
                it = Cleaner(styles=styles, colors=16)
            self.assertEqual(it.feed("\x1b[31mred") + it.finish(), wanted)
        with self.assertRaisesRegex(TypeError, "styles must be bool, not int"), self.assertWarns(DeprecationWarning):
            Cleaner(styles=1)
        with self.assertRaisesRegex(ValueError, "colors must be None, 256 or 16, not 3"):
            Cleaner(colors=3)

    def test_strings_and_bytes(self):
        self.assertEqual(csicodec.strip("é\x1b[1m€"), "é€")
        self.assertEqual(csicodec.strip(b"\xff"), b"\xef\xbf\xbd")
        self.assertEqual(csicodec.strip(""), "")
        for made in csicodec.strip, csicodec.clean, csicodec.overwrite:
            self.assertEqual(made("\x1b(0lqk\x1b(Bq"), "┌─┐q")
        self.assertEqual(csicodec.clean("\x1b]8;;http://a.b\x1b\\x\x1b]8;;\x1b\\", links=True), "\x1b]8;;http://a.b\x1b\\x\x1b]8;;\x1b\\")

    def test_text_that_grows(self):
        for size in [1, 5000, 6000, 200000]:
            self.assertEqual(csicodec.strip(b"\xff" * size), b"\xef\xbf\xbd" * size)
            self.assertEqual(csicodec.strip("\x1b(0" + "q" * size), "─" * size)
            self.assertEqual(csicodec.clean(b"\x1b[1m\xff" * size).count(b"\xef\xbf\xbd"), size)

    def test_what_the_program_writes(self):
        for stream in [ODD, *STREAMS]:
            for words, made in [
                ("compact", csicodec.compact(stream)),
                ("compact --semicolons", csicodec.compact(stream, semicolons=True)),
                ("strip --overwrite", csicodec.overwrite(stream)),
                ("html", csicodec.html(stream)),
                ("html --classes --fragment", csicodec.html(stream, classes=True, fragment=True)),
                ("html --links", csicodec.html(stream, links=True)),
                ("strip", csicodec.strip(stream)),
                ("clean --links", csicodec.clean(stream, links=True)),
                ("clean --colors=256", csicodec.clean(stream, colors=256)),
                ("clean --colors=16", csicodec.clean(stream, colors=16)),
                ("html --no-overwrite --palette=" + ",".join(PALETTE), csicodec.html(stream, overwrite=False, palette=PALETTE)),
            ]:
                ran = subprocess.run([csicodec.program.path(), *words.split()], input=stream, stdout=subprocess.PIPE, check=True)
                self.assertEqual(made, ran.stdout, words)
        for palette in [["#000000"], ["red"] * 16, [1] * 16]:
            with self.assertRaises(ValueError):
                csicodec.html("a", palette=palette)

    def test_lines_as_they_come(self):
        for stream in [ODD, *STREAMS]:
            for whole, it in [
                (csicodec.html(stream), csicodec.HtmlWriter()),
                (csicodec.html(stream, fragment=True, classes=True), csicodec.HtmlWriter(fragment=True, classes=True)),
                (csicodec.html(stream, palette=PALETTE), csicodec.HtmlWriter(palette=PALETTE)),
                (csicodec.overwrite(stream), csicodec.Overwriter()),
                (csicodec.overwrite(stream, styles=True), csicodec.Overwriter(styles=True)),
            ]:
                self.assertEqual(b"".join(it.feed(stream[at : at + 7]) for at in range(0, len(stream), 7)) + it.finish(), whole)
        bits = ["a", "é", "\n", "\n", "\r", "\x1b[1m", "\x1b[38;5;200;4m", "\x1b[m", "\x1b[8m", "\x1bc", "\x1bkt", "\x1b\\", "\x1b]0;t\n", "\a", "\x1b[3\n1m", "\x1b[K"]
        bits += ["\x1b[2C", "\x1bM", "\x1b7", "\x1b8", "\x1b[", "\x1bP\n", "\t", "\x18", "\x0e", "\x0f", "\x1b(0", "\x1b(B", "\x1b)0", "\x1b)A", "\x1b[!p", "q", "\x1b[5;7H", "\x1b[2"]
        drawn = random.Random(1)
        for _ in range(2000):
            stream, size = "".join(drawn.choices(bits, k=drawn.randrange(3, 28))).encode(), drawn.randrange(1, 9)
            for whole, it in [(csicodec.html(stream, fragment=True), csicodec.HtmlWriter(fragment=True)), (csicodec.overwrite(stream, styles=True), csicodec.Overwriter(styles=True))]:
                self.assertEqual(b"".join(it.feed(stream[at : at + size]) for at in range(0, len(stream), size)) + it.finish(), whole, (stream, size))

    def test_keys(self):
        string = b"\x1b]11;rgb:0/1\x1b\\b\x1bP1$r0m\x18c\x1b_a\x1b[A"
        whole = [b"\x1b]11;rgb:0/1\x1b\\", "b", b"\x1bP1$r0m", "x", "c", b"\x1b_a", "Up"]
        for cut in range(len(string)):
            parser, told = csicodec.KeyParser(), []
            for it in parser.feed(string[:cut]) + parser.feed(string[cut:]) + parser.finish():
                if isinstance(it, bytes) and told and isinstance(told[-1], bytes) and not it.startswith(b"\x1b]"):
                    it = told.pop() + it
                told.append(it if isinstance(it, bytes) else it.value or it.code.name)
            self.assertEqual(told, whole, cut)
        held = b"a\x1bOP\x1b[1;5A\x1b[57399u\xc3\xa9\x1b[5;7R\x1b[<0;1;2M\x1b[200~\x1b"
        names = [it if isinstance(it, bytes) else it.code.name + it.value for it in csicodec.keys(held)]
        self.assertEqual(names, ["Chara", "F1", "Up", "Keypad0", "Charé", b"\x1b[5;7R", b"\x1b[<0;1;2M", b"\x1b[200~", "Escape"])
        for cut in range(len(held)):
            parser = csicodec.KeyParser()
            self.assertEqual(parser.feed(held[:cut]) + parser.feed(held[cut:]) + parser.finish(), list(csicodec.keys(held)), cut)
        within = [it if isinstance(it, bytes) else it.value for it in csicodec.keys(b"\x1b[3\n~\x1b[\x01")]
        self.assertEqual(within, [b"\x1b[3\n", "~", b"\x1b[\x01"])

    def test_long_texts_in_pieces(self):
        """Python sees a signal between two calls of C, so none of these has more than a megabyte."""
        given = b"\x1b[1mbold \xc3\xa9\x1b[m \x1b(0q\x1b(B\n" * 150_000
        for name, step in (("strip", "strip_step"), ("filter", "filter_step")):
            whole, call = getattr(csicodec, name), getattr(library, step)
            spellings = {**text_module._SPELLINGS, "filter": mock.Mock(side_effect=call)}
            with mock.patch.object(library, step, mock.Mock(side_effect=call)) as stepped, mock.patch.object(text_module, "_SPELLINGS", spellings):
                out = whole(given)
                self.assertEqual(whole(given.decode()).encode(), out)
            calls = (stepped if name == "strip" else spellings["filter"]).call_args_list
            self.assertGreater(len(calls), 2 * len(given) >> 20)
            self.assertLess(max(len(held) for held, in ([it for it in call.args if isinstance(it, bytes)] for call in calls)), (1 << 20) + library.LIMIT)
        self.assertEqual(csicodec.strip(given), "bold é ─\n".encode() * 150_000)

    def test_threads(self):
        """The calls may be made from any threads at once."""
        given = "\x1b[1mbold\x1b[m \x1b[31mred"
        wanted = (csicodec.strip(given), csicodec.clean(given), csicodec.filter(given), csicodec.overwrite(given))
        wrong, often = [], sys.getswitchinterval()

        def calls():
            try:
                for _ in range(2000):
                    if (csicodec.strip(given), csicodec.clean(given), csicodec.filter(given), csicodec.overwrite(given)) != wanted:
                        raise ValueError("another text")
            except Exception as error:
                wrong.append(error)

        threads = [threading.Thread(target=calls) for _ in range(8)]
        sys.setswitchinterval(1e-6)
        try:
            for it in threads:
                it.start()
            for it in threads:
                it.join()
        finally:
            sys.setswitchinterval(often)
        self.assertEqual(wrong, [])

    def test_program(self):
        spans = csicodec.explain("\x1b[1mbold", only=["SGR"])
        self.assertEqual([span["at"] for span in spans], [0])
        self.assertEqual(csicodec.explain("plain", unknown=True), [])
        with self.assertRaisesRegex(ValueError, "Nope"):
            csicodec.explain("a", only=["Nope"])

    def test_version(self):
        major, minor, patch = map(int, csicodec.__version__.split("."))
        self.assertEqual(library.version(), major * 10000 + minor * 100 + patch)


def load_tests(loader, tests, pattern):
    for name in ("csicodec", "csicodec.actions", "csicodec.encoding", "csicodec.input", "csicodec.key", "csicodec.lines", "csicodec.parser", "csicodec.program", "csicodec.sequences", "csicodec.span", "csicodec.strings", "csicodec.text"):
        tests.addTests(doctest.DocTestSuite(importlib.import_module(name), extraglobs={"events": csicodec.events}))
    return tests


if __name__ == "__main__":
    unittest.main()
