// What the package for JavaScript has, each row tried: a row's name is said behind it.
import assert from 'node:assert';
import { Codec, InputParser, KeyModifiers, KeyParser, OscReader, Parser } from 'csicodec';

const codec = await Codec.load(), parser = new Parser(codec), keys = new InputParser(codec), presses = new KeyParser(codec), said = new OscReader(codec), decoder = new TextDecoder();
const says = (row, isSo) => { assert(isSo, row); console.log(row); };
const types = all => [...all].map(it => it.type).join();
const through = async (stream, text) => decoder.decode(await new Response(new Response(text).body.pipeThrough(stream)).arrayBuffer());

says('events', types(codec.events('a\x1b[5;7H')) === 'Text,Cursor.Position');
says('parser', types([...parser.feed('\x1b[5'), ...parser.feed(';7H\x1b['), ...parser.finish()]) === 'Cursor.Position,Malformed');
says('input', types(codec.inputs('\x1bOP')) === 'Input.Ss3' && !keys.feed('\x1b').length && types(keys.pause()) === 'Input.Escape');
const [pressed] = codec.keys('\x1b[97;5u');
says('keys', pressed.code === 'Char' && pressed.character === 'a' && pressed.modifiers === KeyModifiers.CTRL && !presses.feed('\x1b').length && presses.pause()[0].code === 'Escape' && [...codec.keys('\x1b[\nA')].length === 2
    && [...codec.keys('\x1bPa\x1bP')].map(it => it.length).join() === '3,2');
const [told] = [...parser.feed('\x1b]2;a ti'), ...parser.feed('tle\x07')].map(it => said.take(it)).filter(Boolean);
says('osc', told.kind === 'TitleWindow' && decoder.decode(told.first) === 'a title' && decoder.decode(codec.osc('8;;http://a.example').second) === 'http://a.example');
says('html', codec.html('1\r\x1b[1m<', { fragment: true }) === '<span style="font-weight:bold;">&lt;</span>' && codec.overwrite('1\r2') === '2');
says('lines', await through(codec.htmlStream({ fragment: true }), '1\r\x1b[1m<\n&') === '<span style="font-weight:bold;">&lt;</span>\n<span style="font-weight:bold;">&amp;</span>'
    && await through(codec.overwriteStream(), '1\r2\n3') === '2\n3');
says('known', [...codec.events('\x1b[?2K')].map(it => codec.known(it).kind).join() === 'DECSEL');
says('spans', codec.spans('a\x1b[m').map(it => it.kind).join() === 'text,csi');
says('whole', ['strip', 'clean', 'filter', 'compact'].map(it => codec[it]('\x1b[01m\x1b[3ma')).join() === 'a,\x1b[1m\x1b[3ma\x1b[0m,\x1b[1m\x1b[3ma,\x1b[1;3ma');
says('stream', await through(codec.stripStream(), '\x1b[01ma') === 'a' && await through(codec.filterStream(), '\x1b[01ma') === '\x1b[1ma');
says('encode', decoder.decode(codec.encode([{ type: 'Sgr.Italic', value: true }, { type: 'Cursor.Up', count: 2 }])) === '\x1b[3m\x1b[2A');
says('explain', codec.explain('\x1b[5;7H')[0].actions[0].words === 'cursor to line 5, column 7');
