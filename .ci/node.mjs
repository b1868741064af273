// node .ci/node.mjs FOLDER PROGRAM KINDS FILE ..: the package for node in FOLDER writes of each file what the native program writes, whole and
// as a stream; reads and writes each example of KINDS (rust/tests/kinds/table.rs); and refuses what is of another type.
import { spawnSync } from 'node:child_process';
import { readFileSync } from 'node:fs';
import { createRequire } from 'node:module';
import { pathToFileURL } from 'node:url';

const [folder, program, kinds, ...files] = process.argv.slice(2);
const { Codec, CodecError, InputParser, KeyModifiers, KeyParser, OscReader, Parser, recorded } = await import(pathToFileURL(createRequire(`${folder}/it.js`).resolve('csicodec')));
const codec = await Codec.load();
const native = (words, input) => {
    const { status, stdout, stderr } = spawnSync(program, words, { input, maxBuffer: 1 << 30 });
    if (status > 1 || stderr.length) throw new Error(`${words.join(' ')}: ${stderr}`);
    return stdout;
};
const same = (one, other) => Buffer.compare(Buffer.from(one), Buffer.from(other)) === 0;
const wrong = what => { console.error(`node: ${what}`); process.exit(1); };

const PALETTE = Array.from({ length: 18 }, (_, i) => `#${String(i).padStart(2, '0')}7fff`);

// The modifiers by their bits, as kitty's keyboard protocol has them, each as it comes behind a letter.
const MODIFIERS = { SHIFT: 1, ALT: 2, CTRL: 4, SUPER: 8, HYPER: 16, META: 32, CAPS_LOCK: 64, NUM_LOCK: 128 };
if (JSON.stringify(KeyModifiers) !== JSON.stringify(MODIFIERS)) wrong(`KeyModifiers is ${JSON.stringify(KeyModifiers)}`);
for (const [name, bit] of Object.entries(MODIFIERS)) {
    const [key] = new KeyParser(codec).feed(`\x1b[97;${bit + 1}u`);
    if (key?.modifiers !== bit) wrong(`KeyModifiers.${name}: a key with it is ${JSON.stringify(key)}`);
}

/** What a TransformStream makes of some bytes, which come in pieces. Each is written over once it was taken, as where a file is read through one Buffer. */
async function through(stream, data, size) {
    const writer = stream.writable.getWriter(), parts = [];
    const sent = (async () => {
        for (let at = 0; at < data.length; at += size) {
            const piece = Buffer.from(data.subarray(at, at + size));
            await writer.write(piece);
            piece.fill('x');
        }
        await writer.close();
    })();
    for await (const part of stream.readable) parts.push(part);
    await sent;
    return Buffer.concat(parts);
}

/** The events with texts, strings and malformed bytes that were cut put together. */
function joined(events) {
    const out = [];
    for (const { bytes, text, ...event } of events) {
        const before = out.at(-1);
        if (bytes && before?.hex !== undefined && before.type === event.type && !event.first) Object.assign(before, { hex: before.hex + Buffer.from(bytes).toString('hex'), last: event.last });
        else out.push(bytes ? { ...event, hex: Buffer.from(bytes).toString('hex') } : event);
    }
    return out;
}

for (const file of files) {
    const bytes = readFileSync(file), isCast = file.endsWith('.cast');
    for (const words of [[], ['--unknown'], ['--only=SGR,CUP'], ['--decode']]) {
        const lines = [];
        const options = { name: file, unknown: words[0] === '--unknown', decode: words[0] === '--decode', only: words[0]?.startsWith('--only') ? 'SGR,CUP' : undefined };
        codec.explainEach(bytes, options, some => lines.push(...some));
        const wanted = native(['explain', '--json', ...words, file]).toString();
        if (lines.map(line => `${line}\n`).join('') !== wanted) wrong(`explain --json ${words} of ${file} is another`);
    }
    const data = isCast ? recorded(bytes) : bytes;
    for (const [name, words, made] of [
        ['strip', ['strip'], codec.strip(data)],
        ['clean', ['clean'], codec.clean(data)],
        ['clean with links in 16 colours', ['clean', '--links', '--colors=16'], codec.clean(data, { colors: 16, links: true })],
        ['filter', ['filter'], codec.filter(data)],
        ['compact', ['compact'], codec.compact(data)],
        ['compact with semicolons', ['compact', '--semicolons'], codec.compact(data, { semicolons: true })],
        ['overwritten lines', ['strip', '--overwrite'], codec.overwrite(data)],
        ['html', ['html'], codec.html(data)],
        ['html with classes, a fragment', ['html', '--classes', '--fragment'], codec.html(data, { classes: true, fragment: true })],
        ['html with links', ['html', '--links'], codec.html(data, { links: true })],
        ['html with a palette', ['html', '--no-overwrite', `--palette=${PALETTE}`], codec.html(data, { overwrite: false, palette: PALETTE })],
    ]) {
        if (!same(made, native(words, data))) wrong(`${name} of ${file} is another`);
    }
    for (const [name, whole, stream] of [
        ['strip', codec.strip(data), codec.stripStream()],
        ['clean in 256 colours', codec.clean(data, { colors: 256 }), codec.cleanStream({ colors: 256 })],
        ['filter', codec.filter(data), codec.filterStream()],
        ['compact', await through(codec.compactStream(), data, data.length + 1), codec.compactStream()],
        ['html', codec.html(data), codec.htmlStream()],
        ['html with classes, a fragment', codec.html(data, { classes: true, fragment: true }), codec.htmlStream({ classes: true, fragment: true })],
        ['html with a palette', codec.html(data, { palette: PALETTE }), codec.htmlStream({ palette: PALETTE })],
        ['overwritten lines', codec.overwrite(data), codec.overwriteStream()],
        ['painted lines', codec.overwrite(data, { styles: true }), codec.overwriteStream({ styles: true })],
    ]) {
        if (!same(await through(stream, data, 7), whole)) wrong(`${name} of ${file} as it comes is another`);
    }
    const spans = codec.spans(data);
    if (!same(Buffer.concat(spans.map(span => span.bytes)), data)) wrong(`the spans of ${file} aren't its bytes`);
    for (const { bytes } of spans.filter(span => span.kind === 'csi')) {
        if (!same(codec.encode(codec.events(bytes)), codec.normalise(bytes))) wrong(`the actions of ${bytes} are others`);
    }
    const whole = joined(codec.events(data)), parser = new Parser(codec), pieces = [];
    for (let at = 0; at < data.length; at += 5) pieces.push(...parser.feed(data.subarray(at, at + 5)));
    if (JSON.stringify(joined([...pieces, ...parser.finish()])) !== JSON.stringify(whole)) wrong(`the events of ${file} as it comes are others`);
    const short = await through(codec.compactStream({ semicolons: true }), data, data.length + 1);
    if (!same(codec.filter(short), codec.filter(data))) wrong(`compact of ${file} as it comes does something else`);
}
const taken = { asTerminals: true }, many = '98;'.repeat(100);
for (const [given, text] of [['0;1;98;31m', '0m 1m 98m 31m'], ['1;m', '1m 0m'], [';H', '1;1H'], ['?1049!l', '?1049!l'], [`${many}1m`, `${many.replaceAll(';', 'm ')}1m`]]) {
    const wanted = text.split(' ').map(it => `\x1b[${it}`).join(''), actions = [...codec.events(`\x1b[${given}`, taken)];
    if (Buffer.from(codec.encode(actions)).toString() !== wanted) wrong(`terminals take ${given} for ${actions.length} other actions`);
}
if ([...codec.events('\x1b[0;98;31m')].length !== 2) wrong('98 and what follows are one action');
const BOX = '\x1b(0lqqqqqqqk\x1b(Bq'; // in ASCII, and drawn as other characters
for (const shown of [codec.strip(BOX), codec.clean(BOX), codec.overwrite(BOX), codec.html(BOX, { fragment: true }), codec.html(BOX, { fragment: true, overwrite: false })]) {
    if (shown !== '┌───────┐q') wrong(`a line that is drawn is ${shown}`);
}
if (codec.strip('\x1b[1mé') !== 'é' || codec.normalise('\x1b[01;3m') !== '\x1b[1m\x1b[3m') wrong('strings');
try {
    codec.normalise('\x1b[1mx');
    wrong('nothing was refused');
} catch (error) {
    if (!(error instanceof CodecError) || error.start !== 4) wrong(String(error));
}

// Lines as they come are those of the whole: short streams at random of what lines are made of, in pieces of each length.
const BITS = ['a', 'é', '\n', '\n', '\r', '\x1b[1m', '\x1b[38;5;200;4m', '\x1b[m', '\x1b[8m', '\x1bc', '\x1bkt', '\x1b\\', '\x1b]0;t\n', '\x07', '\x1b[3\n1m', '\x1b[K', '\x1b[2C', '\x1bM', '\x1b7', '\x1b8', '\x1b[', '\x1bP\n', '\t', '\x18', '\x1b]8;;http://a.b\x07', '\x0e', '\x0f', '\x1b(0', '\x1b)0', '\x1b(B', 'q'];
let seed = 1;
const drawn = below => { seed = (seed * 48271) % 0x7fffffff; return seed % below; };
for (let i = 0; i < 3000; i++) {
    const data = Buffer.from(Array.from({ length: 3 + drawn(25) }, () => BITS[drawn(BITS.length)]).join('')), size = 1 + drawn(9);
    if (!same(await through(codec.htmlStream({ fragment: true }), data, size), codec.html(data, { fragment: true }))) wrong(`html of ${JSON.stringify(data.toString())} in pieces of ${size} is another`);
    if (!same(await through(codec.overwriteStream({ styles: true }), data, size), codec.overwrite(data, { styles: true }))) wrong(`lines of ${JSON.stringify(data.toString())} in pieces of ${size} are others`);
}

// A long text, of which what is plain goes by, is what its bytes are: with what stays open, pairs of surrogates and halves of one, and the seams of
// pieces anywhere.
const LONG = [...BITS, '\u{1f600}', '\u{1f600}', '\ud800', '\udc00'];
for (let i = 0; i < 200; i++) {
    const runs = ['', 'plain\t', 'x'.repeat(65536 - drawn(8)), '─é'.repeat(drawn(9000))];
    const text = 'x'.repeat(65536) + Array.from({ length: 9 }, () => LONG[drawn(LONG.length)] + LONG[drawn(LONG.length)] + runs[drawn(4)]).join('');
    for (const call of [it => codec.strip(it), it => codec.clean(it), it => codec.filter(it)]) {
        if (!same(call(text), call(Buffer.from(text)))) wrong(`${call} of the long text ${i} is another than that of its bytes`);
    }
}

const seam = `\x1b[1m${'x'.repeat(65531)}\ud800\u{1f600}`;
if (codec.strip(seam) !== `${'x'.repeat(65531)}\ufffd\u{1f600}`) wrong('a pair behind half of one at a seam is parted');

const types = new Set();
for (const [, text, isRead] of readFileSync(kinds, 'utf8').matchAll(/"([^"\n]*)",\s*(true|false),?\s*\)/g)) {
    if (isRead !== 'true') continue;
    const [action, ...more] = codec.events(`\x1b[${text}`);
    if (more.length || Buffer.from(codec.encode([action])).toString() !== `\x1b[${text}`) wrong(`${text} is read or written otherwise`);
    types.add(action.type);
}
if (types.size < 100) wrong(`${types.size} types of actions were tried`);
if (Buffer.from(codec.encodeCompact([{ type: 'Sgr.Reset' }, { type: 'Sgr.Italic', value: true }])).toString() !== '\x1b[;3m') wrong('encodeCompact');

const keys = new InputParser(codec), read = [...keys.feed('a\x1bOP\x1b[3~\x1b[M !"\x1b'), ...keys.pause()];
const named = read.map(event => event.type === 'Unspecified' ? codec.known(event).kind : event.type).join();
if (named !== 'Text,Input.Ss3,KEY_DELETE,Input.Mouse,Input.Escape') wrong(`keys are read as ${named}`);
if (keys.pause().length || keys.finish().length) wrong('something is left behind a pause');
const strokes = new KeyParser(codec), typed = ['\x1b]11;rgb:', '0/1\x1b', '\\b'].flatMap(piece => strokes.feed(piece)).filter(it => !(it instanceof Uint8Array));
if (typed.map(key => key.character).join() !== 'b') wrong(`of an answer in pieces ${typed.length} keys are told`);

for (const [said, call] of [
    ['not number', () => codec.strip(5)],
    ['not null', () => codec.explain(null)],
    ['not Array', () => codec.events([1])],
    ['not number', () => codec.inputs(1)],
    ['not undefined', () => codec.keys()],
    ['not null', () => codec.spans(null)],
    ['not number', () => codec.osc(2)],
    ['not Promise', () => codec.html(Promise.resolve(''))],
    ['no option color,', () => codec.clean('x', { color: 256 })],
    ["'all', 256 or 16, not 8", () => codec.clean('x', { colors: 8 })],
    ['await Codec.load()', () => new Codec()],
    ['made of a Codec', () => new Parser()],
    ['Cursor.Up: count must be a whole number, not x', () => codec.encode([{ type: 'Cursor.Up', count: 'x' }])],
    ['Unspecified: params must be of numbers of 64 bits and characters', () => codec.encode([{ type: 'Unspecified', params: [2n ** 64n + 5n], control: 'm' }])],
    ['Sgr.Underline: value must be a name of Underline', () => codec.encode([{ type: 'Sgr.Underline', value: 'Odd' }])],
    ['16 or 18 colours', () => codec.html('a', { palette: ['#000000'] })],
    ["as '#rrggbb', not red", () => codec.html('a', { palette: Array(16).fill('red') })],
    ['links must be boolean, not number', () => codec.html('a', { links: 1 })],
    ['made of a Codec', () => new KeyParser()],
    ["an action of type 'Unspecified' is required, not Sgr.Reset", () => codec.known({ type: 'Sgr.Reset' })],
    ["an action of type 'Unspecified' is required, not null", () => codec.known(null)],
    ['an array of actions, or another iterable, is required, not Object', () => codec.encode({ type: 'Sgr.Reset' })],
    ['an action with a type is required, not null', () => codec.encode([null])],
    ['an action with a type is required, not Sgr.Odd', () => codec.encodeCompact([{ type: 'Sgr.Odd' }])],
    ['limit must be 1 or more, not 0', () => new Parser(codec, { limit: 0 })],
    ['limit must be 1 or more, not x', () => new OscReader(codec, { limit: 'x' })],
    ["dialect must be 'input' or 'utf8', not latin", () => codec.inputs('a', { dialect: 'latin' })],
    ['an event is required, not string', () => new OscReader(codec).take('x')],
    ['the option name must be a string, not number', () => codec.explain('a', { name: 5 })],
    ['must be a function, not undefined', () => codec.explainEach('a', {})],
    ['no option links,', () => codec.htmlStream({ links: true })],
    ['no option semicolon,', () => codec.compactStream({ semicolon: true })],
    ['styles must be boolean, not string', () => codec.overwrite('a', { styles: 'all' })],
    ['the options must be an object, not null', () => codec.clean('a', null)],
]) {
    try { call(); } catch (error) { if (error instanceof TypeError && error.message.includes(said)) continue; wrong(`${call} throws ${error}`); }
    wrong(`${call} is taken`);
}

// A chunk of another type fails its stream, and each piece that comes out has at most a few times 64 KB.
const broken = codec.stripStream(), sink = broken.writable.getWriter();
for (const { reason } of await Promise.allSettled([sink.write(5), sink.closed, broken.readable.getReader().read()])) {
    if (!(reason instanceof TypeError && reason.message.includes('not number'))) wrong(`a number in a stream: ${reason}`);
}
for (const stream of [codec.stripStream(), codec.cleanStream(), codec.filterStream(), codec.compactStream()]) {
    const writer = stream.writable.getWriter();
    writer.write(new Uint8Array(1 << 20).fill(97)).then(() => writer.close());
    for await (const part of stream.readable) if (part.length > 1 << 17) wrong(`a piece of ${part.length} bytes`);
}

// Memory stays bounded: 64 MB through strip, and explain a thousand times.
const before = process.memoryUsage().arrayBuffers;
const large = new Uint8Array(1 << 24).fill(97);
for (let i = 0; i < 4; i++) codec.strip(large);
for (let i = 0; i < 1000; i++) codec.explain('\x1b[5;7H');
if (codec.strip('\x1b[1mx') !== 'x' || process.memoryUsage().arrayBuffers - before > 1 << 28) wrong('memory grows');
