// csicodec in JavaScript, over two modules of WebAssembly: the library's calls over text, and the program explain. It runs in browsers and in
// node. The package's index.mjs adds events, input, spans and actions.
//
//     import { Codec } from './csicodec.mjs';
//     const codec = await Codec.load();
//     codec.strip('\x1b[1mbold\x1b[0m');                         // 'bold'
//     for (const span of codec.explain('\x1b[5;7H')) console.log(span.actions[0].words);

const encoder = new TextEncoder(), decoder = new TextDecoder('utf-8', { ignoreBOM: true });

/** The statuses of the library, with their numbers. */
const STATUS = ['ok', 'not a sequence', 'bad byte', 'number too large', 'truncated', 'out of memory', 'no action', 'bad state'];

/** The most bytes that a control sequence may have, and how many of a stream are passed at a time. */
const LIMIT = 65536n, PIECE = 65536;

/** What strip and clean leave as it is, without pairs of surrogates, which they leave too. */
const PLAIN = /[\t\n -~\xa0-\ud7ff\ue000-\uffff]*/y;

/** Where that ends in a text, from a place on. */
function plainEnd(text, at = 0) {
    PLAIN.lastIndex = at;
    PLAIN.test(text);
    return PLAIN.lastIndex;
}

/** What designates a graphic set (SCS): behind it characters of ASCII may become others. */
const DESIGNATES = /\x1b[()]/;

/** Why bytes were refused, or that memory ran out. */
export class CodecError extends Error {
    constructor(message, { status, start, at } = {}) {
        super(message);
        this.name = 'CodecError';
        Object.assign(this, { status, start, at });
    }
}

/** The name of a value's type. */
export const typeName = value => value === null ? 'null' : typeof value === 'object' ? value.constructor?.name ?? 'object' : typeof value;

/** The bytes of an input; a string is taken as UTF-8. */
export function bytesOf(input) {
    if (typeof input === 'string') return encoder.encode(input);
    // The `slice` of a node Buffer, which is a Uint8Array too, is no copy.
    if (input instanceof Uint8Array && input.constructor === Uint8Array) return input;
    if (ArrayBuffer.isView(input)) return new Uint8Array(input.buffer, input.byteOffset, input.byteLength);
    if (input instanceof ArrayBuffer || /^\[object (Shared)?ArrayBuffer\]$/.test(Object.prototype.toString.call(input))) return new Uint8Array(input);
    throw new TypeError(`the input must be a string, an ArrayBuffer or a view of one, not ${typeName(input)}`);
}

/** The options of a call, where each is one of these, of the type that it has there. */
export function optionsOf(given, defaults) {
    if (given === undefined) return defaults;
    if (given === null || typeof given !== 'object') throw new TypeError(`the options must be an object, not ${typeName(given)}`);
    for (const [name, value] of Object.entries(given)) {
        if (!(name in defaults)) throw new TypeError(`there is no option ${name}, but ${Object.keys(defaults).join(', ')}`);
        if (typeof defaults[name] === 'boolean' && value !== undefined && typeof value !== 'boolean') throw new TypeError(`the option ${name} must be boolean, not ${typeName(value)}`);
    }
    return { ...defaults, ...Object.fromEntries(Object.entries(given).filter(([, value]) => value !== undefined)) };
}

/** The number of a colour as '#rrggbb'. */
function numberOf(color) {
    if (!/^#[0-9a-f]{6}$/i.test(color)) throw new TypeError(`a colour of the option palette must be as '#rrggbb', not ${String(color)}`);
    return parseInt(color.slice(1), 16);
}

/** The number of a depth of colours. */
function depthOf(colors) {
    const depth = { all: 0, 256: 1, 16: 2 }[colors];
    if (depth === undefined) throw new TypeError(`the option colors must be 'all', 256 or 16, not ${String(colors)}`);
    return depth;
}

export const joined = parts => {
    if (parts.length === 1) return parts[0];
    const all = new Uint8Array(parts.reduce((sum, part) => sum + part.length, 0));
    let at = 0;
    for (const part of parts) { all.set(part, at); at += part.length; }
    return all;
};

/** The text of bytes from here to there; a few of ASCII are taken without a decoder. */
export function textOf(bytes, from = 0, to = bytes.length) {
    if (to - from > 16) return decoder.decode(bytes.subarray(from, to));
    let text = '', i = from;
    for (; i + 4 <= to; i += 4) {
        const a = bytes[i], b = bytes[i + 1], c = bytes[i + 2], d = bytes[i + 3];
        if ((a | b | c | d) > 127) return decoder.decode(bytes.subarray(from, to));
        text += String.fromCharCode(a, b, c, d);
    }
    for (; i < to; i++) {
        if (bytes[i] > 127) return decoder.decode(bytes.subarray(from, to));
        text += String.fromCharCode(bytes[i]);
    }
    return text;
}

/** A module of bytes, of a URL, or as it is. */
async function compiled(source) {
    if (source instanceof WebAssembly.Module) return source;
    if (source instanceof URL && source.protocol === 'file:') source = await (await import('node:fs/promises')).readFile(source);
    if (source instanceof URL || typeof source === 'string') {
        const answer = await fetch(source);
        if (!answer.ok) throw new CodecError(`${source}: ${answer.status} ${answer.statusText}`);
        source = await answer.arrayBuffer();
    }
    return WebAssembly.compile(source);
}

const refusal = status => new CodecError(STATUS[status] ?? `status ${status}`, { status });

/** An instance of the library, with room that its calls share, since each is over before the next one begins. */
class Library {
    constructor(module) {
        this.calls = new WebAssembly.Instance(module, {}).exports;
        this.answer = this.room(64);
        this.answerAt = Number(this.answer);
        this.state = this.room(16);
        this.input = this.output = { at: 0n, place: 0, size: 0, length: 0n };
    }

    room(size) {
        const place = this.calls.csicodec_room(BigInt(size));
        if (!place) throw new CodecError('out of memory');
        return place;
    }

    /** Room of at least so many bytes. */
    grown(room, size) {
        if (room.size >= size) return room;
        if (room.at) this.calls.csicodec_free(room.at);
        const at = this.room(size);
        return { at, place: Number(at), size, length: BigInt(size), bytes: new Uint8Array() };
    }

    /** Looks at the memory, which has another buffer behind a call that let it grow: the one before it has no bytes then. */
    look() {
        if (this.all?.length) return;
        const { buffer } = this.calls.memory;
        this.all = new Uint8Array(buffer);
        this.view = new DataView(buffer);
        // Node makes texts of its own kind of bytes more quickly than a decoder does.
        this.ofNode = globalThis.Buffer?.prototype.latin1Slice && globalThis.Buffer.from(buffer);
    }

    get memory() { this.look(); return this.all; }

    bytes(place, length) { return this.memory.subarray(Number(place), Number(place) + length); }

    /** A number of the struct that a call answered, behind a look; those of 64 bits are counts, which the memory bounds. */
    told(place) { return this.view.getUint32(this.answerAt + place, true); }

    /** Puts bytes where calls find them. */
    take(bytes) {
        this.input = this.grown(this.input, bytes.length + 1);
        this.memory.set(bytes, this.input.place);
        this.length = BigInt(bytes.length);
    }

    /** Puts a text where calls find it, and answers how many bytes it has. */
    takeText(text) {
        const input = this.input = this.grown(this.input, text.length * 3 + 1), all = this.memory;
        let i = text.length > 24 ? -1 : 0;
        for (; i >= 0 && i < text.length; i++) {
            const code = text.charCodeAt(i);
            if (code > 127) break;
            all[input.place + i] = code;
        }
        if (i !== text.length) {
            if (!input.bytes.length) input.bytes = all.subarray(input.place, input.place + input.size);
            i = encoder.encodeInto(text, input.bytes).written;
        }
        this.length = BigInt(i);
        return i;
    }

    /** Calls with what was taken, and with room, which is tried again where it was too small; answers how many bytes are in `output`. `needed`
     * is the place of that number in the answer, and `refused` makes the error. */
    called(room, needed, call, refused = refusal) {
        this.output = this.grown(this.output, room);
        for (;;) {
            call(this.calls, this.answer, this.input.at, this.length, this.output.at, this.output.length);
            this.look();
            const status = this.told(0);
            if (status) throw refused(status, this);
            const length = this.told(needed);
            if (length <= this.output.size) return length;
            this.output = this.grown(this.output, length);
        }
    }

    /** What a call writes, up to the next one. */
    passing(...how) {
        const length = this.called(...how);
        return this.bytes(this.output.at, length);
    }

    /** A copy of it. */
    written(...how) { return this.passing(...how).slice(); }

    /** A text that a call makes of a text. What is made of ASCII is ASCII, where no other set is designated. */
    rewritten(text, needed, call, refused) {
        const isAscii = this.takeText(text) === text.length && !DESIGNATES.test(text), length = this.called(text.length * 9 + 64, needed, call, refused);
        const from = this.output.place, to = from + length;
        if (length <= 16 || !this.ofNode) return textOf(this.memory, from, to);
        return isAscii ? this.ofNode.latin1Slice(from, to) : this.ofNode.utf8Slice(from, to);
    }
}

/** A stream that is written anew as it comes. What depends on what follows waits: of a control sequence less than 65,536 bytes. */
class Steps {
    constructor(codec) { this.codec = codec; this.begin(); }

    begin() { this.rest = new Uint8Array(); this.looked = this.held = 0; }

    /** Whether a control sequence, of which some bytes were looked at, isn't over in these. */
    waits(bytes) {
        const from = this.held;
        if (this.looked - from < 2 || bytes.length - from >= PIECE || bytes[from] !== 0x1b || bytes[from + 1] !== 0x5b) return false;
        for (let i = this.looked; i < bytes.length; i++) if (bytes[i] < 0x20 || bytes[i] > 0x3f) return false;
        return true;
    }

    /** Calls with what becomes of the next bytes, as far as it doesn't depend on what follows, in pieces, each of which the next one overwrites. */
    pass(given, each) {
        for (let at = 0; at < given.length; at += PIECE) {
            const piece = given.subarray(at, at + PIECE), bytes = this.rest.length ? joined([this.rest, piece]) : piece;
            let used = 0;
            if (!this.waits(bytes)) {
                const step = this.codec.guarded(library => this.step(library, bytes));
                used = step.used;
                if (step.out.length) each(step.out);
            }
            this.rest = bytes.slice(used);
            this.looked = this.rest.length;
        }
    }

    /** The same in pieces that stay. */
    feed(given) {
        const parts = [];
        this.pass(given, part => parts.push(part.slice()));
        return parts;
    }

    /** The whole of it. */
    whole(bytes) {
        let all = new Uint8Array(bytes.length), length = 0;
        const put = part => {
            if (length + part.length > all.length) all = joined([all, new Uint8Array(all.length + part.length)]);
            all.set(part, length);
            length += part.length;
        };
        this.pass(bytes, put);
        put(this.finish());
        return length === all.length ? all : all.slice(0, length);
    }

    /** The whole of a text. What is plain goes by as it is where nothing is open. */
    text(text) {
        let out = '';
        for (let at = 0, to; at < text.length; at = to) {
            const from = this.rest.length || this.isOpen ? at : plainEnd(text, at);
            to = from + PIECE;
            // No pair of surrogates is cut.
            if ((text.charCodeAt(to - 1) & 0xfc00) === 0xd800 && (text.charCodeAt(to) & 0xfc00) === 0xdc00) to++;
            out += text.slice(at, from) + decoder.decode(joined(this.feed(encoder.encode(text.slice(from, to)))));
        }
        return out + decoder.decode(this.finish());
    }
}

/** Plain text, or text with the styles of a depth. */
class Cleaner extends Steps {
    constructor(codec, depth) { super(codec); this.depth = depth; }

    begin() { super.begin(); this.state = new Uint8Array(16); }

    /** Whether a control string or a title is open, or a graphic set isn't ASCII. */
    get isOpen() { return this.state[0] + this.state[4] > 0; }

    step(library, bytes) {
        library.take(bytes);
        library.bytes(library.state, 16).set(this.state);
        const out = library.passing(bytes.length * 3 + 64, 32, (calls, answer, ...words) => this.depth === undefined
            ? calls.csicodec_strip_step(answer, library.state, ...words)
            : calls.csicodec_clean_step(answer, this.depth, library.state, ...words));
        this.state = library.bytes(library.answerAt + 4, 16).slice();
        this.held = library.told(16);
        return { out, used: library.told(24) };
    }

    /** What ends the stream: U+FFFD for the beginning of a character, and a reset if a style is open. */
    finish() {
        const out = this.codec.guarded(library => {
            library.take(this.rest);
            library.bytes(library.state, 16).set(this.state);
            return library.written(64, 8, (calls, answer, ...words) => calls.csicodec_clean_end(answer, library.state, ...words));
        });
        this.begin();
        return out;
    }
}

/** Each control sequence in another spelling. */
class Filter extends Steps {
    constructor(codec, call) { super(codec); this.call = call; }

    begin() { super.begin(); this.mode = 0; }

    get isOpen() { return this.mode > 0; }

    step(library, bytes) {
        library.take(bytes);
        const out = library.passing(bytes.length * 2 + 64, 16, (calls, answer, ...words) => calls[this.call](answer, this.mode, LIMIT, ...words));
        this.mode = library.told(4);
        return { out, used: library.told(8) };
    }

    /** What is left at the end passes as it is. */
    finish() {
        const left = this.rest;
        this.begin();
        return left;
    }
}

/** A stream of bytes, or of strings, through this. */
export const streamOf = steps => new TransformStream({
    transform(chunk, controller) { for (const part of steps.feed(bytesOf(chunk))) controller.enqueue(part); },
    flush(controller) { const end = steps.finish(); if (end.length) controller.enqueue(end); },
});

/** The program explain: one instance, which is kept as long as it doesn't trap. */
class Program {
    constructor(module) {
        this.instance = new WebAssembly.Instance(module, { env: this.host() });
        this.memory = this.instance.exports.memory;
    }

    view(place, length) { return new Uint8Array(this.memory.buffer, Number(place), Number(length)); }

    /** What the program asks of the machine. An answer below 0 is the number of an error of Linux. */
    host() {
        const put = (bytes, to, room) => {
            if (!bytes) return -1n;
            if (bytes.length > Number(room)) return -2n;
            this.view(to, bytes.length).set(bytes);
            return BigInt(bytes.length);
        };
        return {
            read: (file, to, room) => {
                const it = this.open.get(file);
                if (!it) return -9n;
                const part = it.bytes.subarray(it.at, it.at + Number(room));
                it.at += part.length;
                this.view(to, part.length).set(part);
                return BigInt(part.length);
            },
            write: (file, from, length) => {
                const part = this.view(from, length).slice();
                if (file === 1) this.write(part); else this.said.push(part);
                return BigInt(length);
            },
            open: (name, length) => this.start(decoder.decode(this.view(name, length).slice())),
            word: (i, to, room) => put(this.words[Number(i)], to, room),
            variable: () => -1n,
        };
    }

    start(name) {
        if (!(name in this.files)) return -2n;
        const number = name === '-' ? 0 : this.open.size + 3;
        this.open.set(number, { bytes: this.files[name], at: 0 });
        return BigInt(number);
    }

    /** Runs it: its words, its files by name ('-' is standard input), and what is called with each piece of output. */
    run(words, files, write) {
        Object.assign(this, { words: ['csicodec', ...words].map(word => encoder.encode(word)), files, write, open: new Map(), said: [] });
        this.start('-');
        return { status: this.instance.exports.run(), message: decoder.decode(joined([new Uint8Array(), ...this.said])).trim() };
    }
}

const stripCall = (calls, answer, from, length, to, room) => calls.csicodec_strip(answer, from, length, to, room);

export class Codec {
    #library;
    #explain;
    #instance;
    #program;

    constructor({ library, explain } = {}) {
        if (!(library instanceof WebAssembly.Module)) throw new TypeError('a Codec is made by await Codec.load()');
        this.#library = library;
        this.#explain = explain;
    }

    /** Loads the modules: from beside this file, or from what is passed (a module, its bytes, or a URL). */
    static async load(sources) {
        const { library, explain } = optionsOf(sources, { library: undefined, explain: undefined }), beside = name => new URL(name, import.meta.url);
        const modules = await Promise.all([compiled(library ?? beside('csicodec.wasm')), compiled(explain ?? beside('explain.wasm'))]);
        return new this({ library: modules[0], explain: modules[1] });
    }

    /** The modules, to be passed to a worker's `Codec.load`. */
    get modules() { return { library: this.#library, explain: this.#explain }; }

    /** Uses the library. An instance that trapped is of no more use, and the next call has another. */
    guarded(use) {
        try {
            return use(this.#instance ??= new Library(this.#library));
        } catch (error) {
            if (error instanceof WebAssembly.RuntimeError) this.#instance = undefined;
            throw error;
        }
    }

    /** A text, or bytes, written by one call. */
    #written(input, needed, call, refused) {
        return this.guarded(library => {
            if (typeof input === 'string') return library.rewritten(input, needed, call, refused);
            const bytes = bytesOf(input);
            library.take(bytes);
            return library.written(bytes.length * 3 + 64, needed, call, refused);
        });
    }

    #whole(input, steps) { return typeof input === 'string' ? steps.text(input) : steps.whole(bytesOf(input)); }

    /** The visible text: no control but newline and tab. Of a string a string, else bytes. */
    strip(input) {
        if (typeof input === 'string' && plainEnd(input) === input.length) return input;
        if (typeof input !== 'string' || input.length > PIECE) return this.#whole(input, new Cleaner(this));
        return this.#written(input, 8, stripCall);
    }

    /** The visible text with its known styles (SGR), except the one that conceals text (8), other fonts (11 to 20), and 26, 50 to 52, 54 and 60 to 65.
     * `colors` is 'all', 256 or 16; `links` keeps links to hosts by http or https. */
    clean(input, options) {
        const { colors, links } = optionsOf(options, { colors: 'all', links: false }), depth = depthOf(colors);
        if (typeof input === 'string' && plainEnd(input) === input.length) return input;
        if (!links && (typeof input !== 'string' || input.length > PIECE)) return this.#whole(input, new Cleaner(this, depth));
        return this.#written(input, 8, (calls, answer, ...words) => calls.csicodec_clean_with(answer, depth, links ? 1 : 0, ...words));
    }

    /** A page of HTML with the text, its colours and styles, each line as it stands when it ends. Nothing of the text gets into a tag, but addresses with
     * `links`, with which text stays that was written over, as where `overwrite` is false. A `fragment` is a piece for a <pre>; `classes` are in place
     * of styles; `palette` has 16 colours as '#rrggbb', or 18 with the page's own of text and behind it. */
    html(input, options) {
        const { links, classes, fragment, overwrite, palette } = optionsOf(options, { links: false, classes: false, fragment: false, overwrite: true, palette: [] });
        if (!Array.isArray(palette) || ![0, 16, 18].includes(palette.length)) throw new TypeError('the option palette must be an array of 16 or 18 colours');
        const numbers = Uint32Array.from([links, classes, fragment, !overwrite, ...palette.map(numberOf)]), count = BigInt(palette.length);
        return this.guarded(library => {
            const markup = library.room(numbers.byteLength);
            try {
                library.bytes(markup, numbers.byteLength).set(new Uint8Array(numbers.buffer));
                return this.#written(input, 8, (calls, answer, ...words) => calls.csicodec_html(answer, markup, markup + 16n, count, ...words));
            } finally {
                library.calls.csicodec_free(markup);
            }
        });
    }

    /** Each line as it stands when it ends, as plain text; with `styles` also the sequences that set how characters look. */
    overwrite(input, options) {
        const styles = optionsOf(options, { styles: false }).styles ? 1 : 0;
        return this.#written(input, 8, (calls, answer, ...words) => calls.csicodec_overwrite(answer, styles, ...words));
    }

    /** The normal form of control sequences alone, one after the other; other bytes are refused with their place. */
    normalise(input) {
        return this.#written(input, 24, (calls, ...words) => calls.csicodec_normalise(...words), (status, library) =>
            new CodecError(STATUS[status] ?? `status ${status}`, { status, start: library.told(8), at: library.told(16) }));
    }

    /** Any whole stream with each control sequence in its normal form. */
    filter(input) { return this.#whole(input, new Filter(this, 'csicodec_filter')); }

    /** The same stream for a terminal in fewer bytes, as `csicodec compact` writes it: in the place of control sequences that stand side by side one
     * may stand that is read as the same actions. */
    compact(input, options) {
        const semicolons = optionsOf(options, { semicolons: false }).semicolons ? 1 : 0;
        return this.#written(input, 8, (calls, answer, ...words) => calls.csicodec_compact_whole(answer, semicolons, ...words));
    }

    /** The same for a stream as it comes, of bytes or of strings: TransformStreams that write bytes, with bounded memory. compact writes each
     * control sequence by itself. */
    stripStream() { return streamOf(new Cleaner(this)); }
    cleanStream(options) { return streamOf(new Cleaner(this, depthOf(optionsOf(options, { colors: 'all' }).colors))); }
    filterStream() { return streamOf(new Filter(this, 'csicodec_filter')); }
    compactStream(options) { return streamOf(new Filter(this, optionsOf(options, { semicolons: false }).semicolons ? 'csicodec_compact_semicolons' : 'csicodec_compact')); }

    /** The spans of a stream in words, as objects: at, kind, text or hex, and actions with name, words and action. `name` is a file's:
     * one that ends in .cast is a recording of asciinema, as any is whose first line is that of one, and its spans have their time. */
    explain(input, options) {
        const spans = [];
        this.explainEach(input, options, lines => { for (const line of lines) spans.push(JSON.parse(line)); });
        return spans;
    }

    /** The same as lines of JSON, which `each` is called with as they come. */
    explainEach(input, options, each) {
        const { name, only, unknown, decode } = optionsOf(options, { name: '', only: '', unknown: false, decode: false });
        for (const [option, value] of Object.entries({ name, only })) if (typeof value !== 'string') throw new TypeError(`the option ${option} must be a string, not ${typeName(value)}`);
        if (typeof each !== 'function') throw new TypeError(`what lines are passed to must be a function, not ${typeName(each)}`);
        const words = ['explain', '--json'], files = { '-': new Uint8Array() };
        if (unknown) words.push('--unknown');
        if (decode) words.push('--decode');
        if (only) words.push(`--only=${only}`);
        const place = name.endsWith('.cast') ? 'input.cast' : '-';
        files[place] = bytesOf(input);
        if (place !== '-') words.push(place);
        let rest = '';
        const text = new TextDecoder('utf-8', { ignoreBOM: true });
        const { status, message } = this.#run(words, files, part => {
            const lines = (rest + text.decode(part, { stream: true })).split('\n');
            rest = lines.pop();
            if (lines.length) each(lines);
        });
        // Without a message status 1 says that nothing is unknown.
        if (status > 1 || message) throw new CodecError(message.replace(/^csicodec: /, '').replace(/: input\.cast$/, '') || `status ${status}`, { status });
    }

    /** Runs the program. An instance that trapped, or that was left by an error of `write`, isn't run again. */
    #run(words, files, write) {
        const program = this.#program ?? new Program(this.#explain);
        this.#program = undefined;
        const answer = program.run(words, files, write);
        this.#program = program;
        return answer;
    }
}

/** What the programs wrote in a recording of asciinema (versions 2 and 3), as bytes. */
export function recorded(input) {
    const lines = decoder.decode(bytesOf(input)).split('\n').slice(1).filter(line => line.startsWith('['));
    return encoder.encode(lines.map(line => JSON.parse(line)).filter(event => event[1] === 'o').map(event => event[2]).join(''));
}
