// The package csicodec for JavaScript: csicodec.mjs, and events, input, spans and actions over the same library.
import { NAMES } from './actions.mjs';
import { Codec as TextCodec, CodecError, bytesOf, joined, optionsOf, recorded, streamOf, textOf, typeName } from './csicodec.mjs';
import { ACTION_SIZE, PARAM_SIZE, actionOf, rowsOf } from './forms.mjs';

export { CodecError, recorded };

/** The keys that are held while the mouse reports, and how a program wants keys reported: `modifiers` and `flags` are sums of these. */
export const Modifiers = Object.freeze({ SHIFT: 2, ALT: 4, CTRL: 8 });
export const KittyKeyboardFlags = Object.freeze({
    DISAMBIGUATE_ESCAPE_CODES: 1, REPORT_EVENT_TYPES: 2, REPORT_ALTERNATE_KEYS: 4, REPORT_ALL_KEYS_AS_ESCAPE_CODES: 8, REPORT_ASSOCIATED_TEXT: 16,
});

/** What is held down with a key, and the locks that are on: `modifiers` of a key is a sum of these. */
export const KeyModifiers = Object.freeze({ SHIFT: 1, ALT: 2, CTRL: 4, SUPER: 8, HYPER: 16, META: 32, CAPS_LOCK: 64, NUM_LOCK: 128 });

const decoder = new TextDecoder('utf-8', { ignoreBOM: true });
const LIMIT = 65536, PIECE = 65536, TRUNCATED = 4, NO_ACTION = 6;
// enum csicodec_key_event and enum csicodec_key_encoding; how many characters a key types at most, each of 4 bytes.
const KEY_EVENTS = ['press', 'repeat', 'release'], KEY_ENCODINGS = ['legacy', 'modifyOtherKeys', 'kitty', 'win32', 'rxvt', 'linux'];
const TYPED = 32n;
// enum csicodec_event_kind and enum csicodec_input_kind; enum csicodec_dialect; enum csicodec_span_kind.
const TEXT = 1, ACTIONS = 2, ESC = 3, STRING = 4, OTHER = 5, CONTROL = 6, SS3 = 7, LINUX = 8, RXVT = 9, MOUSE = 10, ALT = 11, MODIFIED = 13, FOCUS_GAINED = 14;
const DIALECTS = { output: 0, input: 1, utf8: 2 };
const SPANS = ['text', 'csi', 'esc', 'string', 'other'];
const STRINGS = { 0x5d: 'OSC', 0x50: 'DCS', 0x58: 'SOS', 0x5e: 'PM', 0x5f: 'APC' };

const textEvent = bytes => ({ type: 'Text', text: textOf(bytes), bytes });

/** The actions of short sequences are kept by their bytes, at most so many: streams repeat few of them. They are frozen, as all are. */
const KEPT = 4096, SHORT = 32, READ = new Map(), TAKEN = new Map();

function keep(kept, key, actions) {
    if (kept.size >= KEPT) kept.clear();
    kept.set(key, actions);
    return actions;
}

/** An action with nothing in it that can be changed. */
function frozen(action) {
    for (const value of Object.values(action)) if (typeof value === 'object') Object.freeze(value);
    return Object.freeze(action);
}

/** The key or the report that some bytes are. */
function keyOf(kind, value, bytes, dialect) {
    switch (kind) {
        case SS3: return { type: 'Input.Ss3', character: String.fromCharCode(value) };
        case LINUX: return { type: 'Input.Linux', character: String.fromCharCode(value) };
        case ALT: return { type: 'Input.Alt', character: String.fromCodePoint(value) };
        case MODIFIED: {
            const doubled = bytes[1] === 0x1b, digits = doubled ? textOf(bytes.subarray(3, -1)) : '';
            const modifiers = doubled ? 3 : bytes[bytes.length - 2] - 0x30;
            return { type: 'Input.Modified', number: Number(digits || 1), modifiers, character: String.fromCharCode(value) };
        }
        case FOCUS_GAINED: return { type: 'Input.FocusGained' };
        case RXVT: return { type: 'Input.Rxvt', number: value };
        case MOUSE: {
            const numbers = dialect === DIALECTS.utf8 ? [...decoder.decode(bytes.subarray(3))].map(it => it.codePointAt(0)) : [...bytes.subarray(3)];
            const [button, column, line] = numbers.map(number => Math.max(0, number - 32));
            return { type: 'Input.Mouse', button, column, line };
        }
        default: return { type: 'Input.Escape' };
    }
}

/** The limit of a reader, which is 1 or more. */
function limitOf(limit) {
    if (!Number.isInteger(limit) || limit < 1) throw new TypeError(`the option limit must be 1 or more, not ${String(limit)}`);
    return limit;
}

/** Reads a stream as it comes. What waits for more bytes is kept: fewer than `limit` of a control sequence, or 3 of a character. */
class Reader {
    constructor(codec, dialect, limit, asTerminals = false) {
        if (!(codec instanceof Codec)) throw new TypeError('a parser is made of a Codec: new Parser(await Codec.load())');
        Object.assign(this, { codec, dialect, limit: limitOf(limit), asTerminals, kept: asTerminals ? TAKEN : READ });
        this.begin();
    }

    begin() { this.mode = this.looked = 0; this.opener = ''; this.rest = new Uint8Array(); }

    /** The events of the next bytes, or characters, as far as they don't depend on what follows. */
    feed(input) {
        const given = bytesOf(input), events = [];
        for (let at = 0; at < given.length; at += PIECE) {
            const piece = given.subarray(at, at + PIECE), held = new Uint8Array(this.rest.length + piece.length);
            held.set(this.rest);
            held.set(piece, this.rest.length);
            this.rest = held.subarray(this.codec.guarded(library => this.#read(library, held, events)));
        }
        return events;
    }

    /** Appends the events of some bytes, and answers how many these have. */
    #read(library, held, events) {
        library.take(held);
        const begin = library.input.at, limit = BigInt(this.limit);
        let at = 0, { actions, params } = this.#room(library, 64, 64);
        while (at < held.length) {
            library.calls.csicodec_input(library.answer, this.dialect, this.mode, limit, BigInt(this.looked), begin + BigInt(at), BigInt(held.length - at),
                actions.at, BigInt(actions.size / ACTION_SIZE), params.at, BigInt(params.size / PARAM_SIZE));
            library.look();
            const status = library.told(0), count = library.told(32), tokens = library.told(40);
            if (status && status !== TRUNCATED) throw new CodecError(status === 5 ? 'out of memory' : `status ${status}`, { status });
            if (!status && (count * ACTION_SIZE > actions.size || tokens * PARAM_SIZE > params.size)) {
                ({ actions, params } = this.#room(library, count, tokens));
                continue;
            }
            const kind = library.told(4), value = library.told(12), used = library.told(24);
            this.mode = library.told(8);
            this.looked = library.told(16);
            if (status) break;
            if (kind === ACTIONS) {
                const key = used > SHORT ? undefined : textOf(held, at, at + used);
                const taken = this.kept.get(key) ?? this.#actions(library, this.asTerminals ? this.#taken(library, begin + BigInt(at), used) : count, key);
                for (const action of taken) events.push(action);
                ({ actions, params } = library);
            } else if (kind === CONTROL) {
                events.push(textEvent(held.subarray(at + this.looked - 1, at + this.looked)));
            } else {
                events.push(this.#event(library, kind, value, held.subarray(at, at + used)));
            }
            at += used;
        }
        return at;
    }

    /** Room for at least so many actions and tokens. */
    #room(library, actions, params) {
        library.actions = library.grown(library.actions ?? { at: 0n, size: 0 }, actions * ACTION_SIZE);
        library.params = library.grown(library.params ?? { at: 0n, size: 0 }, params * PARAM_SIZE);
        return library;
    }

    /** How many actions terminals take a sequence for, which are written then. */
    #taken(library, at, used) {
        for (;;) {
            const { actions, params } = library;
            library.calls.csicodec_terminal_actions(library.answer, at, BigInt(used), actions.at, BigInt(actions.size / ACTION_SIZE), params.at, BigInt(params.size / PARAM_SIZE));
            library.look();
            const status = library.told(0), count = library.told(24), tokens = library.told(32);
            if (status) throw new CodecError('out of memory', { status });
            if (count * ACTION_SIZE <= actions.size && tokens * PARAM_SIZE <= params.size) return count;
            this.#room(library, count, tokens);
        }
    }

    /** The actions that a call has written. */
    #actions(library, count, key) {
        const { view } = library, at = Number(library.actions.at), params = Number(library.params.at);
        const actions = Array.from({ length: count }, (_, i) => frozen(actionOf(view, at + i * ACTION_SIZE, params)));
        return key === undefined ? actions : keep(this.kept, key, actions);
    }

    /** The event of some bytes that aren't a control sequence. */
    #event(library, kind, value, bytes) {
        if (kind === TEXT) return textEvent(bytes);
        if (kind === STRING) return this.#piece(bytes);
        if (kind === OTHER) return { type: 'Malformed', bytes };
        if (kind !== ESC) return keyOf(kind, value, bytes, this.dialect);
        const intermediate = bytes.length > 2 ? bytes[1] : 0, final = bytes[bytes.length - 1], code = NAMES.EscCode[library.calls.csicodec_esc(intermediate, final)];
        return code ? { type: 'Esc', code } : { type: 'UnknownEsc', intermediate: intermediate ? String.fromCharCode(intermediate) : '', final: String.fromCharCode(final) };
    }

    /** A piece of a control string, without what opens and closes it. */
    #piece(bytes) {
        const first = bytes.length > 1 && bytes[0] === 0x1b && bytes[1] in STRINGS, last = this.mode === 0;
        if (first) this.opener = STRINGS[bytes[1]];
        const end = last ? bytes.length - (bytes[bytes.length - 1] === 7 ? 1 : 2) : bytes.length;
        return { type: 'ControlString', kind: this.opener, bytes: bytes.subarray(first ? 2 : 0, end), first, last };
    }

    /** What is left at the end of the stream: the beginning of a control, or of a character. The parser can then begin anew. */
    finish() {
        const left = this.rest;
        this.begin();
        if (!left.length) return [];
        return [left[0] === 0x1b ? { type: 'Malformed', bytes: left } : textEvent(left)];
    }
}

/** Reads what a program writes for a terminal, as it comes. */
export class Parser extends Reader {
    constructor(codec, options) {
        const { limit, asTerminals } = optionsOf(options, { limit: LIMIT, asTerminals: false });
        super(codec, DIALECTS.output, limit, asTerminals);
    }
}

/** Reads what a terminal sends, as it comes. */
export class InputParser extends Reader {
    constructor(codec, options) {
        const { dialect, limit } = optionsOf(options, { dialect: 'input', limit: LIMIT });
        if (dialect !== 'input' && dialect !== 'utf8') throw new TypeError(`the option dialect must be 'input' or 'utf8', not ${String(dialect)}`);
        super(codec, DIALECTS[dialect], limit);
    }

    /** What waits, where nothing more came in time: ESC alone is a key, and so is ESC with one character, and SS3 with a digit. Else it goes on waiting. */
    pause() {
        const events = [];
        for (;;) {
            const { rest } = this;
            const answer = this.codec.guarded(library => {
                library.take(rest);
                library.calls.csicodec_pause(library.answer, library.input.at, library.length);
                library.look();
                return { status: library.told(0), kind: library.told(4), value: library.told(12), used: library.told(24) };
            });
            if (answer.status) return events;
            this.begin();
            this.rest = rest.slice(answer.used);
            events.push(keyOf(answer.kind, answer.value, rest.subarray(0, answer.used), this.dialect), ...this.feed(''));
        }
    }

    finish() { return [...this.pause(), ...super.finish()]; }
}

/** Reads the keys of what a terminal sends, as it comes. What isn't read as a key comes as its bytes. */
export class KeyParser {
    constructor(codec) {
        if (!(codec instanceof Codec)) throw new TypeError('a parser is made of a Codec: new KeyParser(await Codec.load())');
        this.codec = codec;
        this.rest = new Uint8Array();
        this.mode = 0;
    }

    /** The keys of the next bytes, or characters, as far as they don't depend on what follows: an ESC at the end waits. */
    feed(input) {
        const given = bytesOf(input), held = new Uint8Array(this.rest.length + given.length);
        held.set(this.rest);
        held.set(given, this.rest.length);
        this.rest = held;
        return this.#read(1);
    }

    /** What waits, where nothing more came in time: ESC alone is a key, and so is ESC with one character. Else it goes on waiting. */
    pause() { return this.#read(0); }

    /** What is left at the end: keys, and bytes that are none. */
    finish() {
        const found = this.#read(0), left = this.rest;
        this.rest = new Uint8Array();
        this.mode = 0;
        return left.length ? [...found, left] : found;
    }

    /** How many bytes go on with the string that is open, or open one: 0 if none does. The mode says whether it is open behind them. */
    #string(library, at, size) {
        library.calls.csicodec_span(library.answer, this.mode, BigInt(LIMIT), library.input.at + BigInt(at), BigInt(size));
        library.look();
        if (library.told(0)) return 0;
        const isString = SPANS[library.told(4)] === 'string';
        this.mode = isString ? library.told(8) : 0;
        return isString ? library.told(16) : 0;
    }

    #read(more) {
        const held = this.rest, found = [];
        this.rest = held.subarray(this.codec.guarded(library => {
            library.take(held);
            library.typed ??= library.room(Number(TYPED) * 4);
            let at = 0;
            while (at < held.length) {
                if (this.mode) {
                    const string = this.#string(library, at, held.length - at);
                    if (string) found.push(held.subarray(at, at + string));
                    else if (this.mode) break;
                    at += string;
                    continue;
                }
                library.calls.csicodec_key(library.answer, more, library.input.at + BigInt(at), BigInt(held.length - at), library.typed, TYPED);
                library.look();
                const status = library.told(0), used = library.told(32);
                if (status === TRUNCATED) break;
                if (status && status !== NO_ACTION) throw new CodecError('out of memory', { status });
                found.push(status ? held.subarray(at, at + used) : strokeOf(library));
                if (status) this.#string(library, at, used);
                at += used;
            }
            return at;
        }));
        return found;
    }
}

/** The key that a call has told. */
function strokeOf(library) {
    const code = NAMES.KeyCode[library.told(4)], value = library.told(8), typed = Number(library.typed);
    const text = Array.from({ length: library.told(24) }, (_, i) => String.fromCodePoint(library.view.getUint32(typed + 4 * i, true))).join('');
    const of = code === 'Char' ? { character: String.fromCodePoint(value) } : code === 'F' ? { number: value } : {};
    return { type: 'Key', code, ...of, modifiers: library.told(12), event: KEY_EVENTS[library.told(16)], encoding: KEY_ENCODINGS[library.told(20)], text };
}

/** Joins the pieces of each OSC among events. A content of more than `limit` bytes isn't told. */
export class OscReader {
    constructor(codec, options) {
        if (!(codec instanceof Codec)) throw new TypeError('a reader is made of a Codec: new OscReader(await Codec.load())');
        Object.assign(this, { codec, limit: limitOf(optionsOf(options, { limit: LIMIT }).limit), held: [], length: Infinity });
    }

    /** What the OSC says that is over with this event; undefined, if none is. */
    take(event) {
        if (typeof event?.type !== 'string') throw new TypeError(`an event is required, not ${typeName(event)}`);
        if (event.type !== 'ControlString' || event.kind !== 'OSC') { this.length = Infinity; return undefined; }
        if (event.first) { this.held = []; this.length = 0; }
        this.length += event.bytes.length;
        if (this.length > this.limit) { this.held = []; this.length = Infinity; return undefined; }
        this.held.push(event.bytes);
        if (!event.last) return undefined;
        const all = new Uint8Array(this.length);
        this.held.reduce((at, part) => { all.set(part, at); return at + part.length; }, 0);
        return this.codec.osc(all);
    }
}

/** What may save the cursor's place or begin insert mode (DECSC, SCOSC, SM, DECSET 1048 and 1049), and what ends both (RIS, DECSTR). */
const KEEPS = /^\x1b(?:7|\[[0-9;:]*[sh]|\[\?[0-9;]*104[89][0-9;]*h)$/, RESETS = ['\x1bc', '\x1b[!p'];
/** SO and SI, which shift G1 and G0 in, and what designates these (SCS): with a set other than ASCII, or with it. */
const SHIFTS = [0x0e, 0x0f], DESIGNATES = /^\x1b([()])([^])$/, NO_SETS = { '(': '', ')': '', '\x0e': '' };
const latin = new TextDecoder('latin1');

/** Writes the lines of a stream, each as it stands when it ends, as they come. Behind a newline of text outside of a title nothing is left of a line
 * but how further characters look (`NewLine` of csicodec_overwrite's Line.antt) and the graphic sets, so that whole lines can be written by themselves,
 * behind the sequences that set these. Where a place is saved or insert mode has begun, that is left too, and what follows is held up to a reset or the end. */
class Lines {
    /** `write` makes what is written of the bytes of whole lines, and `around` is what stands ahead of all and behind it. */
    constructor(codec, write, around = [new Uint8Array(), new Uint8Array()]) {
        Object.assign(this, { codec, write, around });
        this.begin();
    }

    begin() {
        Object.assign(this, { look: new Uint8Array(), held: [], rest: new Uint8Array(), controls: [], mode: 0, isTitle: false, isBegun: false, keeps: false, sets: NO_SETS });
    }

    /** What becomes of the next bytes, as far as they are whole lines, in pieces. */
    feed(given) {
        const parts = this.#ahead();
        for (let at = 0; at < given.length; at += PIECE) {
            const bytes = joined([this.rest, given.subarray(at, at + PIECE)]), controls = [], { used, cut } = this.#cut(bytes, controls);
            this.rest = bytes.slice(used);
            if (!cut) {
                this.held.push(bytes.slice(0, used));
                this.controls.push(...controls.map(({ piece }) => piece));
                continue;
            }
            parts.push(this.write(joined([this.#sets(), this.look, ...this.held, bytes.subarray(0, cut)])));
            this.#look([...this.controls, ...controls.filter(({ at }) => at < cut).map(({ piece }) => piece)]);
            this.held = [bytes.slice(cut, used)];
            this.controls = controls.filter(({ at }) => at >= cut).map(({ piece }) => piece);
        }
        return parts.filter(part => part.length);
    }

    finish() {
        const end = joined([...this.#ahead(), this.write(joined([this.#sets(), this.look, ...this.held, this.rest])), this.around[1]]);
        this.begin();
        return end;
    }

    #ahead() {
        const parts = this.isBegun ? [] : [this.around[0]];
        this.isBegun = true;
        return parts;
    }

    /** How many bytes are in whole spans, and how many of them end with the last newline that ends a line; appends the sequences that can set how
     * characters look or graphic sets, and SO and SI. */
    #cut(bytes, controls) {
        let used = 0, cut = 0;
        this.codec.guarded(library => {
            library.take(bytes);
            while (used < bytes.length) {
                library.calls.csicodec_span(library.answer, this.mode, BigInt(LIMIT), library.input.at + BigInt(used), BigInt(bytes.length - used));
                library.look();
                if (library.told(0)) return;
                const piece = bytes.subarray(used, used + library.told(16)), kind = SPANS[library.told(4)];
                if (kind !== 'text') {
                    this.isTitle = kind === 'esc' && piece.length === 2 && piece[1] === 0x6b;
                    if (kind === 'csi' || kind === 'esc' && !this.isTitle) {
                        controls.push({ at: used, piece: piece.slice() });
                        const text = latin.decode(piece);
                        this.keeps = !RESETS.includes(text) && (this.keeps || KEEPS.test(text));
                    }
                } else if (!this.isTitle) {
                    if (SHIFTS.some(byte => piece.includes(byte))) piece.forEach((byte, at) => SHIFTS.includes(byte) && controls.push({ at: used + at, piece: Uint8Array.of(byte) }));
                    if (!this.keeps && piece.includes(10)) cut = used + piece.lastIndexOf(10) + 1;
                }
                this.mode = library.told(8);
                used += piece.length;
            }
        });
        return { used, cut };
    }

    /** What designates graphic sets other than ASCII, and shifts G1 in. */
    #sets() {
        return bytesOf(Object.values(this.sets).join(''));
    }

    /** The sets behind one of these. */
    #behind(text) {
        const [, by, set] = DESIGNATES.exec(text) ?? [];
        if (RESETS.includes(text)) return NO_SETS;
        if (by) return { ...this.sets, [by]: '0A'.includes(set) ? text : '' };
        if (text === '\x0e' || text === '\x0f') return { ...this.sets, '\x0e': text === '\x0e' ? text : '' };
        return this.sets;
    }

    /** Behind these sequences: the one with which the library writes how a character looks, and the sets. */
    #look(controls) {
        if (!controls.length) return;
        for (const piece of controls) this.sets = this.#behind(latin.decode(piece));
        const shown = this.codec.overwrite(joined([this.look, ...controls, Uint8Array.of(10, 0x58)]), { styles: true });
        this.look = shown.slice(shown.lastIndexOf(10) + 1, shown.lastIndexOf(0x58));
    }
}

export class Codec extends TextCodec {
    /** A page as `html` makes it of a whole stream, for one that comes, of bytes or of strings: a TransformStream that writes bytes, and holds a line.
     * Links don't pass. */
    htmlStream(options) {
        const { fragment, ...how } = optionsOf(options, { classes: false, fragment: false, palette: [] });
        const [ahead, behind] = fragment ? ['', ''] : this.html('\ue000', how).split('\ue000');
        return streamOf(new Lines(this, bytes => this.html(bytes, { ...how, fragment: true }), [ahead, behind].map(bytesOf)));
    }

    /** The same of `overwrite`. */
    overwriteStream(options) {
        const how = optionsOf(options, { styles: false });
        return streamOf(new Lines(this, bytes => this.overwrite(bytes, how)));
    }

    /** The events of a whole stream. */
    events(input, options) { return allOf(new Parser(this, options), bytesOf(input)); }

    /** The events of all that a terminal sent. An ESC at the end is a key. */
    inputs(input, options) { return allOf(new InputParser(this, options), bytesOf(input)); }

    /** The keys of all that a terminal sent; what isn't read as one comes as its bytes. An ESC at the end is a key, but in a control string. */
    keys(input) { return allOf(new KeyParser(this), bytesOf(input)); }

    /** What an OSC says, by its content: the bytes between `ESC ]` and what ends it. */
    osc(content) {
        const held = bytesOf(content);
        return this.guarded(library => {
            library.take(held);
            library.calls.csicodec_osc(library.answer, library.input.at, library.length);
            library.look();
            const texts = library.told(4), second = library.told(16), kind = NAMES.OscKind[library.told(0)];
            const first = texts ? held.slice(library.told(8), texts === 2 ? second - 1 : held.length) : undefined;
            return { type: 'Osc', kind, first, second: texts === 2 ? held.slice(second) : undefined };
        });
    }

    /** The spans of a whole stream: joined they are its bytes. */
    spans(input) {
        const held = bytesOf(input).slice(), spans = [];
        this.guarded(library => {
            library.take(held);
            for (let at = 0, mode = 0; at < held.length;) {
                library.calls.csicodec_span(library.answer, mode, BigInt(LIMIT), library.input.at + BigInt(at), BigInt(held.length - at));
                library.look();
                const isCut = library.told(0) !== 0, used = isCut ? held.length - at : library.told(16);
                spans.push({ kind: isCut ? 'other' : SPANS[library.told(4)], bytes: held.subarray(at, at + used) });
                mode = library.told(8);
                at += used;
            }
        });
        return spans;
    }

    /** The row of docs/SEQUENCES.md that reads an action of type 'Unspecified', and its values; undefined, if none does. */
    known(action) {
        if (action?.type !== 'Unspecified') throw new TypeError(`an action of type 'Unspecified' is required, not ${action?.type ?? typeName(action)}`);
        return this.#withRows([action], (library, rows, _, params, count) => {
            library.calls.csicodec_known(library.answer, rows, params, count);
            library.look();
            const kind = library.told(0);
            return kind ? { kind: NAMES.KnownKind[kind], values: Array.from({ length: library.told(4) }, (_, i) => library.told(8 + 4 * i)) } : undefined;
        });
    }

    /** The texts of actions, joined, as bytes. */
    encode(actions) { return this.#encoded('csicodec_encode', actions); }

    /** The same actions in a text that is no longer, if each is read back from its own text. */
    encodeCompact(actions) { return this.#encoded('csicodec_encode_compact', actions); }

    /** Whether the text of an action is read as this one action. */
    isCanonical(action) {
        return this.#withRows([action], (library, rows, _, params, count) => {
            library.calls.csicodec_is_canonical(library.answer, rows, params, count);
            library.look();
            const status = library.told(0);
            if (status) throw new CodecError(status === 6 ? 'no action' : `status ${status}`, { status });
            return library.told(4) === 1;
        });
    }

    #encoded(call, actions) {
        return this.#withRows(actions, (library, rows, count, params, paramsCount) => library.written(Number(count) * 16 + 64, 16,
            (calls, answer, _input, _length, ...room) => calls[call](answer, rows, count, params, paramsCount, ...room),
            status => new CodecError(`action ${library.told(8)}: ${status === 6 ? 'no action' : `status ${status}`}`, { status, at: library.told(8) })));
    }

    /** Puts the structs of actions and of their tokens where calls find them. */
    #withRows(actions, use) {
        if (typeof actions?.[Symbol.iterator] !== 'function') throw new TypeError(`an array of actions, or another iterable, is required, not ${typeName(actions)}`);
        const { rows, tokens } = rowsOf(actions), all = new Uint8Array(rows.length + tokens.length);
        all.set(rows);
        all.set(tokens, rows.length);
        return this.guarded(library => {
            library.take(all);
            const { at } = library.input;
            return use(library, at, BigInt(rows.length / ACTION_SIZE), at + BigInt(rows.length), BigInt(tokens.length / PARAM_SIZE));
        });
    }
}

/** All events of some bytes, piece by piece. */
function* allOf(parser, held) {
    for (let at = 0; at < held.length; at += PIECE) yield* parser.feed(held.subarray(at, at + PIECE));
    yield* parser.finish();
}
