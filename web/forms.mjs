// Actions as the library's structs (struct csicodec_action and csicodec_param of csicodec.h), and back.
import { KINDS, NAMES } from './actions.mjs';

export const ACTION_SIZE = 64, PARAM_SIZE = 16;
const FIRST = 8, SECOND = 16, TOP = 24, PLACE = 40, LEN = 48, RED = 56, MODIFIERS = 60, BUTTON = 62, ABSENT = 63;
const LARGEST_32 = 2 ** 32 - 1, LARGEST_64 = 2n ** 63n - 1n;
const isInt64 = value => (typeof value === 'bigint' || Number.isInteger(value)) && value >= -LARGEST_64 - 1n && value <= LARGEST_64;

/** The numbers of the names of each enumeration, and of the types of actions. */
const NUMBERS = Object.fromEntries(Object.entries(NAMES).map(([name, names]) => [name, new Map(Object.entries(names).map(([number, it]) => [it, Number(number)]))]));
const KIND_OF = new Map(Object.entries(KINDS).map(([number, [name]]) => [name, Number(number)]));

const wide = (view, at) => {
    const number = view.getBigInt64(at, true), small = Number(number);
    return Number.isSafeInteger(small) ? small : number;
};

/** A struct, of which the fields of an action are read. */
class Row {
    constructor(view, at, params) { Object.assign(this, { view, at, params }); }

    get first() { return wide(this.view, this.at + FIRST); }
    get second() { return wide(this.view, this.at + SECOND); }
    byte(place) { return this.view.getUint8(this.at + place); }
    side(i) { return this.view.getUint32(this.at + TOP + 4 * i, true); }
    first_if_there() { return this.byte(ABSENT) & 1 ? undefined : this.first; }
    second_if_there() { return this.byte(ABSENT) & 2 ? undefined : this.second; }

    color() {
        if (this.first === 0) return { type: 'DefaultColor' };
        if (this.first === 1) return { type: 'PaletteColor', index: this.second };
        return { type: 'TrueColor', red: this.byte(RED), green: this.byte(RED + 1), blue: this.byte(RED + 2), alpha: this.byte(RED + 3) };
    }

    tokens() {
        const place = Number(this.view.getBigUint64(this.at + PLACE, true)), len = Number(this.view.getBigUint64(this.at + LEN, true));
        return Array.from({ length: len }, (_, i) => {
            const at = this.params + (place + i) * PARAM_SIZE, value = wide(this.view, at + 8);
            return this.view.getUint32(at, true) ? String.fromCharCode(value) : value;
        });
    }
}

/** How the fields of each form are read; `a` and `b` are the names behind the form. */
const READ = {
    unit: () => ({}),
    count: row => ({ count: row.first }),
    place: row => ({ place: row.first }),
    places: (row, a, b) => ({ [a]: row.first, [b]: row.second }),
    int: row => ({ number: row.first }),
    ints: (row, a, b) => ({ [a]: row.first, [b]: row.second }),
    sizes: (row, a, b) => ({ [a]: row.first_if_there(), [b]: row.second_if_there() }),
    enum: (row, a) => ({ value: NAMES[a][row.first] }),
    mode: (row, a) => ({ mode: NAMES[`${a}Code`][row.first] ?? row.first }),
    font: row => ({ number: row.first }),
    flag: row => ({ value: row.first !== 0 }),
    color: row => ({ color: row.color() }),
    keys: row => ({ resource: NAMES.XtermKeyModifierResource[row.first], value: row.second_if_there() }),
    area: row => ({ request_id: row.first, page_number: row.second, top: row.side(0), left: row.side(1), bottom: row.side(2), right: row.side(3) }),
    report: (row, a, b) => ({ [a]: row.first, [b]: row.second, button: NAMES.MouseButton[row.byte(BUTTON)], modifiers: row.view.getUint16(row.at + MODIFIERS, true) }),
    state: row => ({ flags: row.first, mode: NAMES.KittyKeyboardMode[row.second] }),
    bits: row => ({ flags: row.first }),
    extensions: row => ({ attributes: row.tokens().map(token => NAMES.DeviceAttributeCodes[token] ?? token) }),
    graphics: row => ({ item: NAMES.XtSmGraphicsItem[row.first] ?? row.first, action_or_status: row.second, value: row.tokens() }),
    path: row => ({ path: NAMES.CharacterPath[row.first], effect: row.second }),
    unknown: row => ({ params: row.tokens(), control: String.fromCodePoint(row.view.getUint32(row.at + 4, true)) }),
};

/** The action of the struct at a place, with its tokens among those from `params` on. */
export function actionOf(view, at, params) {
    const [type, form, ...names] = KINDS[view.getUint32(at, true)];
    return { type, ...READ[form](new Row(view, at, params), ...names) };
}

/** Writes a struct. A field that can't have its value is refused by its name. */
class Writer {
    constructor(action, tokens) {
        Object.assign(this, { action, tokens, view: new DataView(new ArrayBuffer(ACTION_SIZE)) });
        const kind = KIND_OF.get(action?.type);
        if (kind === undefined) throw new TypeError(`an action with a type is required, not ${action?.type ?? (action === null ? 'null' : typeof action)}`);
        this.view.setUint32(0, kind, true);
        const [, form, ...names] = KINDS[kind];
        WRITE[form](this, ...names);
    }

    wrong(field, wanted) { return new TypeError(`${this.action.type}: ${field} must be ${wanted}, not ${String(this.action[field])}`); }

    /** The number of a field, in its range. */
    whole(field, low, high) {
        const value = this.action[field];
        if (typeof value !== 'bigint' && !Number.isInteger(value)) throw this.wrong(field, 'a whole number');
        if (value < low || value > high) throw this.wrong(field, `${low} to ${high}`);
        return BigInt(value);
    }

    any(field) { return this.whole(field, -LARGEST_64 - 1n, LARGEST_64); }

    /** The number of a field that is a name, or, where that is allowed, a number. */
    named(field, names, high) {
        const number = NUMBERS[names].get(this.action[field]);
        if (number !== undefined) return BigInt(number);
        if (high === undefined || typeof this.action[field] === 'string') throw this.wrong(field, `a name of ${names}`);
        return this.whole(field, 0, high);
    }

    first(number) { this.view.setBigInt64(FIRST, number, true); }
    second(number) { this.view.setBigInt64(SECOND, number, true); }

    /** The first two numbers, of which an absent one is marked. */
    optional(field, mark) {
        if (this.action[field] !== undefined) return this.any(field);
        this.view.setUint8(ABSENT, this.view.getUint8(ABSENT) | mark);
        return 0n;
    }

    color() {
        const color = this.action.color, parts = ['red', 'green', 'blue', 'alpha'];
        const byte = value => { if (!(Number.isInteger(value) && value >= 0 && value < 256)) throw this.wrong('color', 'of parts 0 to 255'); return value; };
        if (color?.type === 'PaletteColor') { this.first(1n); this.second(BigInt(byte(color.index))); }
        else if (color?.type === 'TrueColor') { this.first(2n); parts.forEach((part, i) => this.view.setUint8(RED + i, byte(color[part] ?? (part === 'alpha' ? 255 : undefined)))); }
        else if (color?.type !== 'DefaultColor') throw this.wrong('color', 'a colour');
    }

    list(field, names) {
        const tokens = this.action[field];
        if (!Array.isArray(tokens)) throw this.wrong(field, 'an array');
        this.view.setBigUint64(PLACE, BigInt(this.tokens.length), true);
        this.view.setBigUint64(LEN, BigInt(tokens.length), true);
        for (const token of tokens) {
            const number = names && NUMBERS[names].get(token);
            if (number !== undefined) this.tokens.push([0n, BigInt(number)]);
            else if (typeof token === 'string' && /^[\x00-\xff]$/.test(token)) this.tokens.push([1n, BigInt(token.charCodeAt(0))]);
            else if (isInt64(token)) this.tokens.push([0n, BigInt(token)]);
            else throw this.wrong(field, 'of numbers of 64 bits and characters');
        }
    }
}

/** How the fields of each form are written. */
const WRITE = {
    unit: () => {},
    count: it => it.first(it.whole('count', 0, LARGEST_32)),
    place: it => it.first(it.whole('place', 1, LARGEST_32)),
    places: (it, a, b) => { it.first(it.whole(a, 1, LARGEST_32)); it.second(it.whole(b, 1, LARGEST_32)); },
    int: it => it.first(it.any('number')),
    ints: (it, a, b) => { it.first(it.any(a)); it.second(it.any(b)); },
    sizes: (it, a, b) => { it.first(it.optional(a, 1)); it.second(it.optional(b, 2)); },
    enum: (it, a) => it.first(it.named('value', a)),
    mode: (it, a) => it.first(it.named('mode', `${a}Code`, 65535)),
    font: it => it.first(it.whole('number', 0, 9)),
    flag: it => { if (typeof it.action.value !== 'boolean') throw it.wrong('value', 'a boolean'); it.first(BigInt(it.action.value)); },
    color: it => it.color(),
    keys: it => { it.first(it.named('resource', 'XtermKeyModifierResource')); it.second(it.optional('value', 2)); },
    area: it => {
        it.first(it.any('request_id'));
        it.second(it.any('page_number'));
        ['top', 'left', 'bottom', 'right'].forEach((side, i) => it.view.setUint32(TOP + 4 * i, Number(it.whole(side, 1, LARGEST_32)), true));
    },
    report: (it, a, b) => {
        it.first(it.whole(a, 0, 65535));
        it.second(it.whole(b, 0, 65535));
        it.view.setUint8(BUTTON, Number(it.named('button', 'MouseButton')));
        it.view.setUint16(MODIFIERS, Number(it.whole('modifiers', 0, 65535)), true);
    },
    state: it => { it.first(it.whole('flags', 0, 65535)); it.second(it.named('mode', 'KittyKeyboardMode')); },
    bits: it => it.first(it.whole('flags', 0, 65535)),
    extensions: it => it.list('attributes', 'DeviceAttributeCodes'),
    graphics: it => { it.first(it.named('item', 'XtSmGraphicsItem', LARGEST_64)); it.second(it.any('action_or_status')); it.list('value'); },
    path: it => { it.first(it.named('path', 'CharacterPath')); it.second(it.any('effect')); },
    unknown: it => {
        it.list('params');
        if (typeof it.action.control !== 'string' || [...it.action.control].length !== 1) throw it.wrong('control', 'one character');
        it.view.setUint32(4, it.action.control.codePointAt(0), true);
    },
};

/** The structs of actions, and those of their tokens, as bytes. */
export function rowsOf(actions) {
    const tokens = [], rows = [];
    for (const action of actions) rows.push(new Uint8Array(new Writer(action, tokens).view.buffer));
    const all = new Uint8Array(rows.length * ACTION_SIZE);
    rows.forEach((row, i) => all.set(row, i * ACTION_SIZE));
    return { rows: all, tokens: new Uint8Array(new BigInt64Array(tokens.flat()).buffer) };
}
