// @ts-check
// All spans of a stream, as few numbers: where each begins, and which names it has. Their words are asked for
// when they are shown.

import { Numbers } from './pieces.mjs';
import { lastUpTo } from './recording.mjs';

/** @typedef {import('./spans.mjs').Span} Span */
/** @typedef {import('./spans.mjs').Rows} Rows */
/** @typedef {import('./engine.mjs').Engine} Engine */

const MOST_KEPT = 4000;
const NEAR = 16;

export class Index {
    #at = new Numbers();
    #set = new Uint16Array(1024);
    #sets = /** @type {string[]} */ ([]);
    #counts = /** @type {number[]} */ ([]);
    #ends = new Numbers();
    #kept = /** @type {Map<number, Span>} */ (new Map());
    #wanted = /** @type {Set<number>} */ (new Set());
    #engine;
    #blob;
    isDone = false;
    /** Whether the worker that made it knows what its spans say. */
    isSaid = false;

    /**
     * @param {Engine} engine
     * @param {Blob} blob
     */
    constructor(engine, blob) {
        this.#engine = engine;
        this.#blob = blob;
    }

    get length() { return this.#at.length; }

    /** @param {Rows} rows */
    add({ at, set, sets }) {
        this.#sets.push(...sets);
        if (this.length + at.length > this.#set.length) {
            const wider = new Uint16Array(Math.max(this.#set.length * 2, this.length + at.length));
            wider.set(this.#set);
            this.#set = wider;
        }
        this.#set.set(set, this.length);
        const isEnd = this.#sets.map(it => it === 'LF' || it === 'CR LF');
        for (let i = 0; i < at.length; i++) {
            if (isEnd[set[i]]) this.#ends.push(this.length);
            this.#counts[set[i]] = (this.#counts[set[i]] ?? 0) + 1;
            this.#at.push(at[i]);
        }
    }

    /** @param {number} i */
    placeOf(i) { return this.#at.all[i]; }

    /** @param {number} i */
    endOf(i) { return i + 1 < this.length ? this.#at.all[i + 1] : this.#blob.size; }

    /**
     * The row that has a byte.
     * @param {number} place
     */
    rowAt(place) { return Math.max(0, lastUpTo(this.#at.all, place)); }

    /**
     * The first row that begins in a piece of the stream; if none does, the row that it is of.
     * @param {number} from
     * @param {number} to
     */
    rowIn(from, to) {
        const row = this.rowAt(from);
        const next = row + 1;
        return this.placeOf(row) < from && next < this.length && this.placeOf(next) < to ? next : row;
    }

    /** @param {number} i */
    namesOf(i) { return this.#sets[this.#set[i]].split('\n'); }

    /** How many spans have each name. */
    counts() {
        /** @type {Map<string, number>} */
        const counts = new Map();
        this.#sets.forEach((names, i) => {
            for (const name of new Set(names.split('\n'))) counts.set(name, (counts.get(name) ?? 0) + (this.#counts[i] ?? 0));
        });
        return new Map([...counts].filter(([, n]) => n).sort((a, b) => b[1] - a[1]));
    }

    /**
     * The rows that have one of some names.
     * @param {Set<string>} names
     * @param {ArrayLike<number> | null} among rows, or all
     */
    rowsWith(names, among) {
        const has = this.#sets.map(set => !names.size || set.split('\n').some(name => names.has(name)));
        const rows = new Numbers();
        const n = among ? among.length : this.length;
        for (let i = 0; i < n; i++) {
            const row = among ? among[i] : i;
            if (has[this.#set[row]]) rows.push(row);
        }
        return rows.all;
    }

    /**
     * The next row from here on with a name that has this text.
     * @param {number} from
     * @param {string} text
     */
    nextNamed(from, text) {
        const small = text.toLowerCase();
        const has = this.#sets.map(set => set.toLowerCase().includes(small));
        for (let i = from; i < this.length; i++) if (has[this.#set[i]]) return i;
        return -1;
    }

    /**
     * The rows of a line of the stream, from one line end to the next.
     * @param {number} line
     */
    rowsOfLine(line) {
        const from = line ? this.#ends.all[line - 1] + 1 : 0;
        return { from, to: line < this.#ends.length ? this.#ends.all[line] + 1 : this.length };
    }

    /**
     * The line of a row.
     * @param {number} row
     */
    lineOf(row) { return lastUpTo(this.#ends.all, row - 1) + 1; }

    /**
     * Some rows as a worker takes them: where each begins, the number of its set of names, and which sets these are.
     * @param {number} from
     * @param {number} to
     * @returns {import('./marks.mjs').Rows}
     */
    some(from, to) {
        return { at: this.#at.all.slice(from, to), set: this.#set.slice(from, to), sets: this.#sets };
    }

    /**
     * The words of a row, if they are there; else they are asked for, and `told` is called once some are.
     * @param {number} i
     * @param {() => void} told
     */
    spanOf(i, told) {
        const span = this.#kept.get(i);
        if (span || !(this.isDone || i + 1 < this.length)) return span;
        if (!this.#wanted.size) queueMicrotask(() => this.#fetch(told));
        this.#wanted.add(i);
        return undefined;
    }

    /**
     * The words of some rows, one behind the other.
     * @param {number} from
     * @param {number} to
     * @returns {Promise<Span[]>}
     */
    async spans(from, to) {
        if (from >= to) return [];
        const ranges = [[this.placeOf(from), this.endOf(to - 1)]];
        return (await this.#engine.ask('words', { task: 'explain', blob: this.#blob, ranges })).spans;
    }

    /** @param {() => void} told */
    async #fetch(told) {
        const rows = [...this.#wanted].sort((a, b) => a - b);
        this.#wanted.clear();
        /** @type {[number, number][]} */
        const ranges = [];
        for (const row of rows) {
            const last = ranges[ranges.length - 1];
            if (last && row - last[1] < NEAR) last[1] = row;
            else ranges.push([row, row]);
        }
        if (this.#kept.size > MOST_KEPT) this.#kept.clear();
        await this.#keep(ranges);
        // A text that came in two pieces is one where it is read at once: the second piece is then asked for alone.
        const alone = rows.filter(row => !this.#kept.has(row));
        await this.#keep(alone.map(row => [row, row]));
        for (const row of alone) {
            if (!this.#kept.has(row)) this.#kept.set(row, { at: this.placeOf(row), kind: 'malformed', text: '' });
        }
        told();
    }

    /**
     * Asks for the words of some rows, and keeps them.
     * @param {[number, number][]} ranges of rows, each with its last
     */
    async #keep(ranges) {
        if (!ranges.length) return;
        const bytes = ranges.map(([from, to]) => [this.placeOf(from), this.endOf(to)]);
        const { spans } = await this.#engine.ask('words', { task: 'explain', blob: this.#blob, ranges: bytes });
        for (const span of spans) {
            const row = this.rowAt(span.at);
            if (this.placeOf(row) === span.at) this.#kept.set(row, span);
        }
    }
}
