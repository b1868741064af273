// @ts-check
// Which bytes wrote what is seen. `html` is run again over the same stream with its colours taken out, and in front of
// each character, or of each line, a colour that is its number: what a line shows at its end tells by its colour where
// it came from.

import { parts } from './pieces.mjs';

const encoder = new TextEncoder();
const decoder = new TextDecoder();
// The longest mark: \e[38;2;255;255;255m.
const MARK = 19;
// As much of a line as has its first mark.
const FRONT = 500;

/**
 * @typedef {{ at: Uint32Array, set: Uint16Array, sets: string[] }} Rows Some rows one behind the other, and their
 * names.
 */

/**
 * The number of a colour; none, if there is none.
 * @param {string} style
 */
function numberOf(style) {
    const digits = /color:#([0-9a-f]{6})/i.exec(style)?.[1];
    return digits === undefined ? -1 : parseInt(digits, 16);
}

/** Bytes that are put together, with marks between. */
class Marked {
    #bytes;
    #length = 0;

    /** @param {number} most */
    constructor(most) { this.#bytes = new Uint8Array(most); }

    /** @param {Uint8Array} bytes */
    put(bytes) {
        this.#bytes.set(bytes, this.#length);
        this.#length += bytes.length;
    }

    /**
     * The sequence that gives a number as a colour.
     * @param {number} n
     */
    mark(n) { this.put(encoder.encode(`\x1b[38;2;${n >> 16};${n >> 8 & 255};${n & 255}m`)); }

    get all() { return this.#bytes.subarray(0, this.#length); }
}

/**
 * The stream with a mark at the begin of each of its lines, and no other colours.
 * @param {Uint8Array} bytes of these rows
 * @param {Rows} rows
 */
export function markedLines(bytes, { at, set, sets }) {
    const isStyle = sets.map(it => it === 'SGR');
    const isEnd = sets.map(it => it === 'LF' || it === 'CR LF');
    const lines = set.reduce((n, it) => n + Number(isEnd[it]), 1);
    const out = new Marked(bytes.length + MARK * lines);
    out.mark(0);
    // What is not a style is copied in one piece, up to the line's end.
    let from = 0;
    let line = 0;
    for (let i = 0; i < at.length; i++) {
        const begin = at[i] - at[0];
        const end = i + 1 < at.length ? at[i + 1] - at[0] : bytes.length;
        if (isStyle[set[i]]) {
            out.put(bytes.subarray(from, begin));
            from = end;
        } else if (isEnd[set[i]]) {
            out.put(bytes.subarray(from, end));
            out.mark(++line);
            from = end;
        }
    }
    out.put(bytes.subarray(from));
    return out.all;
}

/**
 * The stream with a mark in front of each character, and where each stands.
 * @param {Uint8Array} bytes of these rows
 * @param {Rows} rows
 */
export function markedCharacters(bytes, { at, set, sets }) {
    const out = new Marked(bytes.length * (MARK + 1));
    const places = [];
    for (let i = 0; i < at.length; i++) {
        const begin = at[i] - at[0];
        const end = i + 1 < at.length ? at[i + 1] - at[0] : bytes.length;
        const names = sets[set[i]];
        if (names !== 'text' && names !== 'SGR') out.put(bytes.subarray(begin, end));
        if (names !== 'text') continue;
        for (let from = begin, to = begin + 1; from < end; from = to++) {
            while (to < end && (bytes[to] & 0xc0) === 0x80) to++;
            out.mark(places.length);
            out.put(bytes.subarray(from, to));
            places.push(at[0] + from);
        }
    }
    return { marked: out.all, places };
}

/**
 * Of each line that `html` wrote of marked lines, the number of the line of the stream that its first character came
 * from.
 * @param {Uint8Array} html
 * @param {Uint32Array} begins
 */
export function originsOfLines(html, begins) {
    const origins = new Uint32Array(Math.max(0, begins.length - 1));
    for (let i = 0, last = 0; i < origins.length; i++) {
        const line = decoder.decode(html.subarray(begins[i], Math.min(begins[i + 1], begins[i] + FRONT)));
        const first = parts(line).find(it => numberOf(it.style) >= 0);
        if (first) last = numberOf(first.style);
        origins[i] = last;
    }
    return origins;
}

/**
 * The number of the character that stands at a place of a line, of all lines that `html` wrote of marked characters.
 * What stands in front of them may make the lines more or fewer: the line has the text that is wanted, and is the
 * nearest to where it is thought to be.
 * @param {string[]} lines
 * @param {{ near: number, whole: string, place: number }} wanted
 */
export function originAt(lines, { near, whole, place }) {
    let best = '';
    let distance = Infinity;
    lines.forEach((line, i) => {
        if (Math.abs(i - near) >= distance || parts(line).map(it => it.text).join('') !== whole) return;
        [best, distance] = [line, Math.abs(i - near)];
    });
    let at = 0;
    let last = -1;
    for (const { style, text } of parts(best)) {
        if (numberOf(style) >= 0) last = numberOf(style);
        at += text.length;
        if (at > place && last >= 0) break;
    }
    return last;
}

/**
 * The line that has the character with a number.
 * @param {string[]} lines
 * @param {number} number
 */
export const lineWith = (lines, number) => lines.findIndex(line => parts(line).some(it => numberOf(it.style) === number));
