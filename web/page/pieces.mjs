// @ts-check
// What a program wrote, cut into lines that can be shown one by one.

const LONGEST = 4096;
const [NEWLINE, AMPERSAND, SEMICOLON, LESS, GREATER, SLASH] = Array.from('\n&;<>/', it => it.charCodeAt(0));

/** A list of numbers that grows. */
export class Numbers {
    #room = new Uint32Array(1024);
    length = 0;

    /** @param {number} n */
    push(n) {
        if (this.length === this.#room.length) {
            const wider = new Uint32Array(this.#room.length * 2);
            wider.set(this.#room);
            this.#room = wider;
        }
        this.#room[this.length++] = n;
    }

    get all() { return this.#room.subarray(0, this.length); }
}

/** @param {Uint8Array[]} parts */
export function joined(parts) {
    const all = new Uint8Array(parts.reduce((sum, part) => sum + part.length, 0));
    let at = 0;
    for (const part of parts) {
        all.set(part, at);
        at += part.length;
    }
    return all;
}

/**
 * Where each piece of some bytes begins, and at last where they end: behind each newline, and where a line is long.
 * With `markup` it is cut in no tag, no span and no reference.
 * @param {Uint8Array} bytes
 * @param {boolean} markup
 * @param {number} [longest]
 */
export function pieces(bytes, markup, longest = LONGEST) {
    const begins = new Numbers();
    begins.push(0);
    let from = 0;
    let inTag = false;
    let inSpan = false;
    let inReference = false;
    for (let i = 0; i < bytes.length; i++) {
        const byte = bytes[i];
        const isLong = i - from >= longest && !inTag && !inSpan && !inReference && (byte & 0xc0) !== 0x80;
        if (isLong && byte !== NEWLINE) begins.push(from = i);
        if (byte === NEWLINE) begins.push(from = i + 1);
        else if (!markup) continue;
        else if (byte === LESS) {
            inTag = true;
            inSpan = bytes[i + 1] !== SLASH;
        } else if (byte === GREATER) inTag = false;
        else if (byte === AMPERSAND) inReference = true;
        else if (byte === SEMICOLON) inReference = false;
    }
    if (from < bytes.length) begins.push(bytes.length);
    return begins.all.slice();
}

/**
 * @typedef {{ className: string, style: string, text: string }} Part A piece of a line, with its classes and true
 * colours.
 */

const MARKUP = /<span([^>]*)>|<[^>]*>|([^<]+)/g;
const REFERENCE = /&(?:#x([0-9a-f]+)|#(\d+)|(\w+));/gi;
/** @type {Record<string, string>} */
const REFERENCES = { amp: '&', lt: '<', gt: '>', quot: '"', apos: "'" };

/**
 * The parts of a line that `html --classes --fragment` wrote.
 * @param {string} line
 * @returns {Part[]}
 */
export function parts(line) {
    const found = [];
    let className = '';
    let style = '';
    for (const [all, attributes, text] of line.matchAll(MARKUP)) {
        if (text !== undefined) found.push({ className, style, text: plain(text) });
        else if (attributes !== undefined) {
            className = /class="([^"]*)"/.exec(attributes)?.[1] ?? '';
            style = /style="([^"]*)"/.exec(attributes)?.[1] ?? '';
        } else if (all === '</span>') [className, style] = ['', ''];
    }
    return found;
}

/** @param {string} text */
const plain = text => text.replace(REFERENCE, (_, hex, number, name) =>
    name ? REFERENCES[name] ?? '' : String.fromCodePoint(hex ? parseInt(hex, 16) : Number(number)));
