// @ts-check
// Bytes as one writes them, and as they are shown.

/** @type {Record<string, number>} */
const LETTERS = { e: 27, E: 27, a: 7, b: 8, t: 9, n: 10, v: 11, f: 12, r: 13, '\\': 92 };
const ESCAPE =
    /\\(?:x([0-9a-fA-F]{2})|u([0-9a-fA-F]{4})|u\{([0-9a-fA-F]{1,6})\}|([0-3][0-7]{2})|([eEabtnvfr\\]))|\^\[|\u241b|[^]/gu;
const WRITTEN_ESC = /\\(?:[eE]|x1[bB]|x9[bB]|033|u001[bB]|u\{1[bB]\})|\^\[|\u241b/;
// Controls, and what is invisible or changes the order of a line.
const HIDDEN = /[\x00-\x1f\x7f-\x9f\xad\u061c\u200b-\u200f\u2028-\u202e\u2060-\u2069\ufeff]|[\u{e0000}-\u{e007f}]/gu;
/** @type {Record<string, string>} */
const SHOWN = { '\x1b': '\\e', '\n': '\\n', '\r': '\\r', '\t': '\\t', '\x07': '\\a', '\b': '\\b' };

const encoder = new TextEncoder();

/**
 * Whether a text has ESC as one writes it, and none as it is: then its escapes are read.
 * @param {string} text
 */
export const isWritten = text => !text.includes('\x1b') && WRITTEN_ESC.test(text);

/**
 * The bytes of a text with written escapes.
 * @param {string} text
 */
function read(text) {
    /** @type {number[]} */
    const out = [];
    for (const [all, hex, four, braced, octal, letter] of text.matchAll(ESCAPE)) {
        const scalar = parseInt(four ?? braced, 16);
        if (hex) out.push(parseInt(hex, 16));
        else if (octal) out.push(parseInt(octal, 8));
        else if (letter) out.push(LETTERS[letter]);
        else if (all === '^[' || all === '\u241b') out.push(27);
        else if (scalar <= 0x10ffff) out.push(...encoder.encode(String.fromCodePoint(scalar)));
        else out.push(...encoder.encode(all));
    }
    return new Uint8Array(out);
}

/**
 * The bytes of a text, whose escapes are read or stand as they are.
 * @param {string} text
 * @param {boolean} written
 */
export const bytesOf = (text, written) => written ? read(text) : encoder.encode(text);

/**
 * A text with what can't be seen written as escapes.
 * @param {string} text
 */
export const visible = text => text.replace(HIDDEN, it => {
    const scalar = it.codePointAt(0) ?? 0;
    return SHOWN[it] ?? (scalar < 0x80 ? `\\x${hex(scalar)}` : `\\u{${scalar.toString(16)}}`);
});

/**
 * Two digits for a byte.
 * @param {number} byte
 */
export const hex = byte => byte.toString(16).padStart(2, '0');

/**
 * @param {number} n
 * @param {string} word
 */
export const count = (n, word) => `${n.toLocaleString('en')} ${word}${n === 1 ? '' : 's'}`;

/** @param {number} bytes */
export const size = bytes =>
    bytes < 10_000 ? count(bytes, 'byte') : bytes < 1e6 ? `${(bytes / 1e3).toFixed(0)} KB` : `${(bytes / 1e6).toFixed(1)} MB`;
