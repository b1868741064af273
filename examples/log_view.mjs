// Shows a log with its styles, its lines numbered, and a word marked wherever it stands, also where the style changes within it.
//
//     node log_view.mjs FILE [WORD]
import { readFileSync } from 'node:fs';
import { Codec } from 'csicodec';

/** @typedef {import('csicodec').Action} Action */
/** @typedef {{ text: string, style: Action[] }} Piece text in one style: the attributes that are set */

const codec = await Codec.load();

/**
 * The lines of a log, each as pieces. What isn't text or an attribute doesn't show.
 * @param {Uint8Array} log
 * @returns {Generator<Piece[], void, undefined>}
 */
function* styledLines(log) {
    /** @type {Piece[]} */
    let line = [];
    /** @type {Map<string, Action>} */
    let style = new Map();
    for (const event of codec.events(log)) {
        if (event.type === 'Sgr.Reset') {
            style = new Map();
        } else if (event.type === 'Text') {
            const [first = '', ...others] = event.text.split('\n');
            line.push({ text: first, style: [...style.values()] });
            for (const text of others) {
                yield line;
                line = [{ text, style: [...style.values()] }];
            }
        } else if (event.type.startsWith('Sgr.')) {
            style.set(event.type, /** @type {Action} */ (event));
        }
    }
    if (line.some(piece => piece.text)) yield line;
}

/**
 * The pieces of a line, cut where the word begins and ends, which is inverted.
 * @param {Piece[]} line
 * @param {string} word
 * @returns {Generator<Piece, void, undefined>}
 */
function* marked(line, word) {
    const text = line.map(piece => piece.text).join('');
    /** @type {Set<number>} */
    const inside = new Set();
    for (let at = word ? text.indexOf(word) : -1; at >= 0; at = text.indexOf(word, at + word.length)) for (let i = 0; i < word.length; i++) inside.add(at + i);
    let at = 0;
    for (const { text: whole, style } of line) {
        for (let begin = 0, end = 1; end <= whole.length; end++) {
            const isMarked = inside.has(at + begin);
            if (end < whole.length && inside.has(at + end) === isMarked) continue;
            yield { text: whole.slice(begin, end), style: isMarked ? [...style, { type: 'Sgr.Inverse', value: true }] : style };
            begin = end;
        }
        at += whole.length;
    }
}

const [path = '', word = ''] = process.argv.slice(2), decoder = new TextDecoder();
let number = 0;
for (const line of styledLines(readFileSync(path))) {
    const shown = [...marked(line, word)].map(({ text, style }) => `${decoder.decode(codec.encodeCompact(style))}${codec.strip(text)}\x1b[m`);
    console.log(`${String(++number).padStart(6)}  ${shown.join('')}`);
}
