// @ts-check
// From what is seen to the bytes that wrote it, and to the sequence that gave it its look; and back.

import { wordsOf } from './views.mjs';

/** @typedef {import('./index.mjs').Index} Index */
/** @typedef {import('./engine.mjs').Engine} Engine */
/** @typedef {import('./spans.mjs').Span} Span */

const STEP = 64;
const FURTHEST = 6400;
/**
 * Which actions give which looks.
 * @type {[RegExp, RegExp][]}
 */
const LOOKS = [
    [/\bfg-(?!background)|\bbg-foreground-|(?<!background-)(?<!decoration-)color:/, /^Sgr::Foreground/],
    [/\bbg-(?!foreground)|\bfg-background-|background-color:/, /^Sgr::Background/],
    [/fg-background|bg-foreground/, /^Sgr::Inverse/],
    [/\bbold\b|\bfaint\b/, /^Sgr::Intensity/],
    [/\bitalic\b/, /^Sgr::Italic/],
    [/\bunderline/, /^Sgr::Underline$/],
    [/\bline-|decoration-color:/, /^Sgr::UnderlineColor/],
    [/\bstrike\b/, /^Sgr::StrikeThrough/],
    [/\boverline\b/, /^Sgr::Overline/],
];

export class Origins {
    #engine;
    #blob;
    #index;
    #words;
    /** @type {Promise<Uint32Array> | undefined} */
    #lines;

    /**
     * @param {Engine} engine
     * @param {Blob} blob
     * @param {Index} index
     * @param {boolean} all whether all text is seen
     */
    constructor(engine, blob, index, all) {
        this.#engine = engine;
        this.#blob = blob;
        this.#index = index;
        // A colour is a number here, so each stays as it is.
        this.#words = [...wordsOf('seen', all), '--palette', 'xterm'];
    }

    /** Of each line that is seen, the line of the stream it came from. */
    #origins() {
        const task = { task: 'origins', blob: this.#blob, words: this.#words, rows: this.#index.some(0, this.#index.length) };
        this.#lines ??= this.#engine.ask('origins', task).then(it => it.origins);
        return this.#lines;
    }

    /**
     * A line of the stream, as the worker wants it.
     * @param {number} line
     */
    #line(line) {
        const { from, to } = this.#index.rowsOfLine(line);
        const begin = this.#index.placeOf(from);
        const blob = this.#blob.slice(begin, this.#index.endOf(to - 1));
        return { begin, blob, words: this.#words, rows: this.#index.some(from, to) };
    }

    /**
     * The row that wrote what stands at a place of a line that is seen, and the row that gave it its look; -1 if
     * there is none.
     * @param {import('./views.mjs').Picked} picked
     */
    async of({ line, place, whole, part }) {
        const origins = await this.#origins();
        const { begin, ...given } = this.#line(origins[line] ?? 0);
        const wanted = { near: line - origins.indexOf(origins[line] ?? 0), whole, place };
        const { at } = await this.#engine.ask('origins', { task: 'origin', ...given, wanted });
        const text = this.#index.rowAt(Math.max(begin, at));
        return { text, look: await this.#look(text, `${part.className} ${part.style}`) };
    }

    /**
     * The nearest row in front of one that gives a look.
     * @param {number} row
     * @param {string} look
     */
    async #look(row, look) {
        const wanted = LOOKS.filter(([seen]) => seen.test(look)).map(([, action]) => action);
        if (!wanted.length) return -1;
        const gives = (/** @type {Span} */ { actions = [] }) =>
            actions.some(({ action = '' }) => wanted.some(it => it.test(action)));
        for (let to = row; to > 0 && to > row - FURTHEST; to -= STEP) {
            const found = (await this.#index.spans(Math.max(0, to - STEP), to)).reverse().find(gives);
            if (found) return this.#index.rowAt(found.at);
        }
        return -1;
    }

    /**
     * The line that shows what a row wrote.
     * @param {number} row
     */
    async lineOf(row) {
        const origins = await this.#origins();
        const line = this.#index.lineOf(row);
        const found = await this.#engine.ask('origins', { task: 'line', ...this.#line(line), at: this.#index.placeOf(row) });
        return Math.max(0, origins.indexOf(line)) + Math.max(0, found.line);
    }
}
