// @ts-check
// What the program writes of a stream, as lines: with colours, as plain text, or in a shorter form.

import { $, element } from './dom.mjs';
import { parts } from './pieces.mjs';
import { visible } from './text.mjs';
import { Windowed } from './windowed.mjs';

/** @typedef {'seen' | 'plain' | 'shorter'} View */
/** @typedef {{ bytes: Uint8Array, begins: Uint32Array }} Written */

/**
 * @typedef {{ line: number, place: number, whole: string, part: import('./pieces.mjs').Part }} Picked A place in a
 * line, and its look.
 */

const LONGEST = 20_000;
const decoder = new TextDecoder();

const HTML = ['html', '--classes', '--fragment'];
/**
 * The program's words for each view: each line at its end, or all text.
 * @type {Record<View, { ends: string[], all: string[] }>}
 */
const WORDS = {
    seen: { ends: HTML, all: [...HTML, '--no-overwrite'] },
    plain: { ends: ['strip', '--overwrite'], all: ['strip'] },
    shorter: { ends: ['compact'], all: ['compact'] },
};

/**
 * @param {View} view
 * @param {boolean} all
 */
export const wordsOf = (view, all) => WORDS[view][all ? 'all' : 'ends'];

export class Lines {
    /** @type {Written | undefined} */
    #written;
    /** @type {View} */
    #view = 'seen';
    #marked = -1;
    #rows;
    #root;

    /** @param {(picked: Picked) => void} picked is called with what was clicked */
    constructor(picked) {
        const scroller = $('lines');
        this.#root = scroller.attachShadow({ mode: 'open' });
        const own = new CSSStyleSheet();
        own.replaceSync(`* { box-sizing: border-box }
            .space { position: relative; min-width: 100%; width: max-content }
            .line {
                position: absolute; min-width: 100%; height: var(--line); line-height: var(--line); padding: 0 .75rem;
                white-space: pre; unicode-bidi: isolate;
            }
            .line.marked { background: var(--chosen) }
            span { cursor: pointer }
            span.more { font-style: italic; opacity: .7 }`);
        this.#root.adoptedStyleSheets = [own];
        this.#rows = new Windowed(scroller, this.#root, '--line', i => this.#line(i));
        scroller.addEventListener('click', event => {
            const at = /** @type {HTMLElement | undefined} */ (event.composedPath()[0]);
            const row = at?.closest?.('.line');
            if (this.#view !== 'seen' || at?.tagName !== 'SPAN' || !(row instanceof HTMLElement)) return;
            if (getSelection()?.toString()) return;
            let place = 0;
            for (let it = at.previousElementSibling; it; it = it.previousElementSibling) place += (it.textContent ?? '').length;
            const part = { className: at.className, style: at.style.cssText, text: at.textContent ?? '' };
            picked({ ...this.#lineOf(Number(row.dataset.line), place), part });
        });
    }

    /**
     * The rules of the program's own style sheet.
     * @param {string} text
     */
    set sheet(text) {
        const sheet = new CSSStyleSheet();
        sheet.replaceSync(text);
        this.#root.adoptedStyleSheets = [...this.#root.adoptedStyleSheets, sheet];
    }

    /** How many bytes the program wrote. */
    get size() { return this.#written?.bytes.length ?? 0; }

    get count() { return Math.max(0, (this.#written?.begins.length ?? 0) - 1); }

    /**
     * @param {View} view
     * @param {Written | undefined} written
     */
    show(view, written) {
        this.#view = view;
        this.#written = written;
        this.#marked = -1;
        $('lines').scrollTop = 0;
        this.#rows.refresh();
        this.#rows.count = this.count;
    }

    /**
     * Shows a line, and marks it.
     * @param {number} line
     */
    mark(line) {
        this.#marked = 0;
        for (let left = line; left && this.#marked + 1 < this.count; this.#marked++) if (this.#isEnd(this.#marked)) left--;
        this.#rows.refresh();
        this.#rows.show(this.#marked, 'middle');
    }

    /**
     * Whether a piece ends with its line.
     * @param {number} i
     */
    #isEnd(i) {
        const { bytes, begins } = /** @type {Written} */ (this.#written);
        return bytes[begins[i + 1] - 1] === 10;
    }

    /**
     * The line that a piece is of, the place in it, and its whole text.
     * @param {number} piece
     * @param {number} place
     */
    #lineOf(piece, place) {
        const text = (/** @type {number} */ i) => parts(this.textOf(i)).map(it => it.text).join('');
        let from = piece;
        while (from && !this.#isEnd(from - 1)) place += text(--from).length;
        let line = 0;
        for (let i = 0; i < from; i++) if (this.#isEnd(i)) line++;
        let whole = '';
        for (let i = from; i < this.count && (i === from || !this.#isEnd(i - 1)); i++) whole += text(i);
        return { line, place, whole };
    }

    /** @param {number} i */
    textOf(i) {
        const { bytes, begins } = /** @type {Written} */ (this.#written);
        const text = decoder.decode(bytes.subarray(begins[i], Math.min(begins[i + 1], begins[i] + LONGEST)));
        return this.#view === 'shorter' ? visible(text) : text.replace(/\n$/, '');
    }

    /** @param {number} i */
    #line(i) {
        const text = this.textOf(i);
        const row = element('div', `line${i === this.#marked ? ' marked' : ''}`);
        row.dataset.line = String(i);
        if (this.#view !== 'seen') row.textContent = text;
        else for (const { className, style, text: shown } of parts(text)) {
            const span = element('span', className, shown);
            // By the object, since the page's policy takes no style from markup.
            span.style.cssText = style;
            row.append(span);
        }
        return row;
    }
}
