// @ts-check
// One search over bytes, names and words, and a chip for each name that the stream has.

import { $, $input, button, later, seldom } from './dom.mjs';
import { Numbers } from './pieces.mjs';
import { bytesOf, isWritten } from './text.mjs';

/** @typedef {import('./index.mjs').Index} Index */
/** @typedef {import('./engine.mjs').Engine} Engine */

const FEW = 12;
/** @type {Record<string, string>} */
const MEANS = {
    unknown: 'a whole sequence that no table has: a terminal passes it over, or knows more than this program',
    malformed: 'bytes that begin a sequence and are none: a control stands inside, or the end is missing',
    text: 'characters, and no control',
};

export class Filter {
    #engine;
    #blob = new Blob();
    /** @type {Index | undefined} */
    #index;
    /** @type {Set<string>} */
    #names = new Set();
    /** @type {Numbers | null} */
    #found = null;
    #isOpen = false;
    #isBusy = false;
    #changed;
    #redraw;

    /**
     * @param {Engine} engine
     * @param {(rows: Uint32Array | null) => void} changed is called with the rows that are left, or null: all
     */
    constructor(engine, changed) {
        this.#engine = engine;
        this.#changed = changed;
        this.#redraw = seldom(250, () => {
            this.#chips();
            this.#apply();
        });
        $('search').addEventListener('input', later(250, () => this.#search()));
    }

    get text() { return $input('search').value; }

    get names() { return [...this.#names]; }

    get isOn() { return Boolean(this.#names.size || this.#found); }

    get isBusy() { return this.#isBusy; }

    /**
     * @param {Blob} blob
     * @param {Index} index
     * @param {string} text
     * @param {string[]} names
     */
    begin(blob, index, text, names) {
        this.#blob = blob;
        this.#index = index;
        this.#names = new Set(names);
        this.#found = null;
        this.#isOpen = false;
        $input('search').value = text;
        this.#chips();
        if (text) this.#search();
    }

    /** More rows are there. */
    grown() { this.#redraw(); }

    clear() {
        this.#names.clear();
        $input('search').value = '';
        this.#search();
    }

    #apply() {
        if (!this.#index) return;
        this.#changed(this.isOn ? this.#index.rowsWith(this.#names, this.#found ? this.#found.all : null).slice() : null);
    }

    #search() {
        const text = this.text;
        this.#engine.cancel('find');
        this.#found = text ? new Numbers() : null;
        this.#isBusy = Boolean(text);
        this.#apply();
        if (!text) return;
        const wanted = isWritten(text) ? new TextDecoder().decode(bytesOf(text, true)) : text;
        const rows = this.#found;
        const add = (/** @type {Uint32Array} */ at) => {
            for (const place of at) {
                const row = this.#index?.rowAt(place) ?? 0;
                if (rows && (!rows.length || rows.all[rows.length - 1] !== row)) rows.push(row);
            }
            this.#redraw();
        };
        const ends = () => {
            if (rows !== this.#found) return;
            this.#isBusy = false;
            this.#apply();
        };
        // A stream that is indexed is looked through where that was done.
        if (this.#index?.isSaid) this.#engine.ask('index', { task: 'recall', wanted }).then(({ at }) => add(at)).then(ends);
        else this.#engine.ask('find', { task: 'find', blob: this.#blob, wanted }, ({ at }) => add(at)).then(ends);
    }

    /** @param {string} name */
    #press(name) {
        if (!this.#names.delete(name)) this.#names.add(name);
        this.#chips();
        this.#apply();
        // The chip was made anew.
        for (const it of $('chips').children) if (it instanceof HTMLElement && it.dataset.name === name) it.focus();
    }

    #chips() {
        const all = [...this.#index?.counts() ?? []];
        const isFirst = (/** @type {string} */ name) => name === 'unknown' || name === 'malformed' || this.#names.has(name);
        const sorted = [...all.filter(([name]) => isFirst(name)), ...all.filter(([name]) => !isFirst(name))];
        const shown = this.#isOpen ? sorted : sorted.slice(0, FEW);
        const chips = shown.map(([name, n]) => {
            const isBad = name === 'unknown' || name === 'malformed';
            const chip = button(`chip${isBad ? ' bad' : ''}`, `${name} ${n.toLocaleString('en')}`, () => this.#press(name));
            chip.dataset.name = name;
            chip.title = MEANS[name] ?? '';
            chip.setAttribute('aria-pressed', String(this.#names.has(name)));
            return chip;
        });
        if (all.length > FEW) {
            chips.push(button('chip more', this.#isOpen ? 'fewer' : `${all.length - FEW} more`, () => {
                this.#isOpen = !this.#isOpen;
                this.#chips();
            }));
        }
        $('chips').replaceChildren(...chips);
        const means = this.#names.size === 1 ? MEANS[this.names[0]] : undefined;
        $('means').textContent = means ? `${this.names[0]}: ${means}.` : '';
        $('means').hidden = !means;
    }
}
