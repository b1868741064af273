// @ts-check
// The stream in words: a row for each span, and all of one beside them.

import { $, element, seldom } from './dom.mjs';
import { count, hex, visible } from './text.mjs';
import { lastUpTo } from './recording.mjs';
import { Windowed } from './windowed.mjs';

/** @typedef {import('./spans.mjs').Span} Span */
/** @typedef {import('./index.mjs').Index} Index */
/** @typedef {import('./recording.mjs').Times} Times */

const LONGEST = 300;
/** @type {Record<string, string>} */
const CLASSES = { csi: 'csi', escape: 'esc', string: 'string', control: 'control', text: 'text' };

/**
 * The bytes of a span as one reads them.
 * @param {Span} span
 * @param {number} [most]
 */
export function bytesOf(span, most = LONGEST) {
    const { text, hex: digits = '' } = span;
    const shown = text === undefined ? digits.slice(0, 2 * most).replace(/../g, '\\x$&') : visible(text.slice(0, most));
    const isCut = (text?.length ?? digits.length / 2) > most;
    return `${span.kind === 'text' ? `"${shown}"` : shown}${isCut ? ' ..' : ''}`;
}

/**
 * A span's actions; of one that has none, its name.
 * @param {Span} span
 * @param {number} length
 */
function actionsOf(span, length) {
    if (span.actions?.length) return span.actions;
    return [{ name: span.name ?? span.kind, words: span.words ?? (span.kind === 'text' ? count(length, 'byte') : '') }];
}

/** @param {number} seconds */
export const clock = seconds => `${seconds.toFixed(3)} s`;

/**
 * What someone looks for: a place, a time, or a name.
 * @param {string} text
 */
function sought(text) {
    const [, minutes, seconds] = /^(?:(\d+):)?(\d+(?:\.\d+)?)\s*(?:s)?$/.exec(text) ?? [];
    if (/^(0x[0-9a-f]+|\d+)$/i.test(text)) return { place: Number(text) };
    if (seconds !== undefined) return { time: Number(minutes ?? 0) * 60 + Number(seconds) };
    return text ? { name: text } : undefined;
}

export class Words {
    /** @type {Index | undefined} */
    #index;
    /** @type {Times | null} */
    #times = null;
    /** @type {Uint32Array | null} */
    #shown = null;
    #selected = -1;
    #rows;
    #chosen;
    #redraw;

    /** @param {(i: number) => void} chosen is called with each row that is selected */
    constructor(chosen) {
        this.#chosen = chosen;
        this.#rows = new Windowed($('list'), $('list'), '--row', i => this.#row(i));
        this.#redraw = seldom(30, () => {
            this.#rows.refresh(i => this.#rows.row(i)?.classList.contains('waiting') ?? false);
            this.#detail();
        });
        $('list').addEventListener('click', event => {
            const row = /** @type {Element} */ (event.target).closest('[data-row]');
            if (row) this.select(Number(/** @type {HTMLElement} */ (row).dataset.row), 'near');
        });
        $('words').addEventListener('keydown', event => this.key(event));
    }

    /** The row that is selected; -1: none. */
    get selected() { return this.#selected; }

    /** How many rows there are to see. */
    get count() { return this.#rows.count; }

    /**
     * @param {Index} index
     * @param {Times | null} times
     */
    begin(index, times) {
        this.#index = index;
        this.#times = times;
        this.#shown = null;
        this.#selected = -1;
        $('words').classList.toggle('timed', Boolean(times));
        $('list').scrollTop = 0;
        this.#rows.refresh();
        this.changed();
    }

    /**
     * Shows some rows, or all.
     * @param {Uint32Array | null} rows
     */
    filter(rows) {
        this.#shown = rows;
        this.changed();
        this.#rows.refresh();
    }

    /** More rows are there. */
    changed() {
        const count = this.#shown ? this.#shown.length : this.#index?.length ?? 0;
        this.#rows.count = count;
        $('words').setAttribute('aria-rowcount', String(this.#index?.isDone ? count + 1 : -1));
        this.#redraw();
    }

    /**
     * The place in the list of a row, or of the one ahead of it.
     * @param {number} row
     */
    #positionOf(row) { return this.#shown ? lastUpTo(this.#shown, row) : row; }

    /** @param {number} position */
    #rowOf(position) { return this.#shown ? this.#shown[position] : position; }

    /**
     * @param {number} row
     * @param {'near' | 'first' | 'middle'} how
     */
    select(row, how = 'middle') {
        const before = this.#positionOf(this.#selected);
        this.#selected = row;
        const now = this.#positionOf(row);
        this.#rows.show(Math.max(0, now), how);
        this.#rows.refresh(i => i === before || i === now);
        $('words').setAttribute('aria-activedescendant', `row-${row}`);
        this.#detail();
        this.#chosen(row);
    }

    /**
     * Moves through the list.
     * @param {number} by
     */
    move(by) {
        if (!this.#rows.count) return;
        const from = this.#selected < 0 ? by > 0 ? -1 : 0 : this.#positionOf(this.#selected);
        const to = Math.max(0, Math.min(this.#rows.count - 1, from + by));
        this.select(this.#rowOf(to), 'near');
    }

    /** @param {KeyboardEvent} event */
    key(event) {
        const page = this.#rows.visible;
        /** @type {Record<string, number>} */
        const steps = { j: 1, ArrowDown: 1, k: -1, ArrowUp: -1, PageDown: page, PageUp: -page, Home: -Infinity, End: Infinity };
        const step = steps[event.key];
        if (!step || event.ctrlKey || event.metaKey || event.altKey || event.target instanceof HTMLInputElement) return;
        event.preventDefault();
        event.stopPropagation();
        this.move(Math.max(-this.#rows.count, Math.min(this.#rows.count, step)));
    }

    /**
     * Goes to a place, a time or a name, and says whether there is such.
     * @param {string} text
     */
    go(text) {
        const index = this.#index;
        const what = sought(text.trim());
        if (!index?.length || !what) return false;
        let row = what.place === undefined ? -1 : index.rowAt(what.place);
        if (what.time !== undefined && this.#times) return this.goToEvent(Math.max(0, lastUpTo(this.#times.time, what.time)));
        if (what.name) {
            row = index.nextNamed(this.#selected + 1, what.name);
            if (row < 0) row = index.nextNamed(0, what.name);
        }
        if (row < 0) return false;
        this.select(row);
        return true;
    }

    /**
     * Goes to what came in one event of the recording.
     * @param {number} event
     */
    goToEvent(event) {
        if (!this.#index?.length || !this.#times) return false;
        const { at } = this.#times;
        this.select(this.#index.rowIn(at[event], at[event + 1] ?? Infinity));
        return true;
    }

    /** @param {number} place */
    #timeOf(place) { return this.#times ? this.#times.time[Math.max(0, lastUpTo(this.#times.at, place))] : undefined; }

    /** @param {number} i */
    #row(i) {
        const index = /** @type {Index} */ (this.#index);
        const number = this.#rowOf(i);
        const place = index.placeOf(number);
        const span = index.spanOf(number, this.#redraw);
        const time = this.#timeOf(place);
        const when = time === undefined ? '' : clock(time);
        const cells = [element('span', 'at', place.toLocaleString('en')), element('span', 'time', when)];
        const unsaid = index.namesOf(number).map(name => ({ name, words: '' }));
        const actions = span ? actionsOf(span, index.endOf(number) - place) : unsaid;
        const names = [...new Set(actions.map(it => it.name ?? ''))].join(', ');
        const words = actions.map(it => it.words || (it.name === 'unknown' ? 'no table has it' : '')).join(' · ');
        cells.push(
            element('span', `bytes ${span ? CLASSES[span.kind] ?? 'bad' : ''}`, span ? bytesOf(span) : '..'),
            element('span', 'name', visible(names)),
            element('span', `what${names === 'unknown' || names === 'malformed' ? ' bad' : ''}`, visible(words)),
        );
        for (const cell of cells) cell.setAttribute('role', 'gridcell');
        const row = element('div', `line${span ? '' : ' waiting'}${number === this.#selected ? ' selected' : ''}`, ...cells);
        row.id = `row-${number}`;
        row.dataset.row = String(number);
        row.setAttribute('role', 'row');
        row.setAttribute('aria-rowindex', String(i + 2));
        row.setAttribute('aria-selected', String(number === this.#selected));
        return row;
    }

    /** All of the row that is selected. */
    #detail() {
        const index = this.#index;
        const span = index && this.#selected >= 0 ? index.spanOf(this.#selected, this.#redraw) : undefined;
        $('detail').hidden = !span;
        if (!index || !span) return;
        const end = index.endOf(this.#selected);
        const time = this.#timeOf(span.at);
        const last = (end - 1).toLocaleString('en');
        const first = span.at.toLocaleString('en');
        const place = end - span.at === 1 ? `byte ${first}` : `bytes ${first} to ${last}`;
        const when = time === undefined ? '' : `, at ${clock(time)}`;
        $('detail-place').textContent = `${place}${when} · ${kindOf(span)}`;
        $('detail-bytes').textContent = bytesOf(span, 4000);
        $('detail-hex').textContent = hexOf(span);
        $('detail-actions').replaceChildren(...actionsOf(span, end - span.at).flatMap(({ name, words, action, ...fields }) => [
            element('dt', '', visible(name ?? '')),
            element('dd', '', visible(words ?? ''), element('code', 'soft', action ? visible(`${action} ${fieldsOf(fields)}`) : '')),
        ]));
    }
}

/** @param {Span} span */
function kindOf({ kind }) {
    /** @type {Record<string, string>} */
    const kinds = { csi: 'control sequence', escape: 'escape sequence', string: 'control string', control: 'control character' };
    return kinds[kind] ?? kind;
}

/** @param {Span} span */
function hexOf({ text, hex: digits }) {
    const all = digits ?? Array.from(new TextEncoder().encode((text ?? '').slice(0, 64)), hex).join('');
    const shown = (all.slice(0, 96).match(/../g) ?? []).join(' ');
    return all.length > 96 ? `${shown} ..` : shown;
}

/** @param {object} fields */
const fieldsOf = fields => Object.keys(fields).length ? JSON.stringify(fields).slice(0, 400) : '';

