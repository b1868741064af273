// @ts-check
// The reference card: a sequence, as one types it, what it does, its row of the tables, its document, and where terminals differ.

import { $, $input, element, later } from './dom.mjs';
import { bytesOf, count, isWritten, visible } from './text.mjs';

/** @typedef {import('./engine.mjs').Engine} Engine */
/**
 * @typedef {{ text: string, name: string, words: string, source: string }} Row `text` is a sequence, or the form of
 * many.
 */
/** @typedef {{ examples: string[][], forms: string[][], differences: string[][] }} Tables */

const MOST = 60;
/** @type {Record<string, string>} */
const BEGINS = { CSI: '[', OSC: ']', DCS: 'P', APC: '_', PM: '^', SOS: 'X', ESC: '', SS2: 'N', SS3: 'O' };
const decoder = new TextDecoder();

/**
 * The sequence that was typed: by its name in the standard and what follows, or by its bytes; none, if it is another
 * text.
 * @param {string} text
 */
function sequenceOf(text) {
    if (isWritten(text)) return decoder.decode(bytesOf(text, true));
    if (text.includes('\x1b')) return text;
    const [, begin, rest] = /^(CSI|OSC|DCS|APC|PM|SOS|ESC|SS2|SS3)\b\s*(.*)$/is.exec(text.trim()) ?? [];
    if (!begin) return undefined;
    const isString = /OSC|DCS|APC|PM|SOS/i.test(begin);
    const body = isString ? rest.replace(/\s*(BEL|ST)$/i, '') : rest.replace(/\s+/g, '').replaceAll('SP', ' ');
    return `\x1b${BEGINS[begin.toUpperCase()]}${body}${isString ? '\x1b\\' : ''}`;
}

/**
 * What sequences of one kind have in common.
 * @param {string} sequence
 */
function shapeOf(sequence) {
    const csi = /^\x1b\[([<=>?]?)[\d;:]*([ -/]*)([@-~])$/.exec(sequence);
    if (csi) return `CSI ${csi[1]}${csi[2]}${csi[3]}`;
    const osc = /^\x1b\](\d*)/.exec(sequence);
    if (osc) return `OSC ${osc[1]}`;
    const dcs = /^\x1bP([<=>?]?)[\d;]*([ -/]*[@-~])?/.exec(sequence);
    return dcs ? `DCS ${dcs[1]}${dcs[2] ?? ''}` : sequence;
}

/**
 * A form's parts: `? extent 0-2 (or 0) K`.
 * @param {string} form
 */
function formOf(form) {
    const [, prefix, rest] = /^([<=>?]?)\s*(.*)$/.exec(form) ?? ['', '', form];
    const [last, end] = /(?:^|\s)((?:(?:SP|[!-/])\s)*[@-~])$/.exec(rest) ?? [rest, rest];
    const middle = rest.slice(0, rest.length - last.length);
    const numbers = middle.split(';').map(it => it.trim()).filter(Boolean).map(it => {
        const [, literal] = /^(\d+)(?: \(or 0\))?$/.exec(it) ?? [];
        const [, low, high] = / (\d+)-(\d*)/.exec(it) ?? [];
        const [, or] = / \(or (\d+)\)/.exec(it) ?? [];
        return { low: Number(literal ?? low ?? 0), high: Number(literal ?? (high || Infinity)), or, isMany: it.includes('..') };
    });
    return { prefix, end: end.replaceAll(' ', '').replaceAll('SP', ' '), numbers };
}

/**
 * Whether a sequence is one of a form.
 * @param {string} sequence
 * @param {string} form
 */
function fits(sequence, form) {
    const [, prefix, list, end] = /^\x1b\[([<=>?]?)([\d;]*)([ -/]*[@-~])$/.exec(sequence) ?? [];
    const wanted = formOf(form);
    if (end === undefined || prefix !== wanted.prefix || end !== wanted.end) return false;
    const given = list ? list.split(';') : [];
    const isMany = wanted.numbers.some(it => it.isMany);
    return (given.length <= wanted.numbers.length || isMany) && wanted.numbers.every(({ low, high, or, isMany }, i) => {
        const number = given[i] || or;
        return number === undefined ? isMany : Number(number) >= low && Number(number) <= high;
    });
}

/**
 * The address of a form: an example of it.
 * @param {string} form
 */
function exampleOf(form) {
    const { prefix, end, numbers } = formOf(form);
    return `CSI ${prefix}${numbers.map(it => it.low).join(';')}${end.replace(' ', ' SP ')}`;
}

export class Reference {
    #engine;
    #tables;
    #changed;
    #asked = 0;

    /**
     * @param {Engine} engine
     * @param {Tables} tables
     * @param {(text: string) => void} changed is called with what is shown
     */
    constructor(engine, tables, changed) {
        this.#engine = engine;
        this.#tables = tables;
        this.#changed = changed;
        $('seq').addEventListener('input', later(200, () => this.show($input('seq').value)));
    }

    /** @param {string} text */
    async show(text) {
        if ($input('seq').value !== text) $input('seq').value = text;
        this.#changed(text);
        const asked = ++this.#asked;
        const sequence = sequenceOf(text);
        const told = sequence === undefined ? [] : await this.#said(sequence);
        if (asked !== this.#asked) return;
        const rows = this.#rows(text.trim(), sequence);
        $('card').replaceChildren(...told, ...this.#differences(sequence), table(rows));
    }

    /**
     * What the program says of a sequence.
     * @param {string} sequence
     */
    async #said(sequence) {
        const blob = new Blob([sequence]);
        const { spans } = await this.#engine.ask('reference', { task: 'explain', blob, ranges: [[0, blob.size]] });
        return spans.map(said);
    }

    /** @param {string | undefined} sequence */
    #differences(sequence) {
        if (!sequence) return [];
        const shape = shapeOf(sequence);
        const isOf = (/** @type {string} */ texts) =>
            [...texts.matchAll(/`([^`]+)`/g)].some(([, it]) => shapeOf(sequenceOf(it) ?? '') === shape);
        const rows = this.#tables.differences.filter(([texts]) => isOf(texts)).map(row => row.map(it => it.replaceAll('`', '')));
        if (!rows.length) return [];
        const lines = rows.map(([texts, here, terminals]) =>
            element('p', '', element('code', '', texts), ` here: ${here}; terminals: ${terminals}`));
        return [element('section', 'differs', element('h3', '', 'Where terminals differ'), ...lines)];
    }

    /**
     * @param {string} text
     * @param {string | undefined} sequence
     * @returns {Row[]}
     */
    #rows(text, sequence) {
        const forms = this.#tables.forms.map(([name, form, words, source]) =>
            ({ text: `CSI ${form}`, to: exampleOf(form), form, name, words, source }));
        const examples = this.#tables.examples.map(([text, name, words, source]) =>
            ({ text, to: text, form: '', name, words, source }));
        if (sequence === undefined) {
            const small = text.toLowerCase();
            return [...examples, ...forms].filter(it => `${it.name} ${it.words} ${it.text}`.toLowerCase().includes(small));
        }
        const shape = shapeOf(sequence);
        const written = visible(sequence);
        const isSame = (/** @type {string} */ it) => it === written || it.replace('\\x07', '\\e\\\\') === written;
        const exact = [...examples.filter(it => isSame(it.text)), ...forms.filter(it => fits(sequence, it.form))];
        const near = [...examples, ...forms].filter(it => shapeOf(sequenceOf(it.to) ?? '') === shape);
        return [...new Set([...exact, ...near])];
    }
}

/**
 * What the program says of a span.
 * @param {import('./spans.mjs').Span} span
 */
function said({ text = '', kind, actions = [] }) {
    const lines = actions.map(({ name, words, action, ...fields }) => {
        const line = element('p', '', element('strong', '', visible(name ?? kind)), ` ${visible(words ?? '')}`);
        const given = Object.keys(fields).length ? JSON.stringify(fields) : '';
        if (action) line.append(element('br', ''), element('code', 'soft', visible(`${action} ${given}`)));
        return line;
    });
    return element('section', 'said', element('code', 'big', visible(text)), ...lines);
}

/** @param {(Row & { to?: string })[]} rows */
function table(rows) {
    const body = element('tbody', '', ...rows.slice(0, MOST).map(({ text, to = text, name, words, source }) => {
        const link = element('a', '', element('code', '', text));
        link.href = `#${new URLSearchParams({ seq: to })}`;
        const cells = [link, name, words, source].map(it => element('td', '', it));
        cells[1].className = 'name';
        cells[3].className = 'soft';
        return element('tr', '', ...cells);
    }));
    const head = ['sequence', 'name', 'what it does', 'document'].map(it => {
        const cell = element('th', '', it);
        cell.scope = 'col';
        return cell;
    });
    const caption = `${count(rows.length, 'row')} of the tables${rows.length > MOST ? `, of which the first ${MOST} are shown` : ''}`;
    if (!rows.length) return element('p', '', 'No row has this. Type a name (DECTCEM), a sequence (CSI ? 25 h) or bytes (\\e[?25h).');
    return element('table', '', element('caption', '', caption), element('thead', '', element('tr', '', ...head)), body);
}
