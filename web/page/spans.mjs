// @ts-check
// What `explain --json` says, line by line: an index of all spans, their words, and which have a text.

/** @typedef {{ name?: string, words?: string, action?: string, [field: string]: unknown }} Action */
/**
 * @typedef {{ at: number, kind: string, text?: string, hex?: string, name?: string, words?: string, actions?:
 * Action[] }} Span
 */
/** @typedef {(words: string[], write: (part: Uint8Array) => void) => void} Run */

import { Numbers } from './pieces.mjs';

const NAME = '"name":"';
const FIRST = 200;
const STEP = 50_000;
// How many characters of what spans say are kept for a search.
const MOST_KEPT = 2 ** 25;

/**
 * Calls with each line of a run.
 * @param {Run} run
 * @param {string[]} words
 * @param {(line: string) => void} each
 */
function lines(run, words, each) {
    const decoder = new TextDecoder();
    let rest = '';
    run(words, part => {
        const found = (rest + decoder.decode(part, { stream: true })).split('\n');
        rest = found.pop() ?? '';
        found.forEach(each);
    });
}

/** @param {string} line */
const placeOf = line => parseInt(line.slice(6), 10);

/**
 * The names of a span's actions, each once where they follow each other, with lines between. In JSON a quotation
 * mark of a text has a backslash ahead of it, so no text looks like a name.
 * @param {string} line
 */
function namesOf(line) {
    let names = '';
    let last = '';
    for (let at = line.indexOf(NAME); at >= 0; at = line.indexOf(NAME, at)) {
        const from = at + NAME.length;
        at = line.indexOf('"', from);
        const name = line.slice(from, at);
        if (name === last) continue;
        names += names ? `\n${name}` : name;
        last = name;
    }
    return names || line.slice(line.indexOf('"kind":"') + 8).split('"', 1)[0];
}

/** What all spans of a stream say, each text once, and which of them each span says. */
export class Said {
    #numbers = /** @type {Map<string, number>} */ (new Map());
    #texts = /** @type {string[]} */ ([]);
    #names = /** @type {number[]} */ ([]);
    #at = new Numbers();
    #text = new Numbers();
    #length = 0;

    /** Whether all that spans say is kept. */
    get isWhole() { return this.#length <= MOST_KEPT; }

    /**
     * Adds a span, and answers the number of its set of names.
     * @param {string} line
     * @param {number} at
     * @param {(names: string) => number} numberOf
     */
    add(line, at, numberOf) {
        if (!this.isWhole) return numberOf(namesOf(line));
        const text = line.slice(line.indexOf(','));
        const number = this.#numbers.get(text) ?? this.#keep(text, numberOf(namesOf(line)));
        this.#at.push(at);
        this.#text.push(number);
        return this.#names[number];
    }

    /**
     * Keeps a text that is new, and answers its number.
     * @param {string} text
     * @param {number} names
     */
    #keep(text, names) {
        this.#length += text.length;
        // A copy, since a piece of a string keeps all of it.
        const own = ` ${text}`.slice(1);
        this.#numbers.set(own, this.#texts.length);
        this.#names.push(names);
        return this.#texts.push(own) - 1;
    }

    /**
     * Where the spans begin that have a text in their bytes, names or words; capitals don't matter.
     * @param {string} wanted
     */
    with(wanted) {
        const test = tester(wanted);
        const has = this.#texts.map(text => test(`{"at":0${text}`));
        const texts = this.#text.all;
        return this.#at.all.filter((_, i) => has[texts[i]]);
    }
}

/**
 * @typedef {{ at: Uint32Array, set: Uint16Array, sets: string[] }} Rows Rows, the number of the set of names of
 * each, and sets that are new.
 */

/**
 * Tells of all spans of a stream: where each begins, and its names. CR LF is one. It answers what they say.
 * @param {Run} run
 * @param {(rows: Rows) => void} told
 */
export function indexed(run, told) {
    const said = new Said();
    /** @type {Map<string, number>} */
    const numbers = new Map();
    /** @type {string[]} */
    let sets = [];
    /** @type {number[]} */
    let at = [];
    /** @type {number[]} */
    let set = [];
    let total = 0;
    /** @param {string} names */
    const numberOf = names => {
        let number = numbers.get(names);
        if (number === undefined) {
            number = Math.min(numbers.size, 65535);
            numbers.set(names, number);
            sets.push(names);
        }
        return number;
    };
    const lineFeed = numberOf('LF');
    const carriageReturn = numberOf('CR');
    const both = numberOf('CR LF');
    /** @param {number} kept */
    const pass = kept => {
        const n = at.length - kept;
        told({ at: Uint32Array.from(at.slice(0, n)), set: Uint16Array.from(set.slice(0, n)), sets });
        total += n;
        [at, set, sets] = [at.slice(n), set.slice(n), []];
    };
    lines(run, ['explain', '--json'], line => {
        const place = placeOf(line);
        const names = said.add(line, place, numberOf);
        const last = at.length - 1;
        if (names === lineFeed && set[last] === carriageReturn && at[last] === place - 1) {
            set[last] = both;
            return;
        }
        at.push(place);
        set.push(names);
        // The last may yet become CR LF.
        if (at.length > (total ? STEP : FIRST)) pass(1);
    });
    pass(0);
    return said;
}

/**
 * All spans, as objects.
 * @param {Run} run
 * @returns {Span[]}
 */
export function explained(run) {
    /** @type {Span[]} */
    const spans = [];
    lines(run, ['explain', '--json'], line => {
        /** @type {Span} */
        const span = JSON.parse(line);
        const last = spans[spans.length - 1];
        if (span.text === '\n' && last?.text === '\r' && last.at === span.at - 1) {
            last.text = '\r\n';
            last.actions = [{ name: 'CR LF', words: 'cursor to column 1, down 1 line, scrolling' }];
        } else spans.push(span);
    });
    return spans;
}

/**
 * Tells where the spans begin that have a text in their bytes, names or words; capitals don't matter.
 * @param {Run} run
 * @param {string} wanted
 * @param {(at: Uint32Array) => void} told
 */
export function found(run, wanted, told) {
    const test = tester(wanted);
    /** @type {number[]} */
    let at = [];
    let begun = performance.now();
    lines(run, ['explain', '--json'], line => {
        if (test(line)) at.push(placeOf(line));
        if (performance.now() - begun < 200) return;
        told(Uint32Array.from(at));
        at = [];
        begun = performance.now();
    });
    told(Uint32Array.from(at));
}

/**
 * Whether a line's span has a text.
 * @param {string} wanted
 */
function tester(wanted) {
    const small = wanted.toLowerCase();
    // As JSON has it, so that few lines are read.
    const written = JSON.stringify(small).slice(1, -1);
    return (/** @type {string} */ line) => line.toLowerCase().includes(written) && has(JSON.parse(line), small);
}

/**
 * @param {Span} span
 * @param {string} small
 */
function has({ text, hex, name, words, actions = [] }, small) {
    const parts = [text, hex, name, words, ...actions.flatMap(it => [it.name, it.words])];
    return parts.some(part => part?.toLowerCase().includes(small));
}
