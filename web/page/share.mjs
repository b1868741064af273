// @ts-check
// The address: it carries a stream, packed by the browser's own deflate, and what is shown of it.

/** The most characters of an address that programs pass on. */
const LONGEST = 30_000;
const SMALLEST = 64;
// Not every compiler's library has these streams.
const streams = /** @type {any} */ (globalThis);

/**
 * @param {Blob} blob
 * @param {ReadableWritablePair} through
 */
const through = async (blob, through) => new Uint8Array(await new Response(blob.stream().pipeThrough(through)).arrayBuffer());

/** @param {Blob} blob */
async function packed(blob) {
    const bytes = await through(blob, new streams.CompressionStream('deflate-raw'));
    let text = '';
    for (let i = 0; i < bytes.length; i += 8192) text += String.fromCharCode(...bytes.subarray(i, i + 8192));
    return btoa(text).replaceAll('+', '-').replaceAll('/', '_').replace(/=+$/, '');
}

/**
 * The bytes that an address carries.
 * @param {string} text
 */
export async function unpacked(text) {
    const bytes = Uint8Array.from(atob(text.replaceAll('-', '+').replaceAll('_', '/')), it => it.charCodeAt(0));
    return through(new Blob([bytes]), new streams.DecompressionStream('deflate-raw'));
}

/**
 * As much of some bytes, from a place on, as an address carries.
 * @param {Blob} blob
 * @param {number} from
 */
export async function carried(blob, from) {
    for (let to = blob.size; ; to = from + Math.max(SMALLEST, Math.floor((to - from) / 2))) {
        const text = to - from > 1e6 ? '' : await packed(blob.slice(from, to));
        if (text && (text.length <= LONGEST || to - from <= SMALLEST)) return { text, from, to };
    }
}

/**
 * @typedef {{ text?: string, z?: string, raw?: boolean, view?: string, all?: boolean, find?: string, only?:
 * string[], at?: number, seq?: string }} Address
 */

/**
 * @param {string} hash
 * @returns {Address}
 */
export function addressOf(hash) {
    const words = new URLSearchParams(hash.replace(/^#/, ''));
    const word = (/** @type {string} */ name) => words.get(name) ?? undefined;
    return {
        text: word('text'), z: word('z'), raw: words.has('raw'), view: word('view'), all: words.has('all'), find: word('find'),
        only: words.getAll('only'), at: words.has('at') ? Number(words.get('at')) : undefined, seq: word('seq'),
    };
}

/** @param {Address} address */
export function hashOf({ text, z, raw, view, all, find, only = [], at, seq }) {
    const words = new URLSearchParams();
    if (seq !== undefined) words.set('seq', seq);
    if (text) words.set('text', text);
    if (z) words.set('z', z);
    if (raw) words.set('raw', '');
    if (view && view !== 'seen') words.set('view', view);
    if (all) words.set('all', '');
    if (find) words.set('find', find);
    for (const name of only) words.append('only', name);
    if (at) words.set('at', String(at));
    return `#${words}`;
}
