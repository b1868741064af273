// @ts-check
// Does what takes long, away from the page: one task for each message, and what is found on the way is told as it comes.
import { run } from './page/program.mjs';
import { explained, found, indexed } from './page/spans.mjs';
import { opened } from './page/recording.mjs';
import { joined, pieces } from './page/pieces.mjs';
import { lineWith, markedCharacters, markedLines, originAt, originsOfLines } from './page/marks.mjs';

const decoder = new TextDecoder();
/** @type {WebAssembly.Module} */
let program;
/**
 * What the spans of the stream say that this worker indexed last.
 * @type {import('./page/spans.mjs').Said}
 */
let said;

/** @param {Blob | Uint8Array} given */
const bytesOf = async given => given instanceof Blob ? new Uint8Array(await given.arrayBuffer()) : given;

/**
 * What the program writes of some bytes.
 * @param {string[]} words
 * @param {Uint8Array} bytes
 */
function written(words, bytes) {
    /** @type {Uint8Array[]} */
    const all = [];
    run(program, words, bytes, part => all.push(part));
    return joined(all);
}

/**
 * @param {string[]} words
 * @param {Uint8Array} bytes
 */
const linesOf = (words, bytes) => decoder.decode(written(words, bytes)).split('\n');

/** @typedef {(message: object, moved?: Transferable[]) => void} Tell */
/** @type {Record<string, (task: any, tell: Tell) => Promise<object>>} */
const tasks = {
    async open({ files }) {
        const read = async (/** @type {File} */ file) => ({ name: file.name, bytes: await bytesOf(file) });
        const given = await Promise.all(files.map(read));
        const { name, bytes, times } = opened(given);
        return { name, blob: new Blob([bytes]), times };
    },
    async index({ blob }, tell) {
        const bytes = await bytesOf(blob);
        said = indexed((words, write) => run(program, words, bytes, write), rows => tell(rows, [rows.at.buffer, rows.set.buffer]));
        return { isSaid: said.isWhole };
    },
    async recall({ wanted }) {
        return { at: said.with(wanted) };
    },
    async find({ blob, wanted }, tell) {
        const bytes = await bytesOf(blob);
        found((words, write) => run(program, words, bytes, write), wanted, at => tell({ at }));
        return {};
    },
    async explain({ blob, ranges }) {
        const spans = [];
        for (const [from, to] of ranges) {
            const bytes = await bytesOf(blob.slice(from, to));
            const found = explained((words, write) => run(program, words, bytes, write));
            spans.push(...found.map(span => ({ ...span, at: from + span.at })));
        }
        return { spans };
    },
    async write({ blob, words, lines }) {
        const bytes = written(words, await bytesOf(blob));
        return { bytes, begins: lines ? pieces(bytes, lines === 'markup') : undefined };
    },
    async save({ blob, words }) {
        /** @type {Uint8Array[]} */
        const all = [];
        run(program, words, await bytesOf(blob), part => all.push(part));
        return { blob: new Blob(all) };
    },
    async origins({ blob, words, rows }) {
        const html = written(words, markedLines(await bytesOf(blob), rows));
        return { origins: originsOfLines(html, pieces(html, true, Infinity)) };
    },
    async origin({ blob, words, rows, wanted }) {
        const { marked, places } = markedCharacters(await bytesOf(blob), rows);
        return { at: places[originAt(linesOf(words, marked), wanted)] ?? -1 };
    },
    async line({ blob, words, rows, at }) {
        const { marked, places } = markedCharacters(await bytesOf(blob), rows);
        return { line: lineWith(linesOf(words, marked), places.findIndex(place => place >= at)) };
    },
};

addEventListener('message', async ({ data }) => {
    const { id, task, module } = data;
    /** @type {Tell} */
    const tell = (message, moved = []) => postMessage({ id, ...message }, { transfer: moved });
    try {
        program ??= module;
        const answer = await tasks[task](data, tell);
        const moved = Object.values(answer).filter(it => ArrayBuffer.isView(it)).map(it => it.buffer);
        tell({ ...answer, done: true }, moved);
    } catch (error) {
        tell({ done: true, fault: String(/** @type {Error} */ (error).message ?? error) });
    }
});
