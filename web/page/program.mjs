// @ts-check
// Runs the program: a module of WebAssembly whose files, words and environment come from here.

const encoder = new TextEncoder();
const decoder = new TextDecoder();
// Linux's numbers for what goes wrong.
const NO_FILE = -9n;
const NO_NAME = -2n;

/**
 * Runs the program once over its standard input.
 * @param {WebAssembly.Module} module
 * @param {string[]} words
 * @param {Uint8Array} input
 * @param {(part: Uint8Array) => void} write is called with each piece of output
 */
export function run(module, words, input, write) {
    const list = ['csicodec', ...words].map(word => encoder.encode(word));
    let said = '';
    let at = 0;
    /** @type {WebAssembly.Memory} */
    let memory;
    /**
     * @param {bigint} place
     * @param {bigint} length
     */
    const view = (place, length) => new Uint8Array(memory.buffer, Number(place), Number(length));
    const env = {
        /**
         * @param {number} file
         * @param {bigint} to
         * @param {bigint} room
         */
        read(file, to, room) {
            if (file) return NO_FILE;
            const part = input.subarray(at, at + Number(room));
            at += part.length;
            view(to, room).set(part);
            return BigInt(part.length);
        },
        /**
         * @param {number} file
         * @param {bigint} from
         * @param {bigint} length
         */
        write(file, from, length) {
            const part = view(from, length).slice();
            if (file === 1) write(part);
            else said += decoder.decode(part);
            return length;
        },
        open: () => NO_NAME,
        /**
         * @param {bigint} i
         * @param {bigint} to
         * @param {bigint} room
         */
        word(i, to, room) {
            const word = list[Number(i)];
            if (!word) return -1n;
            if (word.length > room) return -2n;
            view(to, room).set(word);
            return BigInt(word.length);
        },
        variable: () => -1n,
    };
    // What an instance allocates it keeps: each run has its own.
    const { exports } = new WebAssembly.Instance(module, { env });
    memory = /** @type {WebAssembly.Memory} */ (exports.memory);
    const status = /** @type {() => number} */ (exports.run)();
    if (status) throw new Error(said.trim().replace(/^csicodec: /, '') || `the program ended with ${status}`);
}
