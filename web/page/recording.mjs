// @ts-check
// Recordings with times: asciinema's (.cast, versions 2 and 3), and a typescript of `script` beside its file of times.

/**
 * @typedef {{ at: Uint32Array, time: Float64Array }} Times Where each piece of output begins, and when it came, in
 * seconds.
 */
/** @typedef {{ name: string, bytes: Uint8Array }} Given */
/** @typedef {{ name: string, bytes: Uint8Array, times: Times | null }} Opened */

const TIMING = /^(?:[OIHS] )?\d+\.\d+ \S/;

/**
 * The first line, if it is a text of some length.
 * @param {Uint8Array} bytes
 */
const firstLine = bytes => new TextDecoder().decode(bytes.subarray(0, 4096)).split('\n', 1)[0];

/**
 * Whether bytes begin as a recording of asciinema.
 * @param {Uint8Array} bytes
 */
function isCast(bytes) {
    const line = firstLine(bytes);
    if (!line.startsWith('{')) return false;
    try {
        return [2, 3].includes(JSON.parse(line).version);
    } catch {
        return false;
    }
}

/**
 * @param {{ at: number, time: number }[]} events
 * @returns {Times}
 */
const timesOf = events => ({
    at: Uint32Array.from(events, it => it.at),
    time: Float64Array.from(events, it => it.time),
});

/**
 * @param {Given} given
 * @returns {Opened}
 */
function cast({ name, bytes }) {
    const [head, ...lines] = new TextDecoder().decode(bytes).split('\n');
    const isRelative = JSON.parse(head).version === 3;
    const encoder = new TextEncoder();
    /** @type {Uint8Array[]} */
    const parts = [];
    /** @type {{ at: number, time: number }[]} */
    const events = [];
    let at = 0;
    let clock = 0;
    for (const [i, line] of lines.entries()) {
        if (!line.trim() || line.startsWith('#')) continue;
        const event = eventOf(line, i + 2);
        clock = isRelative ? clock + event[0] : event[0];
        if (event[1] !== 'o') continue;
        const part = encoder.encode(event[2]);
        events.push({ at, time: clock });
        parts.push(part);
        at += part.length;
    }
    const all = new Uint8Array(at);
    parts.forEach((part, i) => all.set(part, events[i].at));
    return { name, bytes: all, times: timesOf(events) };
}

/**
 * @param {string} line
 * @param {number} number
 * @returns {[number, string, string]}
 */
function eventOf(line, number) {
    try {
        const event = JSON.parse(line);
        if (typeof event[0] === 'number' && typeof event[2] === 'string') return event;
    } catch { /* said below */ }
    throw new Error(`line ${number} of the recording is no event of asciinema`);
}

/**
 * A typescript: its first line, which `script` writes, has no time.
 * @param {Given} given
 * @param {Uint8Array} timing
 * @returns {Opened}
 */
function typescript({ name, bytes }, timing) {
    let at = firstLine(bytes).startsWith('Script started') ? bytes.indexOf(10) + 1 : 0;
    let clock = 0;
    /** @type {{ at: number, time: number }[]} */
    const events = [];
    for (const line of new TextDecoder().decode(timing).split('\n')) {
        const words = line.split(' ');
        const kind = /^[OIHS]$/.test(words[0]) ? words.shift() : 'O';
        if (kind === 'H' || words.length < 2) continue;
        clock += Number(words[0]);
        if (kind !== 'O') continue;
        events.push({ at, time: clock });
        at += Number(words[1]);
    }
    return { name, bytes, times: timesOf(events) };
}

/**
 * What was recorded: one file, or a typescript and its times in either order.
 * @param {Given[]} files
 * @returns {Opened}
 */
export function opened(files) {
    const timing = files.length > 1 ? files.findIndex(it => TIMING.test(firstLine(it.bytes))) : -1;
    if (timing >= 0) return typescript(files[timing ? 0 : 1], files[timing].bytes);
    return isCast(files[0].bytes) ? cast(files[0]) : { ...files[0], times: null };
}

/**
 * The last piece that began at a place, or ahead of it.
 * @param {ArrayLike<number>} sorted
 * @param {number} value
 */
export function lastUpTo(sorted, value) {
    let low = 0;
    let high = sorted.length;
    while (low < high) {
        const middle = (low + high) >> 1;
        if (sorted[middle] <= value) low = middle + 1;
        else high = middle;
    }
    return low - 1;
}
