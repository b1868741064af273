// node .ci/figures.mjs FOLDER STREAM ..: what the package for node in FOLDER costs beside strip-ansi's expression (ansi-regex 6), in one run: the
// least of many rounds, each of them all in turn. The streams are taken joined.
import { readFileSync } from 'node:fs';
import { createRequire } from 'node:module';
import { pathToFileURL } from 'node:url';

const [folder, ...files] = process.argv.slice(2);
const { Codec, Parser } = await import(pathToFileURL(createRequire(`${folder}/it.js`).resolve('csicodec')));
const codec = await Codec.load();
const stream = Buffer.concat(files.map(file => readFileSync(file))), text = stream.toString();
const STRIP_ANSI = /[\u001b\u009b][[\]()#;?]*(?:(?:(?:(?:;[-a-zA-Z\d/#&.:=?%@~_]+)*|[a-zA-Z\d]+(?:;[-a-zA-Z\d/#&.:=?%@~_]*)*)?(?:\u0007|\u001b\u005c|\u009c))|(?:(?:\d{1,4}(?:;\d{0,4})*)?[\dA-PR-TZcf-nq-uy=><~]))/g;
const SHORT = '\x1b[1mbold\x1b[0m plain', LINE = '2026-11-26 18:00:00 INFO  [worker-3] request handled in 12 ms status=200 path=/index.html\n';

/** The least time of each call, in µs. */
function least(calls, seconds, repeat) {
    const found = {}, end = performance.now() + seconds * 1000;
    while (performance.now() < end) {
        for (const [name, call] of Object.entries(calls)) {
            const began = process.hrtime.bigint();
            for (let i = 0; i < repeat; i++) call();
            found[name] = Math.min(found[name] ?? Infinity, Number(process.hrtime.bigint() - began) / 1000 / repeat);
        }
    }
    return found;
}

const whole = least({
    strip: () => codec.strip(stream),
    'strip of a string': () => codec.strip(text),
    clean: () => codec.clean(stream),
    compact: () => codec.compact(stream),
    events: () => { for (const event of codec.events(stream)) void event; },
    'Parser.feed': () => new Parser(codec).feed(stream),
    'explain': () => codec.explainEach(stream, {}, () => {}),
    "strip-ansi's expression": () => text.replace(STRIP_ANSI, ''),
}, 30, 1);
console.log(`${stream.length} bytes, ms a MB`);
for (const [name, time] of Object.entries(whole)) console.log(name.padEnd(28), (time * 1000 / stream.length).toFixed(1).padStart(8));
const texts = { 'a short text': SHORT, 'a line of a log': LINE, 'one style in it': LINE.replace('INFO', '\x1b[32m$&\x1b[0m'), 'and a character': LINE.replace('INFO', '\x1b[32m✓\x1b[0m') };
const calls = { explain: () => codec.explain(SHORT) };
for (const [name, it] of Object.entries(texts)) Object.assign(calls, { [`strip of ${name}`]: () => codec.strip(it), [`  strip-ansi's of ${name}`]: () => it.replace(STRIP_ANSI, '') });
console.log('µs');
for (const [name, time] of Object.entries(least(calls, 12, 200))) console.log(name.padEnd(36), time.toFixed(2).padStart(8));
// A log of a megabyte, in ASCII, plain and with one style or one character amid it.
const log = LINE.repeat(Math.ceil(1e6 / LINE.length)), bytes = Buffer.from(log), middle = log.length >> 1;
const logs = { plain: log, 'one style': `${log.slice(0, middle)}\x1b[1mx\x1b[0m${log.slice(middle)}`, 'one style and é': `${log.slice(0, middle)}\x1b[1mé\x1b[0m${log.slice(middle)}` };
const whole_logs = { 'strip of bytes': () => codec.strip(bytes) };
for (const [name, it] of Object.entries(logs)) Object.assign(whole_logs, { [`strip of a string, ${name}`]: () => codec.strip(it), [`  strip-ansi's, ${name}`]: () => it.replace(STRIP_ANSI, '') });
console.log('a log, ms a MB');
for (const [name, time] of Object.entries(least(whole_logs, 12, 1))) console.log(name.padEnd(36), (time * 1000 / bytes.length).toFixed(2).padStart(8));
