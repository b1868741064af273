// node .ci/firefox.mjs PAGE: the page, opened from its folder, in headless Firefox, which is asked by Marionette: messages of JSON, each with its
// length and a colon in front.
import { spawn } from 'node:child_process';
import { mkdtempSync, rmSync, writeFileSync } from 'node:fs';
import { connect } from 'node:net';
import { tmpdir } from 'node:os';
import { join, resolve } from 'node:path';
import { pathToFileURL } from 'node:url';

const PORT = 20_000 + process.pid % 20_000;
const room = mkdtempSync(join(tmpdir(), 'firefox-'));
writeFileSync(join(room, 'user.js'), `user_pref("marionette.port", ${PORT});\n`);
const words = ['--headless', '--no-remote', '--marionette', '--profile', room];
const firefox = spawn('firefox-esr', words, { stdio: 'ignore', env: { ...process.env, HOME: room } });
/** How often something is looked for, a fifth of a second apart: it guards against a browser that hangs, not against a slow one. */
const TRIES = 3000;
const sleep = time => new Promise(go => setTimeout(go, time));

async function connected() {
    for (let i = 0; i < TRIES; i++) {
        const socket = connect(PORT, '127.0.0.1');
        const isThere = await new Promise(go => socket.once('data', () => go(true)).once('error', () => go(false)));
        if (isThere) return socket;
        await sleep(200);
    }
    throw new Error('no answer');
}

let held = Buffer.alloc(0);
let last = 0;
const waiting = new Map();
function read(bytes) {
    held = Buffer.concat([held, bytes]);
    for (;;) {
        const colon = held.indexOf(':');
        const end = colon + 1 + Number(held.subarray(0, colon));
        if (colon < 0 || held.length < end) return;
        const [, id, error, result] = JSON.parse(held.subarray(colon + 1, end));
        held = held.subarray(end);
        const { yes, no } = waiting.get(id);
        error ? no(new Error(error.message)) : yes(result);
    }
}

try {
    const socket = await connected();
    socket.on('data', read);
    const ask = (name, params) => new Promise((yes, no) => {
        const text = JSON.stringify([0, ++last, name, params]);
        waiting.set(last, { yes, no });
        socket.write(`${Buffer.byteLength(text)}:${text}`);
    });
    const run = async script => (await ask('WebDriver:ExecuteScript', { script, args: [] })).value;
    const shows = async (script, wanted) => {
        let shown;
        for (let i = 0; i < TRIES; i++) {
            shown = await run(script);
            if (shown === wanted) return;
            await sleep(200);
        }
        throw new Error(`it shows ${shown}, and not ${wanted}`);
    };
    await ask('WebDriver:NewSession', {});
    const hash = new URLSearchParams({ text: String.raw`one \e[31mred\e[0m\n10%\r20%` });
    await ask('WebDriver:Navigate', { url: `${pathToFileURL(resolve(process.argv[2]))}#${hash}` });
    await shows('return [...document.getElementById("lines")?.shadowRoot?.querySelectorAll(".line") ?? []].map(it => it.textContent).join("|")', 'one red|20%');
    await run('document.getElementById("tab-words").click()');
    await shows('return [...document.querySelectorAll("#list .name")].map(it => it.textContent).join()', 'text,SGR,text,SGR,LF,text,CR,text');
    socket.end();
} catch (error) {
    console.error(`firefox: ${error.message}`);
    process.exitCode = 1;
} finally {
    firefox.on('exit', () => rmSync(room, { recursive: true, force: true, maxRetries: 5 }));
    firefox.kill();
}
