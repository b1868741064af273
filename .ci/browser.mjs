// A headless Chromium, by its own protocol over a pipe (messages of JSON with a 0 behind each): what a test of the page asks of it.
import { spawn } from 'node:child_process';
import { mkdtempSync, readFileSync, readdirSync, rmSync, writeFileSync } from 'node:fs';
import { tmpdir } from 'node:os';
import { join, resolve } from 'node:path';
import { pathToFileURL } from 'node:url';

const SHORT = 20;
/** What the page says in a trace, so that its thread is known among all that the browser has. */
const MARK = 'the page';

export const sleep = time => new Promise(go => setTimeout(go, time));

export class Browser {
    #rest = '';
    #last = 0;
    #waiting = new Map();
    #room = mkdtempSync(join(tmpdir(), 'page-'));
    #process;
    #session;
    traced = [];
    #ended;
    /** Each address that was asked for, and each fault and complaint that the page's console has. */
    fetched = [];
    complaints = [];

    static async start() {
        const browser = new Browser();
        const { targetId } = await browser.ask('Target.createTarget', { url: 'about:blank' });
        browser.#session = (await browser.ask('Target.attachToTarget', { targetId, flatten: true })).sessionId;
        for (const domain of ['Network', 'Runtime', 'Log', 'Page', 'DOM', 'Accessibility']) await browser.ask(`${domain}.enable`);
        return browser;
    }

    constructor() {
        const words = ['--headless', '--disable-gpu', '--remote-debugging-pipe', `--user-data-dir=${this.#room}`];
        if (process.getuid() === 0) words.push('--no-sandbox');
        this.#process = spawn('chromium', [...words, 'about:blank'], { stdio: ['ignore', 'ignore', 'ignore', 'pipe', 'pipe'] });
        this.#process.stdio[4].setEncoding('utf8').on('data', text => this.#read(text));
    }

    #read(text) {
        const parts = (this.#rest + text).split('\0');
        this.#rest = parts.pop();
        for (const { id, method, params, error, result } of parts.map(part => JSON.parse(part))) {
            if (method === 'Network.requestWillBeSent') this.fetched.push(params.request.url);
            if (method === 'Runtime.exceptionThrown') this.complaints.push(params.exceptionDetails.exception?.description ?? params.exceptionDetails.text);
            if (method === 'Log.entryAdded') this.complaints.push(params.entry.text);
            if (method === 'Tracing.dataCollected') this.traced.push(...params.value.filter(it => it.tdur > 10_000 || it.name === MARK));
            if (method === 'Tracing.tracingComplete') this.#ended();
            const it = this.#waiting.get(id);
            this.#waiting.delete(id);
            if (it) error ? it.no(new Error(error.message)) : it.yes(result);
        }
    }

    ask(method, params = {}) {
        const id = ++this.#last;
        const sessionId = /^(Target|Tracing)\./.test(method) ? undefined : this.#session;
        return new Promise((yes, no) => {
            this.#waiting.set(id, { yes, no });
            this.#process.stdio[3].write(`${JSON.stringify({ id, method, params, sessionId })}\0`);
        });
    }

    /** What a function gives in the page, with these values. */
    async run(what, ...values) {
        const expression = `(${what})(...${JSON.stringify(values)})`;
        const { result, exceptionDetails } = await this.ask('Runtime.evaluate', { expression, returnByValue: true, awaitPromise: true, userGesture: true });
        if (exceptionDetails) throw new Error(exceptionDetails.exception?.description ?? exceptionDetails.text);
        return result.value;
    }

    text(id) { return this.run(id => document.getElementById(id).textContent, id); }

    async open(page, hash = '') {
        await this.ask('Page.navigate', { url: 'about:blank' });
        await this.ask('Page.navigate', { url: pathToFileURL(resolve(page)) + hash });
        await this.idle();
    }

    /** Waits for some milliseconds of the page's own clock and for what it draws then, so that what it put off for less is done, however slow it is. */
    pause(time = 300) {
        return this.run(time => new Promise(go => setTimeout(() => {
            setTimeout(go, 5000);
            requestAnimationFrame(() => requestAnimationFrame(go));
        }, time)), time);
    }

    /** Waits until a function of the page answers true, for ten minutes at most. */
    async until(isSo, what) {
        for (const end = Date.now() + 600_000; Date.now() < end; await sleep(SHORT)) if (await this.run(isSo)) return;
        throw new Error(await what());
    }

    /** Waits until the page has done what it does, and has shown it. */
    async idle() {
        const isIdle = () => document.documentElement?.dataset.busy === 'false' && !document.querySelector('.waiting');
        do {
            await sleep(SHORT);
            await this.until(isIdle, async () => `it is still busy: ${await this.text('said')}`);
            await this.pause();
        } while (!await this.run(isIdle));
    }

    async click(id) {
        await this.run(id => document.getElementById(id).click(), id);
        await this.idle();
    }

    async type(id, text) {
        await this.run((id, text) => {
            const it = document.getElementById(id);
            it.value = text;
            it.dispatchEvent(new Event('input', { bubbles: true }));
        }, id, text);
        await this.pause();
        await this.idle();
    }

    async key(key) {
        const text = key.length === 1 ? key : key === 'Enter' ? '\r' : undefined;
        const code = { Tab: 9, Enter: 13, End: 35, Home: 36, ArrowDown: 40, ArrowRight: 39 }[key];
        await this.ask('Input.dispatchKeyEvent', { type: 'keyDown', key, text, windowsVirtualKeyCode: code });
        await this.ask('Input.dispatchKeyEvent', { type: 'keyUp', key, windowsVirtualKeyCode: code });
    }

    async paste(id, text) {
        const isTaken = await this.run((id, text) => {
            const clipboardData = new DataTransfer();
            clipboardData.setData('text/plain', text);
            return !document.getElementById(id).dispatchEvent(new ClipboardEvent('paste', { clipboardData, bubbles: true, cancelable: true }));
        }, id, text);
        await this.pause();
        await this.idle();
        return isTaken;
    }

    async files(id, ...files) {
        const { root } = await this.ask('DOM.getDocument');
        const { nodeId } = await this.ask('DOM.querySelector', { nodeId: root.nodeId, selector: `#${id}` });
        await this.ask('DOM.setFileInputFiles', { nodeId, files: files.map(file => resolve(file)) });
        await this.pause();
    }

    async look(width, height, scheme) {
        await this.ask('Emulation.setDeviceMetricsOverride', { width, height, deviceScaleFactor: 1, mobile: width < 500 });
        await this.ask('Emulation.setEmulatedMedia', { features: [{ name: 'prefers-color-scheme', value: scheme }] });
    }

    async picture(file) {
        const { data } = await this.ask('Page.captureScreenshot', { format: 'png' });
        writeFileSync(file, Buffer.from(data, 'base64'));
    }

    /** The longest time, in milliseconds, that the page's own thread worked without a break while something was done. It is the processor's
     * time, so that other work on the machine doesn't count. */
    async longest(what) {
        this.traced = [];
        const categories = ['toplevel', 'disabled-by-default-devtools.timeline', 'blink.user_timing'];
        await this.ask('Tracing.start', { transferMode: 'ReportEvents', traceConfig: { includedCategories: categories, recordMode: 'recordContinuously' } });
        const ended = new Promise(yes => { this.#ended = yes; });
        try {
            await what();
            await this.run(mark => { performance.mark(mark); }, MARK);
        } finally {
            await this.ask('Tracing.end');
            await ended;
        }
        const { pid, tid } = this.traced.find(it => it.name === MARK);
        const tasks = this.traced.filter(it => it.name === 'RunTask' && it.pid === pid && it.tid === tid);
        return Math.max(0, ...tasks.map(it => it.tdur / 1000));
    }

    /** The same time of a fixed loop, which tells how slow the machine is: about 50 milliseconds where the bounds were chosen. */
    pace() {
        return this.longest(() => this.run(() => {
            let sum = 0;
            for (let i = 0; i < 7e6; i++) sum = Math.imul(sum, 31) + i | 0;
            return sum;
        }));
    }

    /** The bytes of memory that the page's own process holds. */
    memory() {
        const held = readdirSync('/proc').filter(it => /^\d+$/.test(it)).map(it => {
            try {
                const words = readFileSync(`/proc/${it}/cmdline`, 'utf8');
                if (!words.includes('--type=renderer') || !words.includes(this.#room)) return 0;
                return 1024 * Number(/^VmRSS:\s*(\d+)/m.exec(readFileSync(`/proc/${it}/status`, 'utf8'))[1]);
            } catch {
                return 0;
            }
        });
        return Math.max(...held);
    }

    end() {
        this.#process.kill();
        this.#process.on('exit', () => rmSync(this.#room, { recursive: true, force: true, maxRetries: 20 }));
    }

    kill() { this.#process.kill('SIGKILL'); }
}
