// @ts-check
// The page: a stream is taken, its spans are counted beside, and one of four views shows it.
import { $, $input, later, saved, seldom } from './page/dom.mjs';
import { Engine } from './page/engine.mjs';
import { examples } from './page/examples.mjs';
import { Filter } from './page/filter.mjs';
import { Index } from './page/index.mjs';
import { Origins } from './page/origin.mjs';
import { unpacked as inside } from './page/packed.mjs';
import { Player } from './page/player.mjs';
import { Reference } from './page/reference.mjs';
import { addressOf, carried, hashOf, unpacked } from './page/share.mjs';
import { Source } from './page/source.mjs';
import { count, size, visible } from './page/text.mjs';
import { Lines, wordsOf } from './page/views.mjs';
import { Words, bytesOf } from './page/words.mjs';

/** @typedef {import('./page/source.mjs').Stream} Stream */
/** @typedef {import('./page/share.mjs').Address} Address */
/** @typedef {'seen' | 'words' | 'plain' | 'shorter'} View */

const VIEWS = /** @type {View[]} */ (['seen', 'words', 'plain', 'shorter']);
const MOST_COPIED = 5e6;
const NOTED = 15_000;
const data = (/** @type {string} */ id) => $(id).textContent ?? '';
const textOf = (/** @type {string} */ id) => new TextDecoder().decode(inside(data(id)));

class Page {
    /** @type {Stream} */
    #stream = { name: '', blob: new Blob() };
    /** @type {View} */
    #view = 'seen';
    /** @type {Index} */
    #index;
    /** @type {Promise<void>} */
    #indexed = Promise.resolve();
    /** @type {Origins | undefined} */
    #origins;
    #all = false;
    #seq = /** @type {string | undefined} */ (undefined);
    /**
     * What the address asks for, until it is there.
     * @type {Address}
     */
    #asked = {};
    #examples;
    #engine;
    #source;
    #words;
    #lines;
    #filter;
    #player;
    #reference;
    #busy = new Set();
    /** @type {ReturnType<typeof setTimeout> | undefined} */
    #noting;
    #tell;
    #address;

    /**
     * @param {Engine} engine
     * @param {import('./page/reference.mjs').Tables} tables
     * @param {string} vim
     */
    constructor(engine, tables, vim) {
        this.#engine = engine;
        this.#examples = examples(vim);
        this.#index = new Index(engine, this.#stream.blob);
        this.#tell = seldom(100, () => this.#said());
        this.#address = later(250, () => history.replaceState(null, '', hashOf(this.#state())));
        this.#words = new Words(row => this.#selected(row));
        this.#lines = new Lines(picked => this.#picked(picked));
        this.#filter = new Filter(engine, rows => {
            this.#words.filter(rows);
            this.#tell();
            this.#address();
        });
        this.#player = new Player(event => this.#words.goToEvent(event));
        this.#reference = new Reference(engine, tables, text => {
            this.#seq = text;
            this.#address();
        });
        this.#source = new Source(stream => this.#given(stream), files => this.#open(files));
        this.#listen();
    }

    async start() {
        const empty = new Blob();
        const { bytes } = await this.#engine.ask('view', { task: 'write', blob: empty, words: ['html', '--classes'] });
        this.#lines.sheet = /<style>([^<]*)<\/style>/.exec(new TextDecoder().decode(bytes))?.[1] ?? '';
        await this.#linked();
    }

    // ---- what is looked at

    /** What an address carries and what was said are over: another stream is looked at, or none. */
    #forget() {
        this.#asked = {};
        this.#note('');
    }

    /**
     * A stream that was typed, pasted or cleared, or the text of an address.
     * @param {Stream} stream
     */
    #given(stream) {
        const { text = '', z } = this.#asked;
        if (z || text !== stream.text) this.#forget();
        this.#begin(stream);
        this.#address();
    }

    /**
     * @param {Stream} stream
     * @param {import('./page/recording.mjs').Times | null} [times]
     */
    #begin(stream, times = null) {
        for (const lane of ['view', 'index', 'find', 'words', 'origins']) this.#engine.cancel(lane);
        this.#busy.clear();
        this.#stream = stream;
        this.#origins = undefined;
        const index = new Index(this.#engine, stream.blob);
        this.#index = index;
        this.#words.begin(index, times);
        this.#filter.begin(stream.blob, index, this.#asked.find ?? '', this.#asked.only ?? []);
        this.#player.begin(times);
        this.#because('');
        this.#show();
        this.#indexed = this.#count(index);
    }

    /**
     * Counts all spans beside what is shown.
     * @param {Index} index
     */
    async #count(index) {
        const { isSaid } = await this.#work('index', () => this.#engine.ask('index', { task: 'index', blob: this.#stream.blob }, rows => {
            index.add(rows);
            this.#words.changed();
            this.#filter.grown();
            this.#tell();
            this.#arrive();
        }));
        if (index !== this.#index) return;
        index.isDone = true;
        index.isSaid = isSaid;
        this.#words.changed();
        this.#filter.grown();
        this.#arrive();
        this.#tell();
    }

    /** Goes to where the address leads, once that is there. */
    #arrive() {
        const { at } = this.#asked;
        const { isDone, length } = this.#index;
        if (at === undefined || !length || !isDone && this.#index.placeOf(length - 1) <= at) return;
        this.#asked.at = undefined;
        this.#words.select(this.#index.rowAt(at), 'middle');
    }

    /**
     * @param {Stream} stream
     * @param {import('./page/recording.mjs').Times | null} [times]
     */
    #named(stream, times) {
        this.#source.named(stream);
        this.#begin(stream, times);
        this.#address();
    }

    /** @param {File[]} files */
    async #open(files) {
        this.#forget();
        const { name, blob, times } = await this.#work('open', () => this.#engine.askAnew('open', { task: 'open', files }));
        if (times) this.#view = 'words';
        this.#named({ name, blob }, times);
    }

    /**
     * Waits for some work, with a sign that there is some, and says what went wrong.
     * @template T
     * @param {string} name
     * @param {() => Promise<T>} what
     */
    async #work(name, what) {
        this.#busy.add(name);
        this.#tell();
        try {
            return await what();
        } catch (fault) {
            this.#note(`That could not be read: ${/** @type {Error} */ (fault).message}`);
            throw fault;
        } finally {
            this.#busy.delete(name);
            this.#tell();
        }
    }

    // ---- what is shown

    /** @param {View} view */
    #choose(view) {
        if (view === this.#view) return;
        this.#view = view;
        this.#show();
        this.#address();
    }

    async #show() {
        const view = this.#view;
        for (const it of VIEWS) {
            $(`tab-${it}`).setAttribute('aria-selected', String(it === view));
            $(`tab-${it}`).tabIndex = it === view ? 0 : -1;
            $(`about-${it}`).hidden = it !== view;
        }
        $('panel').setAttribute('aria-labelledby', `tab-${view}`);
        $('words-tools').hidden = $('words-view').hidden = view !== 'words';
        $('lines').hidden = view === 'words';
        $('overwrite').hidden = view !== 'seen' && view !== 'plain';
        this.#tell();
        if (view === 'words') {
            this.#engine.cancel('view');
            this.#busy.delete('view');
            this.#words.changed();
            return;
        }
        const { blob } = this.#stream;
        const task = { task: 'write', blob, words: wordsOf(view, this.#all), lines: view === 'seen' ? 'markup' : 'text' };
        const written = await this.#work('view', () => this.#engine.askAnew('view', task));
        if (blob !== this.#stream.blob || view !== this.#view) return;
        this.#lines.show(view, written);
        this.#tell();
    }

    /** The line below: what was read, and what is shown of it. */
    #said() {
        const isBusy = this.#busy.size > 0 || this.#filter.isBusy;
        document.documentElement.dataset.busy = String(isBusy);
        $('said').classList.toggle('busy', isBusy);
        const spans = count(this.#index.length, 'span');
        const some = this.#filter.isOn ? `, ${this.#words.count.toLocaleString('en')} shown` : '';
        const shown = this.#view === 'words' ? some : `, ${count(this.#lines.count, 'line')}${this.#saved()}`;
        const isEmpty = !this.#stream.blob.size && !isBusy;
        const soFar = this.#busy.has('index') ? ' so far' : '';
        $('said').textContent = isEmpty ? '' : `${size(this.#stream.blob.size)}, ${spans}${soFar}${shown}`;
        $('nothing').hidden = this.#view !== 'words' || !this.#filter.isOn || isBusy || this.#words.count > 0;
    }

    /** How many bytes the shorter form has, once it is there. */
    #saved() {
        const [before, after] = [this.#stream.blob.size, this.#lines.size];
        if (this.#view !== 'shorter' || this.#busy.has('view') || !before) return '';
        return `, ${size(after)} in the shorter form (${Math.floor(100 - 100 * after / before)} % fewer)`;
    }

    /**
     * Says what was done, for a while.
     * @param {string} text
     */
    #note(text) {
        $('note').textContent = text;
        clearTimeout(this.#noting);
        this.#noting = setTimeout(() => { $('note').textContent = ''; }, NOTED);
    }

    // ---- from one view to another

    /** @param {number} row */
    #selected(row) {
        this.#player.follow(this.#index.placeOf(row));
        this.#address();
    }

    /** @param {string} text */
    #because(text) {
        $('because').textContent = text;
        $('because').hidden = !text;
    }

    #paths() {
        this.#origins ??= new Origins(this.#engine, this.#stream.blob, this.#index, this.#all);
        return this.#origins;
    }

    /**
     * Leads from a piece of what is seen to the sequence that made it so.
     * @param {import('./page/views.mjs').Picked} picked
     */
    async #picked(picked) {
        const { text, look } = await this.#work('origins', async () => {
            await this.#indexed;
            return this.#paths().of(picked);
        });
        const row = look < 0 ? text : look;
        const [span] = await this.#index.spans(row, row + 1);
        const place = this.#index.placeOf(text).toLocaleString('en');
        const seen = `“${visible(picked.part.text.trim().slice(0, 40))}” was written at byte ${place}`;
        const does = span.actions?.map(it => it.words).join(', ');
        this.#filter.clear();
        this.#choose('words');
        this.#words.select(row, 'middle');
        this.#because(look < 0 ? `${seen}, with no style.` : `${seen}; its look is from ${bytesOf(span, 40)}: ${does}.`);
        $('words').focus();
    }

    async #back() {
        const row = this.#words.selected;
        if (row < 0) return;
        const line = await this.#work('origins', async () => {
            await this.#indexed;
            return this.#paths().lineOf(row);
        });
        this.#view = 'seen';
        await this.#show();
        this.#lines.mark(line);
        this.#address();
    }

    // ---- the address

    /** @returns {Address} */
    #state() {
        if (this.#seq !== undefined) return { seq: this.#seq };
        const { text, isRead, name } = this.#stream;
        const { at, z } = this.#asked;
        const place = this.#words.selected < 0 ? at : this.#index.placeOf(this.#words.selected);
        const given = !name && text && text.length <= 2000 ? { text, raw: !isRead && /\\|\^\[/.test(text) } : { z };
        return { ...given, view: this.#view, all: this.#all, find: this.#filter.text, only: this.#filter.names, at: place };
    }

    async #linked() {
        const address = addressOf(location.hash);
        if (address.seq !== undefined) {
            this.#reveal(true);
            await this.#work('reference', () => this.#reference.show(address.seq ?? ''));
            return;
        }
        this.#reveal(false);
        this.#asked = address;
        this.#all = Boolean(address.all);
        $input(this.#all ? 'all-text' : 'each-line').checked = true;
        this.#view = VIEWS.find(it => it === address.view) ?? 'seen';
        const bytes = address.z && await unpacked(address.z).catch(() => undefined);
        if (bytes) this.#named({ name: 'from a link', blob: new Blob([bytes]) });
        else if (address.z) this.#note('The link was cut: it carries nothing that can be read.');
        else this.#source.text(address.text ?? '', '', address.raw ? false : undefined);
        this.#tell();
    }

    /**
     * Shows the reference card, or the stream.
     * @param {boolean} isCard
     */
    #reveal(isCard) {
        this.#seq = isCard ? this.#seq ?? '' : undefined;
        $('reference').hidden = !isCard;
        $('stream').hidden = isCard;
        $('to-reference').setAttribute('aria-expanded', String(isCard));
    }

    /** A link that carries the stream; of a large one, what stands from the selected row on. */
    async #link() {
        const { blob } = this.#stream;
        const isWhole = blob.size < 1e5;
        const row = this.#view === 'words' ? this.#words.selected : -1;
        let part = await carried(blob, isWhole || row < 0 ? 0 : this.#index.placeOf(row));
        if (part.to < blob.size && row >= 0 && !part.from) part = await carried(blob, this.#index.placeOf(row));
        /** @type {Address} */
        const state = { ...this.#state(), text: undefined, raw: undefined, z: part.text, at: undefined };
        if (!part.from && this.#words.selected >= 0) state.at = this.#index.placeOf(this.#words.selected);
        history.replaceState(null, '', hashOf(state));
        this.#asked.z = part.text;
        const all = !part.from && part.to === blob.size;
        const ends = [part.from, part.to - 1].map(it => it.toLocaleString('en'));
        const what = all ? 'it carries the stream itself' : `it carries bytes ${ends.join(' to ')}`;
        this.#note(`The link ${await copied(location.href) ? 'is copied' : 'stands in the address bar'}; ${what}.`);
    }

    // ---- results

    /**
     * What a view writes, as a file.
     * @param {View} view
     */
    async #result(view) {
        const words = view === 'words' ? ['explain', '--json'] : wordsOf(view, this.#all);
        // A page of its own, and no piece of one.
        const whole = view === 'seen' ? words.filter(it => it !== '--classes' && it !== '--fragment') : words;
        return this.#work('save', () => this.#engine.ask('save', { task: 'save', blob: this.#stream.blob, words: whole }));
    }

    async #save() {
        const { blob } = await this.#result(this.#view);
        const base = (this.#stream.name || 'stream').replace(/\.\w+$/, '').replace(/[^\w.-]+/g, '-');
        saved(blob, `${base}.${{ seen: 'html', words: 'jsonl', plain: 'txt', shorter: 'bin' }[this.#view]}`);
    }

    async #copy() {
        const isWords = this.#view === 'words';
        const { blob: stream } = this.#stream;
        const words = isWords ? ['explain'] : this.#view === 'shorter' ? ['compact'] : wordsOf('plain', this.#all);
        const { blob } = await this.#work('save', () => this.#engine.ask('save', { task: 'save', blob: stream, words }));
        const isLong = blob.size > MOST_COPIED;
        const html = this.#view === 'seen' && !isLong ? (await this.#result('seen')).blob : undefined;
        const isCopied = !isLong && await copied(await blob.text(), html && await html.text());
        if (isLong) this.#note(`That is ${size(blob.size)}: save it.`);
        else this.#note(isCopied ? `${size(blob.size)} are copied.` : 'This browser lets no page copy: save it.');
    }

    // ---- what is pressed

    #listen() {
        for (const view of VIEWS) $(`tab-${view}`).addEventListener('click', () => this.#choose(view));
        $('tabs').addEventListener('keydown', event => {
            const by = { ArrowRight: 1, ArrowLeft: -1 }[event.key];
            if (!by) return;
            const view = VIEWS[(VIEWS.indexOf(this.#view) + by + VIEWS.length) % VIEWS.length];
            this.#choose(view);
            $(`tab-${view}`).focus();
        });
        for (const it of ['all-text', 'each-line']) {
            $(it).addEventListener('change', () => {
                this.#all = $input('all-text').checked;
                this.#origins = undefined;
                this.#show();
                this.#address();
            });
        }
        for (const [name, { name: title, view, text }] of Object.entries(this.#examples)) {
            $(`example-${name}`).addEventListener('click', () => {
                this.#forget();
                this.#view = /** @type {View} */ (view);
                this.#named({ name: title, blob: new Blob([text]) });
            });
        }
        $('copy').addEventListener('click', () => this.#copy());
        $('save').addEventListener('click', () => this.#save());
        $('link').addEventListener('click', () => this.#work('link', () => this.#link()));
        $('back').addEventListener('click', () => this.#back());
        $('unfilter').addEventListener('click', () => this.#filter.clear());
        $('lookup').addEventListener('click', () => this.#look());
        $('go').addEventListener('keydown', event => {
            if (event.key !== 'Enter') return;
            const isThere = this.#words.go($input('go').value);
            $input('go').setCustomValidity(isThere ? '' : 'nothing has that');
            $('go').setAttribute('aria-invalid', String(!isThere));
            if (isThere) $('words').focus();
        });
        $('to-reference').addEventListener('click', () => this.#card($('reference').hidden));
        $('to-about').addEventListener('click', () => /** @type {HTMLDialogElement} */ ($('about')).showModal());
        addEventListener('hashchange', () => this.#linked());
        addEventListener('keydown', event => this.#key(event));
    }

    /** @param {boolean} isShown */
    #card(isShown) {
        this.#reveal(isShown);
        if (isShown) {
            this.#reference.show(this.#seq ?? '');
            $('seq').focus();
        } else this.#address();
    }

    /** Looks the selected sequence up. */
    async #look() {
        const row = this.#words.selected;
        const [span] = row < 0 ? [] : await this.#index.spans(row, row + 1);
        if (!span) return;
        this.#reveal(true);
        this.#reference.show(visible(span.text ?? ''));
        $('seq').focus();
    }

    /** @param {KeyboardEvent} event */
    #key(event) {
        const target = /** @type {Element} */ (event.target);
        if (target.matches('input, textarea') || event.ctrlKey || event.metaKey || event.altKey || this.#seq !== undefined) return;
        const focus = { '/': 'search', g: 'go' }[event.key];
        if (!focus && event.key !== 'j' && event.key !== 'k') return;
        event.preventDefault();
        this.#choose('words');
        if (focus) $input(focus).select();
        else {
            $('words').focus();
            this.#words.key(event);
        }
    }
}

/**
 * @param {string} text
 * @param {string} [html]
 */
async function copied(text, html) {
    try {
        const texts = { 'text/plain': text, ...(html ? { 'text/html': html } : {}) };
        const blobs = Object.entries(texts).map(([type, it]) => [type, new Blob([it], { type })]);
        await navigator.clipboard.write([new ClipboardItem(Object.fromEntries(blobs))]);
        return true;
    } catch {
        return false;
    }
}

try {
    const [worker, tables, vim] = ['worker', 'tables', 'vim'].map(textOf);
    const engine = new Engine(worker, await WebAssembly.compile(inside(data('program'))));
    await new Page(engine, JSON.parse(tables), vim).start();
} catch (fault) {
    const { message } = /** @type {Error} */ (fault);
    $('said').textContent = `This browser can't run the page: it needs WebAssembly, and streams that unpack (${message}).`;
}
