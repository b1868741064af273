// node .ci/page.mjs PAGE [--program PROGRAM FILE ..] [--large] [--pictures FOLDER]: the page in headless Chromium, at two widths, light and dark:
// what its views show, that markup stays text, that nothing is fetched, and how one gets from one thing to another. With a PROGRAM the coloured
// view of each FILE is what that program writes; with --large 20 MB are looked at; with --pictures, pictures go to a FOLDER. Where tsc is there,
// the page's types are checked.
import { execFileSync, spawnSync } from 'node:child_process';
import { mkdtempSync, readFileSync, rmSync, writeFileSync } from 'node:fs';
import { tmpdir } from 'node:os';
import { basename, dirname, join } from 'node:path';
import { fileURLToPath } from 'node:url';
import { Browser, sleep } from './browser.mjs';

const LOOKS = [['wide', 1280, 800, 'light'], ['narrow', 390, 844, 'light'], ['dark', 1280, 800, 'dark'], ['narrow-dark', 390, 844, 'dark']];
const top = dirname(dirname(fileURLToPath(import.meta.url)));
const page = process.argv[2];
const words = process.argv.slice(3);
const valueOf = word => words.includes(word) ? words[words.indexOf(word) + 1] : undefined;
const files = words.includes('--program') ? words.slice(words.indexOf('--program') + 2).filter(it => !it.startsWith('--')) : [];
const room = mkdtempSync(join(tmpdir(), 'page-files-'));
const wants = (isSo, what) => { if (!isSo) throw new Error(what); };
const equals = (found, wanted, what) => wants(found === wanted, `${what}: ${JSON.stringify(found)}, and not ${JSON.stringify(wanted)}`);
const spell = fields => `#${new URLSearchParams(fields)}`;

// ---- what the page shows, as data

/** The rows of the list that are in the document: cells by their class. */
const rows = browser => browser.run(() => [...document.querySelectorAll('#list .line')]
    .sort((a, b) => a.ariaRowIndex - b.ariaRowIndex)
    .map(row => Object.fromEntries([...row.children].map(cell => [cell.classList[0], cell.textContent]))));
/** The lines that are in the document: text, and pieces with their look. */
const lines = browser => browser.run(() => [...document.getElementById('lines').shadowRoot.querySelectorAll('.line')].map(line => ({
    number: Number(line.dataset.line),
    text: line.textContent,
    parts: [...line.children].map(it => [it.className, it.style.cssText, it.textContent]),
})));
/** The first and the last byte of the selected row. */
async function placeOf(browser) {
    const [first, last = first] = (await browser.text('detail-place')).match(/\d[\d,]*/g).map(it => Number(it.replaceAll(',', '')));
    return [first, last];
}
const isShown = (browser, id) => browser.run(id => document.getElementById(id).checkVisibility(), id);
const chips = browser => browser.run(() => Object.fromEntries([...document.querySelectorAll('.chip[data-name]')].map(it => [it.dataset.name, it.textContent])));
const press = (browser, name) => browser.run(name => [...document.querySelectorAll('.chip')].find(it => it.dataset.name === name).click(), name);

/** Opens the page at a sequence, of which a worker tells. */
async function openCard(browser, seq) {
    await browser.open(page, spell({ seq }));
    await browser.until(() => document.querySelector('#card table') !== null, () => `${seq}: no card`);
}

// ---- the views

const MARKUP = '<img src=x onerror="document.title=1"><b>b</b>';

async function markupStaysText(browser) {
    const text = String.raw`\e[5;7H${MARKUP}\e]0;${MARKUP}\a\e[1<m\eP${MARKUP}\e\\\e_${MARKUP}\e\\\eX${MARKUP}\e\\\e]8;;${MARKUP}\a\e[31m${MARKUP}\e[<${MARKUP}`;
    for (const view of ['seen', 'words', 'plain', 'shorter']) {
        await browser.open(page, spell({ text, view }));
        const shown = view === 'words' ? JSON.stringify(await rows(browser)) : (await lines(browser)).map(it => it.text).join('\n');
        wants(shown.includes('<b>b</b>'), `${view}: markup is not shown as text`);
        for (let i = 0; view === 'words' && i < 16; i++) await browser.key('j');
        const made = await browser.run(() => [document, document.getElementById('lines').shadowRoot]
            .reduce((n, it) => n + it.querySelectorAll('main img, main b, .line img, .line b').length, 0));
        equals(made, 0, `${view}: elements made of markup`);
    }
    await openCard(browser, `\\e]0;${MARKUP}\\a`);
    wants((await browser.text('card')).includes(MARKUP), 'the card does not show markup as text');
    equals(await browser.run(() => document.querySelectorAll('#card img, #card b').length), 0, 'elements that the card made of markup');
    equals(await browser.run(() => document.title.slice(0, 8)), 'csicodec', 'the title, which a script of the stream would change');
}

async function seenAndBack(browser) {
    await browser.open(page, spell({ text: String.raw`one \e[31mred\e[0m\r\n10%\r\e[1m20%\e[0m\r\n\e[38;2;10;120;200mtrue` }));
    equals(await browser.run(() => document.querySelector('[role=tab][aria-selected=true]').textContent), 'Colours', 'the first view');
    equals((await lines(browser)).map(it => it.text).join('|'), 'one red|20%|true', 'each line at its end');
    wants((await lines(browser))[0].parts.some(([look, , text]) => /\bfg-1\b/.test(look) && text === 'red'), 'red is not red');
    const looks = await browser.run(() => [...document.getElementById('lines').shadowRoot.querySelectorAll('span')].map(it => getComputedStyle(it).color));
    wants(new Set(looks).size >= 3, `the style sheet gives ${new Set(looks).size} colours`);
    await browser.run(() => [...document.getElementById('lines').shadowRoot.querySelectorAll('span')].find(it => it.textContent === 'red').click());
    await browser.until(() => document.getElementById('because').textContent !== '', () => 'nothing made it red');
    await browser.idle();
    wants((await browser.text('because')).includes(String.raw`its look is from \e[31m: foreground red`), `what made it red: ${await browser.text('because')}`);
    equals(await browser.text('detail-bytes'), String.raw`\e[31m`, 'the sequence that made it red');
    await browser.click('back');
    equals(await browser.run(() => document.getElementById('lines').shadowRoot.querySelector('.marked').textContent), 'one red', 'the line of that sequence');
    await browser.click('all-text');
    wants((await lines(browser)).some(it => it.text.startsWith('10%20%')), 'all text is not shown');
    await browser.click('tab-plain');
    equals((await lines(browser)).map(it => it.text).join('|'), 'one red|10%20%|true', 'all of the plain text');
    await browser.click('each-line');
    equals((await lines(browser)).map(it => it.text).join('|'), 'one red|20%|true', 'the plain text');
    await browser.open(page, spell({ text: String.raw`\e[0;01mred`, view: 'shorter' }));
    equals((await lines(browser))[0].text, String.raw`\e[;1mred`, 'the shorter form');
    wants((await browser.text('said')).endsWith('8 bytes in the shorter form (20 % fewer)'), `what is saved: ${await browser.text('said')}`);
    await browser.run(() => {
        const make = URL.createObjectURL;
        URL.createObjectURL = blob => { kept.push(blob.text()); return make(blob); };
        HTMLAnchorElement.prototype.click = function () { kept.push(this.download); };
    });
    for (const [view, name, wanted] of [
        ['seen', 'stream.html', '<!DOCTYPE html>'], ['plain', 'stream.txt', 'red'],
        ['shorter', 'stream.bin', '\x1b[;1mred'], ['words', 'stream.jsonl', '{"at":0'],
    ]) {
        await browser.click(`tab-${view}`);
        await browser.run(() => { window.kept = []; });
        await browser.click('save');
        const [text, saved] = await browser.run(() => Promise.all(kept));
        equals(saved, name, `the file of ${view}`);
        wants(text.startsWith(wanted), `the file of ${view} begins with ${text.slice(0, 40)}`);
    }
    await browser.run(() => { navigator.clipboard.write = async ([it]) => { window.held = await (await it.getType('text/plain')).text(); }; });
    await browser.click('tab-plain');
    await browser.click('copy');
    await browser.until(() => window.held !== undefined, () => 'nothing is copied');
    equals(await browser.run(() => held), 'red', 'what is copied');
}

// ---- what is given

async function pasted(browser) {
    await browser.open(page, spell({ view: 'words' }));
    wants(await browser.paste('input', 'C:\\new\\table \x1b[31mtwo\x1b[0m\r\nnext ^[0-9]\r\n'), 'a log with ESC goes through the text area');
    const shown = await rows(browser);
    equals(shown[0].bytes, '"C:\\new\\table "', 'a pasted log, whose backslashes stay');
    equals(shown.filter(it => it.name === 'CR LF').length, 2, 'its CR LF, each as one row');
    wants(await browser.run(() => document.getElementById('reading-raw').checked), 'the switch says that its escapes were read');
    await browser.click('reading-read');
    equals((await rows(browser))[0].bytes, '"C:"', 'the same log with its escapes read');
    await browser.click('clear');
    await browser.type('input', String.raw`\e[1ma \x1b[2mb \033[3mc ^[[4md\n`);
    equals((await rows(browser)).filter(it => it.name === 'SGR').length, 4, 'escapes in four spellings');
    wants(await browser.run(() => document.getElementById('reading-read').checked), 'the switch says that they stand as they are');
    await browser.click('reading-raw');
    equals((await rows(browser)).length, 1, 'the same as it stands');
    await browser.type('input', String.raw`C:\new\table`);
    equals((await rows(browser))[0].bytes, String.raw`"C:\new\table"`, 'a text with no ESC of any kind');
}

async function emptyAndExamples(browser) {
    await browser.open(page);
    wants(await isShown(browser, 'start') && !await isShown(browser, 'results'), 'an empty page shows no way to begin');
    for (const [name, wanted] of [['log', 'Downloading'], ['vim', 'DECSET 1049'], ['attack', 'OSC 52']]) {
        await browser.click(`example-${name}`);
        wants(!await isShown(browser, 'start'), `${name}: the page still looks empty`);
        const shown = JSON.stringify([await rows(browser), await lines(browser), await chips(browser)]);
        wants(shown.includes(wanted), `${name}: no ${wanted}`);
        wants(await isShown(browser, 'chip') && !await isShown(browser, 'box'), `${name}: no chip in place of the box`);
        wants((await browser.text('chip-size')).includes('byte'), `${name}: no size`);
        await browser.click('clear');
        wants(await isShown(browser, 'start') && await isShown(browser, 'box'), `${name}: it is not cleared`);
    }
}

async function forgotten(browser) {
    const secret = String.raw`\e[31mthe password\e[m`.repeat(200);
    const cast = join(top, 'examples/make.cast');
    for (const [what, leave] of [['Clear', () => browser.click('clear')], ['an example', () => browser.click('example-log')], ['a file', () => browser.files('file', cast)]]) {
        await browser.open(page);
        await browser.paste('input', secret);
        await browser.idle();
        await browser.click('link');
        wants((await browser.run(() => location.hash)).includes('z='), `${what}: the link carries no stream`);
        wants(await browser.text('note') !== '', `${what}: nothing is said of the link`);
        await leave();
        await browser.idle();
        await browser.pause(600);
        const hash = await browser.run(() => location.hash);
        wants(!/(z|text)=/.test(hash), `${what} leaves the stream in the address: ${hash.slice(0, 80)}`);
        equals(await browser.text('note'), '', `${what}: what was said of the link`);
        await browser.open(page, hash);
        wants(!JSON.stringify([await rows(browser), await lines(browser)]).includes('password'), `${what}: a reload brings it back`);
    }
}

async function recordings(browser) {
    await browser.open(page);
    const cast = join(top, 'examples/make.cast');
    for (let i = 0; i < 2; i++) {
        await browser.files('file', cast);
        await browser.idle();
        equals(await browser.text('chip-name'), 'make.cast', 'a recording that is opened again');
        await browser.click('clear');
    }
    await browser.files('file', cast);
    await browser.idle();
    const shown = await rows(browser);
    equals(shown[0].time, '0.250 s', 'the first time');
    equals(shown[0].at, '0', 'the first place');
    equals(shown.find(it => it.name === 'CR LF').at, '38', 'the place of CR LF');
    wants(shown.filter(it => it.name === 'text').every(it => /^\d+ bytes?$/.test(it.what)), 'a text with no words');
    const lefts = await browser.run(() => [...document.querySelectorAll('#list .line')].map(row => [...row.children].map(it => it.getBoundingClientRect().left).join()));
    equals(new Set(lefts).size, 1, 'places of the columns');
    await browser.run(() => {
        const slider = document.getElementById('time');
        slider.value = 2;
        slider.dispatchEvent(new Event('input'));
    });
    await browser.idle();
    wants((await browser.text('clock')).startsWith('1.750 s of 1.9'), `the clock says ${await browser.text('clock')}`);
    wants((await browser.text('detail-place')).includes('1.750 s'), 'the scrubber moves no row');
    await browser.click('play');
    await browser.until(() => document.getElementById('clock').textContent.startsWith('1.900 s'), () => 'it does not play');
    await browser.type('go', '1.5 s');
    await browser.run(() => document.getElementById('go').focus());
    await browser.key('Enter');
    await browser.idle();
    wants((await browser.text('detail-place')).includes('at 1.500 s'), 'it does not go to a time');
    const [typescript, times] = [join(room, 'typescript'), join(room, 'times')];
    writeFileSync(typescript, 'Script started on 2026-11-26\nab\x1b[1mc\n');
    writeFileSync(times, '0.5 2\n1.25 6\n');
    await browser.files('file', times, typescript);
    await browser.idle();
    equals((await rows(browser)).map(it => it.time).slice(-4).join(), '0.500 s,1.750 s,1.750 s,1.750 s', 'the times of a typescript');
}

async function links(browser) {
    const long = Array.from({ length: 900 }, (_, i) => `\x1b[3${i % 8}mline ${i}\x1b[0m`).join('\r\n');
    await browser.open(page);
    await browser.paste('input', long);
    await browser.click('tab-words');
    await browser.click('link');
    wants((await browser.text('note')).includes('it carries the stream itself'), `of ${long.length} characters: ${await browser.text('note')}`);
    const hash = await browser.run(() => location.hash);
    wants(hash.length < 30_000, `the link has ${hash.length} characters`);
    await browser.open(page, hash);
    equals((await rows(browser))[1].bytes, '"line 0"', 'the stream of a link');
    await browser.open(page, hash.slice(0, 2000));
    wants((await browser.text('note')).includes('cut'), 'a link that was cut');
    await browser.open(page, spell({ view: 'words' }));
    const random = join(room, 'random.bin');
    let seed = 1;
    writeFileSync(random, Uint8Array.from({ length: 300_000 }, () => (seed = seed * 48271 % 2147483647) & 255));
    await browser.files('file', random);
    await browser.idle();
    await browser.type('go', '1000');
    await browser.run(() => document.getElementById('go').focus());
    await browser.key('Enter');
    await browser.idle();
    await browser.click('link');
    const said = await browser.text('note');
    wants(/it carries bytes (\d|,)+ to (\d|,)+/.test(said), `of a part: ${said}`);
}

// ---- how one gets about

async function keysAndPlaces(browser) {
    const text = Array.from({ length: 3000 }, (_, i) => `\\e[${i + 1}Gx\\n`).join('');
    await browser.open(page, spell({ view: 'words' }));
    await browser.type('input', text);
    const inDocument = await browser.run(() => document.querySelectorAll('#list .line').length);
    wants(inDocument < 100, `${inDocument} rows are in the document`);
    equals(await browser.run(() => document.getElementById('words').ariaRowCount), '9001', 'the count of rows');
    await browser.run(() => document.activeElement.blur());
    for (const key of ['j', 'j', 'j', 'k']) await browser.key(key);
    await browser.pause(500);
    await browser.idle();
    equals(await browser.text('detail-place'), 'byte 4 · text', 'j j j k');
    wants((await browser.run(() => location.hash)).includes('at=4'), 'the address has no place');
    await browser.key('/');
    equals(await browser.run(() => document.activeElement.id), 'search', '/');
    await browser.run(() => document.activeElement.blur());
    await browser.key('g');
    equals(await browser.run(() => document.activeElement.id), 'go', 'g');
    await browser.type('go', '20000');
    await browser.key('Enter');
    await browser.idle();
    const [first, last] = await placeOf(browser);
    wants(first <= 20_000 && last >= 20_000, `byte 20,000 is of the row ${first} to ${last}`);
    await browser.key('End');
    await browser.idle();
    equals((await rows(browser)).pop().name, 'LF', 'the last row');
    await browser.open(page, spell({ text: String.raw`ab\e[1mcd\e[5;7H`, view: 'words', at: 8 }));
    equals(await browser.text('detail-bytes'), String.raw`\e[5;7H`, 'the place of an address');
}

async function search(browser) {
    const text = String.raw`\e[1m\e[5;7Hhello\e[99z\e[?25l\e[1`;
    await browser.open(page, spell({ text, view: 'words' }));
    equals((await chips(browser)).unknown, 'unknown 1', 'the chip of what is unknown');
    await press(browser, 'unknown');
    await browser.idle();
    equals((await rows(browser)).map(it => it.bytes).join(), String.raw`\e[99z`, 'what is unknown');
    wants((await browser.text('means')).includes('no table has'), 'it is not said what unknown means');
    await press(browser, 'unknown');
    for (const [typed, wanted] of [
        ['SGR', String.raw`\e[1m`], ['VISIBLE', String.raw`\e[?25l`], ['hell', '"hello"'],
        [String.raw`\e[5`, String.raw`\e[5;7H`], ['line 5', String.raw`\e[5;7H`],
    ]) {
        await browser.type('search', typed);
        equals((await rows(browser)).map(it => it.bytes).join(), wanted, `the search for ${typed}`);
    }
    await browser.type('search', 'S');
    wants(!/Not|--|help/.test(await browser.text('said')), `S: ${await browser.text('said')}`);
    await browser.type('search', 'nothing like it');
    wants(await isShown(browser, 'nothing'), 'an empty search says nothing');
    await browser.click('unfilter');
    equals((await rows(browser)).length, 6, 'all rows again');
}

async function card(browser) {
    const first = () => browser.run(() => [...document.querySelector('#card tbody tr').children].map(it => it.textContent).join('|'));
    for (const [seq, wanted] of [
        ['CSI ?73n', String.raw`\e[?73n|DSR|answer: nothing to tell of data|EK-VT520-RM, DSR`],
        ['CSI ? 25 h', String.raw`\e[?25h|DECSET 25|visible cursor (DECTCEM) on|EK-VT520-RM, DECTCEM`],
        ['DECTCEM', String.raw`\e[?25h|DECSET 25|visible cursor (DECTCEM) on|EK-VT520-RM, DECTCEM`],
    ]) {
        await openCard(browser, seq);
        equals(await first(), wanted, seq);
    }
    await openCard(browser, String.raw`\e[?2J`);
    wants((await browser.text('card')).includes('CSI ? extent 0-3 (or 0) J'), 'no form of DECSED');
    await openCard(browser, 'CSI 3 r');
    wants((await browser.text('card')).includes('Where terminals differ'), 'no word on where terminals differ');
    wants((await browser.text('card')).includes('SetTopAndBottomMargins'), 'no fields');
    const address = await browser.run(() => document.querySelector('#card a').hash);
    wants(address.startsWith('#seq='), 'a row has no address');
    await browser.type('seq', 'bold');
    wants((await browser.text('card')).includes('SGR'), 'no row for a word');
}

// ---- how it looks

async function looks(browser, width) {
    await browser.open(page);
    const before = await browser.run(() => document.getElementById('input').offsetHeight);
    await browser.type('input', String.raw`\e[1mbold\e[99z`);
    wants(await browser.run(() => document.getElementById('input').offsetHeight) < before, 'the box does not shrink');
    for (const view of ['seen', 'words', 'plain', 'shorter']) {
        await browser.click(`tab-${view}`);
        const y = await browser.run(() => document.getElementById('panel').getBoundingClientRect().top);
        wants(y < (width < 500 ? 300 : 260), `${view}: the result begins at ${y} pixels`);
        equals(await browser.run(hiddenAndThere), '', `${view}: hidden, and there`);
        wants(await browser.run(() => document.documentElement.scrollWidth <= innerWidth), `${view}: wider than the window`);
        equals(await browser.run(small), '', `${view}: targets below 24 pixels`);
        equals(await browser.run(tooPale), '', `${view}: too little contrast`);
    }
    wants((await browser.text('about-words')).includes('span') && (await browser.text('about-shorter')).includes('shorter form'), 'words that are not explained');
    await browser.click('tab-words');
    await browser.run(() => document.getElementById('words').focus());
    await browser.key('j');
    await browser.idle();
    const { nodes } = await browser.ask('Accessibility.getFullAXTree');
    const named = nodes.filter(it => !it.ignored && /^(button|textbox|searchbox|radio|tab|slider|grid|link|dialog|main|region)$/.test(it.role?.value));
    for (const it of named.filter(it => it.role.value !== 'main')) wants(it.name?.value, `a ${it.role.value} without a name`);
    equals(named.filter(it => it.role.value === 'main').length, 1, 'main parts');
    for (const role of ['grid', 'row', 'gridcell', 'columnheader', 'tablist', 'tab', 'status', 'heading']) {
        wants(nodes.some(it => !it.ignored && it.role?.value === role) || role === 'columnheader' && width < 500, `no ${role}`);
    }
    const row = await browser.run(() => document.getElementById(document.getElementById('words').getAttribute('aria-activedescendant'))?.ariaSelected);
    equals(row, 'true', 'the row that a screen reader hears');
    const stops = new Set();
    for (let i = 0; i < 40; i++) {
        await browser.key('Tab');
        stops.add(await browser.run(() => document.activeElement.id || document.activeElement.className));
    }
    for (const id of ['to-reference', 'to-about', 'input', 'file', 'tab-words', 'copy', 'save', 'link', 'search', 'go', 'words', 'back', 'lookup']) {
        wants(stops.has(id), `the tabulator does not stop at ${id}`);
    }
    await browser.click('to-about');
    const about = await browser.text('about');
    wants(/csicodec \d+\.\d+\.\d+/.test(about) && about.includes('MIT License') && about.includes('SAFETY'), 'who made it, and under which license');
}

/** In the page: what has `hidden`, and is shown. */
const hiddenAndThere = () => [...document.querySelectorAll('[hidden]')].filter(it => getComputedStyle(it).display !== 'none').map(it => it.id).join();

/** In the page: what one presses, and is smaller than 24 pixels. A label is pressed for its box. */
function small() {
    const all = [...document.querySelectorAll('button, input, textarea, a, summary')].filter(it => it.checkVisibility());
    const sizes = all.map(it => [it.id || it.textContent, (it.closest('.button, fieldset label') ?? it).getBoundingClientRect()]);
    return sizes.filter(([, it]) => it.height && (it.height < 24 || it.width < 24)).map(([name]) => name).join();
}

/** In the page: the first text whose contrast to its ground is under 4.5, by WCAG. */
function tooPale() {
    const canvas = document.createElement('canvas').getContext('2d', { willReadFrequently: true });
    const colour = text => {
        canvas.clearRect(0, 0, 1, 1);
        canvas.fillStyle = text;
        canvas.fillRect(0, 0, 1, 1);
        return [...canvas.getImageData(0, 0, 1, 1).data];
    };
    const linear = it => it <= 0.04045 ? it / 12.92 : ((it + 0.055) / 1.055) ** 2.4;
    const light = ([r, g, b]) => 0.2126 * linear(r / 255) + 0.7152 * linear(g / 255) + 0.0722 * linear(b / 255);
    const ground = it => {
        for (; it; it = it.parentElement) if (colour(getComputedStyle(it).backgroundColor)[3] === 255) return colour(getComputedStyle(it).backgroundColor);
        return [255, 255, 255];
    };
    for (const it of document.querySelectorAll('main *, header *')) {
        if (!it.checkVisibility() || ![...it.childNodes].some(node => node.nodeType === 3 && node.data.trim())) continue;
        const [one, two] = [light(colour(getComputedStyle(it).color)), light(ground(it))];
        const contrast = (Math.max(one, two) + 0.05) / (Math.min(one, two) + 0.05);
        if (contrast < 4.5) return `${it.tagName} ${it.id || it.className} ${contrast.toFixed(1)} "${it.textContent.slice(0, 30)}"`;
    }
    return '';
}

// ---- beside the program, and 20 MB

/** What the program writes, read by the same few rules that its documents have: spans with classes and styles around text. */
function written(program, file) {
    const html = execFileSync(program, ['html', '--classes', '--fragment', file], { maxBuffer: 1 << 28 }).toString();
    const names = { amp: '&', lt: '<', gt: '>', quot: '"' };
    const plain = text => text.replace(/&(?:#(\d+)|(\w+));/g, (_, number, name) => number ? String.fromCodePoint(number) : names[name]);
    return html.replace(/\n$/, '').split('\n').map(line => line.split(/(?<=<\/span>)|(?=<span)/).filter(Boolean).map(part => {
        const [, look = '', text = part] = /^<span([^>]*)>(.*)<\/span>$/.exec(part) ?? [];
        return [/class="([^"]*)"/.exec(look)?.[1] ?? '', /style="([^"]*)"/.exec(look)?.[1] ?? '', plain(text)];
    }));
}

/** Whether two parts look alike; the browser writes colours in its own way. */
function look([name, style, text]) {
    const colours = [...style.matchAll(/#(..)(..)(..)|rgb\((\d+), (\d+), (\d+)\)/g)];
    const numbers = colours.map(([, ...it]) => it[0] ? it.slice(0, 3).map(digits => parseInt(digits, 16)) : it.slice(3).map(Number));
    return [name, numbers.join(';'), text].join('\t');
}

async function asTheProgram(browser, program, file) {
    await browser.open(page);
    await browser.files('file', file);
    await browser.idle();
    await browser.click('tab-seen');
    const wanted = written(program, file);
    const found = [];
    for (;;) {
        for (const line of await lines(browser)) found[line.number] = line.parts;
        const isEnd = await browser.run(() => {
            const it = document.getElementById('lines');
            if (it.scrollTop + it.clientHeight >= it.scrollHeight - 1) return true;
            it.scrollTop += it.clientHeight;
            return new Promise(go => requestAnimationFrame(() => requestAnimationFrame(() => go(false))));
        });
        if (isEnd) break;
    }
    const shown = found.map(parts => parts.map(look).join('\n')).join('\n\n');
    equals(shown, wanted.map(parts => parts.map(look).join('\n')).join('\n\n'), `${basename(file)} in colours`);
}

/** 20 MB are looked at: what of it took too long, or too much. The bound of time is wider where the machine is slow just then. */
async function tooMuch(browser, file) {
    await browser.open(page, spell({ view: 'words' }));
    let most = 0;
    const watch = setInterval(() => { most = Math.max(most, browser.memory()); }, 250).unref();
    const longest = await browser.longest(async () => {
        await browser.files('file', file);
        await browser.idle();
        await browser.type('go', '15000000');
        await browser.run(() => document.getElementById('go').focus());
        await browser.key('Enter');
        await browser.idle();
        const [first, last] = await placeOf(browser);
        wants(first <= 15_000_000 && last >= 15_000_000, `byte 15,000,000 is of the row ${first} to ${last}`);
        const begun = Date.now();
        await browser.type('search', 'XTWINOPS');
        await browser.idle();
        const shown = /([\d,]+) shown/.exec(await browser.text('said'))?.[1];
        wants(shown === '16,095', `XTWINOPS is shown ${shown} times`);
        console.error(`page: 20 MB: a search in ${Date.now() - begun} ms`);
        await browser.type('search', '');
        for (let i = 0; i < 20; i++) {
            await browser.run(i => { document.getElementById('list').scrollTop += i % 2 ? 300 : 90_000; }, i);
            await sleep(30);
        }
        await browser.click('tab-seen');
    });
    clearInterval(watch);
    const bound = Math.max(100, 2 * await browser.pace());
    console.error(`page: 20 MB: the longest block ${longest.toFixed(0)} ms of processor time, below ${bound.toFixed(0)}, ${(most / 1e6).toFixed(0)} MB`);
    return longest >= bound ? `a block of ${longest.toFixed(0)} ms` : most >= 600e6 ? `${most} bytes of memory` : '';
}

/** Tried up to three times: what other work on the machine does is different each time, and what the page does is not. */
async function large(browser) {
    const file = join(room, 'large.bin');
    const vim = readFileSync(join(top, 'examples/vim.stream'));
    writeFileSync(file, Buffer.concat(Array.from({ length: Math.ceil(20e6 / vim.length) }, () => vim)));
    let found = await tooMuch(browser, file);
    for (let i = 0; found && i < 2; i++) found = await tooMuch(browser, file);
    wants(!found, found);
}

// ---- all of it

function typed() {
    const { error, status, stdout } = spawnSync('tsc', ['-p', join(top, 'web/page/tsconfig.json')], { encoding: 'utf8' });
    if (error) console.error('page: no tsc: the types were not checked');
    else wants(!status, stdout);
}

function policy() {
    const text = readFileSync(page, 'utf8');
    wants(text.length < 700_000, `the page has ${text.length} bytes`);
    const [said] = /http-equiv="Content-Security-Policy" content="[^"]*"/.exec(text);
    wants(said.includes("default-src 'none'") && !said.includes('unsafe-inline') && !/https?:|connect-src/.test(said), `the policy: ${said}`);
}

/** Those that README shows: a sequence in words, light and dark. */
async function pictures(browser, folder) {
    for (const [name, width, height, scheme] of LOOKS.filter(([name]) => !name.startsWith('narrow'))) {
        await browser.look(width, height, scheme);
        await browser.open(page);
        await browser.click('example-log');
        await browser.run(() => [...document.getElementById('lines').shadowRoot.querySelectorAll('span')].find(it => it.textContent === 'error:').click());
        await browser.idle();
        await browser.run(() => document.activeElement.blur());
        await browser.picture(join(folder, name === 'dark' ? 'page-words-dark.png' : 'page-words.png'));
    }
}

const limit = setTimeout(() => {
    console.error('page: no end in two hours');
    process.exit(1);
}, 7_200_000);
const browser = await Browser.start();
try {
    typed();
    policy();
    for (const [name, width, height, scheme] of LOOKS) {
        await browser.look(width, height, scheme);
        const checks = { looks, seenAndBack, pasted, emptyAndExamples, forgotten, recordings, links, keysAndPlaces, search, card, markupStaysText };
        for (const [what, check] of Object.entries(checks)) {
            await check(browser, width).catch(error => { throw new Error(`${name}, ${what}: ${error.message}`); });
        }
    }
    await browser.look(1280, 800, 'light');
    for (const file of files) await asTheProgram(browser, valueOf('--program'), file);
    if (words.includes('--large')) await large(browser);
    if (words.includes('--pictures')) await pictures(browser, valueOf('--pictures'));
    const others = browser.fetched.filter(url => !/^(file|blob|about|data):/.test(url));
    wants(!others.length, `something was fetched: ${others[0]}`);
    wants(!browser.complaints.length, `the console says: ${browser.complaints[0]}`);
} catch (error) {
    console.error(`page: ${error.message}`);
    process.exitCode = 1;
} finally {
    clearTimeout(limit);
    browser.end();
    rmSync(room, { recursive: true });
}
