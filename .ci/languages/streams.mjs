// Whether the package for JavaScript tells the events of streams.tsv, whose path is given.
import assert from 'node:assert';
import { readFileSync } from 'node:fs';
import { Codec, Parser } from 'csicodec';

const codec = await Codec.load();
const hex = bytes => Buffer.from(bytes).toString('hex');

// The codes of escape sequences that rows have.
const CODES = { AsciiCharacterSetG0: '2842' };

/** An event as a row has it; a piece that goes on with the one before begins with +. */
function word(event) {
    switch (event.type) {
        case 'Text': return `T${hex(event.bytes)}`;
        case 'Malformed': return `M${hex(event.bytes)}`;
        case 'ControlString': return `${event.first ? `${event.kind}(` : '+'}${hex(event.bytes)}${event.last ? ')' : ''}`;
        case 'Esc': return `E${CODES[event.code]}`;
        case 'UnknownEsc': return `E${hex(Buffer.from(event.intermediate + event.final))}`;
        default: return `A${Buffer.from(codec.encode([event])).toString().slice(2)}`;
    }
}

function told(events) {
    const words = [];
    for (const now of [...events].map(word)) {
        const last = words.at(-1);
        if (now[0] === '+' || last && now[0] === last[0] && 'TM'.includes(now[0])) words[words.length - 1] += now.slice(1);
        else words.push(now);
    }
    return words.join(' ');
}

const rows = readFileSync(process.argv[2], 'ascii').split('\n').filter(row => row && row[0] !== '#');
for (const [stream, wanted] of rows.map(row => row.split('\t'))) {
    const held = Buffer.from(stream, 'hex');
    assert.equal(told(codec.events(held)), wanted, stream);
    for (let cut = 0; cut <= held.length; cut++) {
        const parser = new Parser(codec);
        assert.equal(told([...parser.feed(held.subarray(0, cut)), ...parser.feed(held.subarray(cut)), ...parser.finish()]), wanted, `${stream}, cut at ${cut}`);
    }
}
assert(rows.length > 20);
console.log(`streams: ${rows.length} of JavaScript`);
