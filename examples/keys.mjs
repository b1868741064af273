// Reads keys from a terminal in raw mode, and says which they are, until q is pressed.
//
//     node keys.mjs
import { Codec, InputParser } from 'csicodec';

/** How long an ESC is waited behind, in milliseconds, before it is a key of its own. */
const PATIENCE = 50;

const codec = await Codec.load(), parser = new InputParser(codec), decoder = new TextDecoder();

/**
 * What an event is, in words.
 * @param {import('csicodec').InputEvent} event
 */
function nameOf(event) {
    if (event.type === 'Text') return `text ${JSON.stringify(event.text)}`;
    if (event.type !== 'Unspecified') return JSON.stringify(event);
    const known = codec.known(event);
    return known ? `${known.kind} ${JSON.stringify(known.values)}` : `unknown ${JSON.stringify(decoder.decode(codec.encode([event])))}`;
}

/** @param {import('csicodec').InputEvent[]} events */
function say(events) {
    for (const event of events) {
        process.stdout.write(`${nameOf(event)}\r\n`);
        if (event.type === 'Text' && event.text === 'q') process.exit();
    }
}

/** @type {unknown} */
let waiting;
process.stdin.setRawMode?.(true);
process.stdin.on('data', data => {
    clearTimeout(waiting);
    say(parser.feed(data));
    waiting = setTimeout(() => say(parser.pause()), PATIENCE);
});
process.stdin.on('end', () => say(parser.finish()));
