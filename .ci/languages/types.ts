// The types of the package for JavaScript, for tsc in its strict mode: what they tell apart, and, with @ts-expect-error, what they refuse.
import { Codec, CodecError, InputParser, KeyModifiers, KeyParser, OscReader, Parser } from 'csicodec';
import type { Action, Color, Event, InputEvent, Key, KnownKind, Osc, Span, StreamSpan } from 'csicodec';

const codec: Codec = await Codec.load();
const text: string = codec.strip('a'), bytes: Uint8Array = codec.clean(new Uint8Array(1), { colors: 256, links: true });

/** Each event by its type: where one is forgotten, `rest` isn't `never`. */
function told(event: Exclude<Event, Action>): string {
    switch (event.type) {
        case 'Text': return event.text;
        case 'Esc': return event.code;
        case 'UnknownEsc': return event.intermediate + event.final;
        case 'ControlString': return `${event.kind}${event.bytes.length}${event.first && event.last}`;
        case 'Malformed': return String(event.bytes[0] ?? 0);
        default: {
            const rest: never = event;
            return rest;
        }
    }
}

function colored(color: Color): number {
    switch (color.type) {
        case 'DefaultColor': return 0;
        case 'PaletteColor': return color.index;
        case 'TrueColor': return color.red + color.green + color.blue + color.alpha;
        default: {
            const rest: never = color;
            return rest;
        }
    }
}

function acted(action: Event | InputEvent): number {
    if (action.type === 'Cursor.Position') return action.line + action.col;
    if (action.type === 'Sgr.Foreground') return colored(action.color);
    if (action.type === 'Input.Mouse') return action.button;
    // @ts-expect-error there is no such type
    if (action.type === 'Cursor.Postion') return 1;
    // @ts-expect-error a text has no line
    if (action.type === 'Text') return action.line;
    return 0;
}

const parser = new Parser(codec, { limit: 100 }), keys = new KeyParser(codec), input = new InputParser(codec, { dialect: 'utf8' });
const events: Event[] = [...parser.feed('a'), ...parser.finish()], sent: InputEvent[] = [...input.feed(bytes), ...input.pause(), ...input.finish()];
const pressed: (Key | Uint8Array)[] = [...keys.feed('a'), ...codec.keys('b')], said: Osc | undefined = events.map(it => new OscReader(codec).take(it))[0];
const isCtrl = pressed.some(key => 'code' in key && key.code === 'Char' && key.modifiers === KeyModifiers.CTRL);
const spans: StreamSpan[] = codec.spans('a'), words: Span[] = codec.explain('a', { only: 'SGR' });
const up: Action = { type: 'Cursor.Up', count: 2 }, written: Uint8Array = codec.encode([up, { type: 'Sgr.Foreground', color: { type: 'PaletteColor', index: 1 } }]);
const known: KnownKind | undefined = codec.known({ type: 'Unspecified', params: ['?', 2], control: 'K' })?.kind;

// @ts-expect-error numbers are no text
codec.strip(5);
// @ts-expect-error there are 256 colours, or 16
codec.clean('a', { colors: 8 });
// @ts-expect-error the option is `colors`
codec.cleanStream({ color: 16 });
// @ts-expect-error an action has all its fields
codec.encode([{ type: 'Cursor.Position', line: 5 }]);
// @ts-expect-error its numbers are numbers
codec.encode([{ type: 'Cursor.Up', count: '2' }]);
// @ts-expect-error a Codec is made by Codec.load
new Codec();
// @ts-expect-error what is told stays as it is
if (events[0]?.type === 'Text') events[0].text = '';

export const all = [text, events.map(it => acted(it)), sent, told, said?.kind, isCtrl, spans.map(it => it.kind), words[0]?.at, written, known, new CodecError('a').status];
