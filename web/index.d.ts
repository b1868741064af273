import type { Action, EscCode, KeyCode, KnownKind, OscKind } from './actions.js';
export * from './actions.js';

/** Bytes. */
export type Bytes = ArrayBuffer | ArrayBufferView;
/** Bytes, or a string that is taken as UTF-8. */
export type Input = string | Bytes;
/** A module of WebAssembly, and a TransformStream that takes bytes or strings and writes bytes, as the environment has them. */
export type Module = typeof globalThis extends { WebAssembly: { Module: { prototype: infer T } } } ? T : object;
export type Transform = typeof globalThis extends { TransformStream: { prototype: infer T } } ? T : object;
/** A module, its bytes, or where it is: a URL, or its text. */
export type Source = Module | Bytes | { readonly href: string } | string;

/** An event of a stream: text, an action of a control sequence, an escape sequence, a piece of a control string, or malformed bytes. */
export type Event =
    /** Characters, C0 controls other than ESC, and DEL. In `text` what isn't UTF-8 is U+FFFD. */
    | { readonly type: 'Text'; readonly text: string; readonly bytes: Uint8Array }
    | Action
    | { readonly type: 'Esc'; readonly code: EscCode }
    /** An escape sequence without a code: its intermediate character, or '', and its final one. */
    | { readonly type: 'UnknownEsc'; readonly intermediate: string; readonly final: string }
    /** A piece of a control string, without what opens and closes it. A cancelled string has no last piece. */
    | { readonly type: 'ControlString'; readonly kind: 'OSC' | 'DCS' | 'SOS' | 'PM' | 'APC'; readonly bytes: Uint8Array; readonly first: boolean; readonly last: boolean }
    | { readonly type: 'Malformed'; readonly bytes: Uint8Array };

/** An event of what a terminal sends. Keys as one type: `codec.keys`. */
export type InputEvent =
    | Event
    /** SS3 (`ESC O`) and this character: a key of the keypad, an arrow, or F1 to F4. */
    | { readonly type: 'Input.Ss3'; readonly character: string }
    /** `ESC [ [` and this character: F1 to F5 of Linux' console are 'A' to 'E'. */
    | { readonly type: 'Input.Linux'; readonly character: string }
    /** ESC and this character: a key with alt. */
    | { readonly type: 'Input.Alt'; readonly character: string }
    /** A key with modifiers that xterm sends as `CSI number ; modifiers character`, in another form: `ESC O 5 P` (Konsole), `ESC O 1 ; 5 P`
     * (VTE before 0.38), `ESC ESC [ A`, `ESC ESC O A` and `ESC ESC [ 5 ~` (rxvt, iTerm2), the last three with alt. */
    | { readonly type: 'Input.Modified'; readonly number: number; readonly modifiers: number; readonly character: string }
    /** `ESC [ I`: the terminal got the focus (mode 1004). */
    | { readonly type: 'Input.FocusGained' }
    /** `ESC [`, this number, of one digit or two, and `$`: a key with shift, of rxvt. */
    | { readonly type: 'Input.Rxvt'; readonly number: number }
    /** `ESC [ M` and three characters. The button has 4 for shift, 8 for alt, 16 for control, 32 for a movement and 64 for a wheel. */
    | { readonly type: 'Input.Mouse'; readonly button: number; readonly column: number; readonly line: number }
    /** ESC alone: the key. */
    | { readonly type: 'Input.Escape' };

/** A key that was pressed, repeated or released, in each encoding that `encoding` can name. */
export interface Key {
    readonly type: 'Key';
    readonly code: KeyCode;
    /** The character of 'Char', and the number of 'F'. */
    readonly character?: string;
    readonly number?: number;
    /** What is held down with it: a sum of `KeyModifiers`. */
    readonly modifiers: number;
    readonly event: 'press' | 'repeat' | 'release';
    readonly encoding: 'legacy' | 'modifyOtherKeys' | 'kitty' | 'win32' | 'rxvt' | 'linux';
    /** What it types, where the encoding says that. */
    readonly text: string;
}

/** What an OSC says: its command, and the texts behind that. An unknown command has all bytes as its first text. */
export interface Osc {
    readonly type: 'Osc';
    readonly kind: OscKind;
    readonly first?: Uint8Array;
    readonly second?: Uint8Array;
}

/** Bytes of a stream, and what they are. */
export interface StreamSpan {
    kind: 'text' | 'csi' | 'esc' | 'string' | 'other';
    bytes: Uint8Array;
}

/** What is known of a control sequence without an action: which it is, and its values, with what stands for each that was left out. */
export interface Known {
    kind: KnownKind;
    values: number[];
}

/** The keys that are held while the mouse reports: `modifiers` is a sum of these. */
export const Modifiers: { readonly SHIFT: 2; readonly ALT: 4; readonly CTRL: 8 };
/** What is held down with a key, and the locks that are on: `modifiers` of a key is a sum of these. */
export const KeyModifiers: {
    readonly SHIFT: 1; readonly ALT: 2; readonly CTRL: 4; readonly SUPER: 8; readonly HYPER: 16; readonly META: 32; readonly CAPS_LOCK: 64; readonly NUM_LOCK: 128;
};
/** How a program wants keys reported (kitty's keyboard protocol): `flags` is a sum of these. */
export const KittyKeyboardFlags: {
    readonly DISAMBIGUATE_ESCAPE_CODES: 1; readonly REPORT_EVENT_TYPES: 2; readonly REPORT_ALTERNATE_KEYS: 4;
    readonly REPORT_ALL_KEYS_AS_ESCAPE_CODES: 8; readonly REPORT_ASSOCIATED_TEXT: 16;
};

/** Why bytes were refused, or that memory ran out. */
export class CodecError extends Error {
    /** The library's status (CSICODEC_BAD_BYTE ..). */
    status?: number;
    /** Of a refused sequence, where it begins. */
    start?: number;
    /** The place of the fault, counted from start. */
    at?: number;
}

/** One action of a span, in words. */
export interface ExplainedAction {
    /** The standard's name: 'SGR', 'CUP', 'DECSET 2004'. */
    name?: string;
    /** What it does, in words; missing where that isn't known. */
    words?: string;
    /** The action's type, as the library declares it. */
    action?: string;
    /** The action's fields. */
    [field: string]: unknown;
}

/** One span of a stream: a text, a control character, a control sequence, an escape sequence, a string, or malformed bytes. */
export interface Span {
    /** Where it begins, in bytes. */
    at: number;
    /** Of a recording of asciinema, when it came, in seconds. */
    time?: number;
    kind: string;
    /** Its bytes, if they are UTF-8; else `hex` has them. */
    text?: string;
    hex?: string;
    words?: string;
    actions?: ExplainedAction[];
}

export interface ExplainOptions {
    /** The file's name: one that ends in .cast is a recording of asciinema. */
    name?: string;
    /** Only spans with one of these names, with commas between: 'SGR,CUP'. */
    only?: string;
    /** Only what isn't known, and what is malformed. */
    unknown?: boolean;
    /** What is put into the clipboard (OSC 52), decoded. */
    decode?: boolean;
}

export interface HtmlOptions {
    /** Links (OSC 8) to hosts by http or https become links; text then stays that was written over. */
    links?: boolean;
    /** CSS classes in place of styles. */
    classes?: boolean;
    /** A piece for a <pre> in a page of your own. */
    fragment?: boolean;
    /** False: text stays that a carriage return or an erase would hide. */
    overwrite?: boolean;
    /** 16 colours as '#rrggbb', or 18 with the page's own colour of text and its background. */
    palette?: readonly string[];
}

/** Which colours stay: all, or the nearest of 256 or of 16. */
export type Colors = 'all' | 256 | 16;

/** A wrong type, or an option that a call with options doesn't have, is a TypeError. */
export class Codec {
    private constructor();
    /** Loads the modules: from beside this file, or from what is passed. */
    static load(sources?: { library?: Source; explain?: Source }): Promise<Codec>;
    /** The modules, to be passed to a worker's `Codec.load`. */
    readonly modules: { library: Module; explain: Module };
    /** The visible text: no control but newline and tab. Of a string a string, of bytes bytes. */
    strip<T extends Input>(input: T): T extends string ? string : Uint8Array;
    /** The visible text with its known styles (SGR), except the one that conceals text (8), other fonts (11 to 20), and 26, 50 to 52, 54 and 60 to 65;
     * with `links` also links to hosts by http or https. */
    clean<T extends Input>(input: T, options?: { colors?: Colors; links?: boolean }): T extends string ? string : Uint8Array;
    /** A page of HTML with the text, its colours and styles, each line as it stands when it ends. */
    html<T extends Input>(input: T, options?: HtmlOptions): T extends string ? string : Uint8Array;
    /** Each line as it stands when it ends, as plain text; with `styles` also the sequences that set how characters look. */
    overwrite<T extends Input>(input: T, options?: { styles?: boolean }): T extends string ? string : Uint8Array;
    /** The normal form of control sequences alone; other bytes are refused with their place. */
    normalise<T extends Input>(input: T): T extends string ? string : Uint8Array;
    /** A whole stream with each control sequence in its normal form. */
    filter<T extends Input>(input: T): T extends string ? string : Uint8Array;
    /** A whole stream in fewer bytes: in the place of control sequences side by side one may stand with the same actions. */
    compact<T extends Input>(input: T, options?: { semicolons?: boolean }): T extends string ? string : Uint8Array;
    /** The same for a stream as it comes, with bounded memory; compact writes each control sequence by itself. */
    stripStream(): Transform;
    cleanStream(options?: { colors?: Colors }): Transform;
    filterStream(): Transform;
    compactStream(options?: { semicolons?: boolean }): Transform;
    /** What `html` and `overwrite` write of a whole stream, line by line as it comes; they hold a line. */
    htmlStream(options?: Omit<HtmlOptions, 'links' | 'overwrite'>): Transform;
    overwriteStream(options?: { styles?: boolean }): Transform;
    /** The events of a whole stream. */
    events(input: Input, options?: ParserOptions): Generator<Event, void, undefined>;
    /** The events of all that a terminal sent. An ESC at the end is a key. */
    inputs(input: Input, options?: { dialect?: Dialect; limit?: number }): Generator<InputEvent, void, undefined>;
    /** The keys of all that a terminal sent; what isn't read as one comes as its bytes. An ESC at the end is a key, but in a control string. */
    keys(input: Input): Generator<Key | Uint8Array, void, undefined>;
    /** What an OSC says, by its content: the bytes between ESC ] and what ends it. */
    osc(content: Input): Osc;
    /** The spans of a whole stream: joined they are its bytes. */
    spans(input: Input): StreamSpan[];
    /** The row of docs/SEQUENCES.md that reads an action without a type of its own; undefined, if none does. */
    known(action: Extract<Action, { type: 'Unspecified' }>): Known | undefined;
    /** The texts of actions, joined. */
    encode(actions: Iterable<Action>): Uint8Array;
    /** The same actions in a text that is no longer, if each is read back from its own text. */
    encodeCompact(actions: Iterable<Action>): Uint8Array;
    /** Whether the text of an action is read as this one action. */
    isCanonical(action: Action): boolean;
    /** The spans of a stream, in words. One that begins with `{`, and whose first line is that of an asciicast, is read as the recording. */
    explain(input: Input, options?: ExplainOptions): Span[];
    /** The same as lines of JSON, which `each` is called with as they come. */
    explainEach(input: Input, options: ExplainOptions | undefined, each: (lines: string[]) => void): void;
}

/** How a terminal reports the mouse: three bytes, or, as while mode 1005 is set, three characters of UTF-8. */
export type Dialect = 'input' | 'utf8';

/** A control sequence of more than `limit` bytes is malformed. With `asTerminals` actions are those that terminals take a sequence for: they are
 * others only where some of its parameters aren't read, as where an unknown attribute stands ahead of others. */
export interface ParserOptions { limit?: number; asTerminals?: boolean }

/** Reads what a program writes for a terminal, as it comes. */
export class Parser {
    constructor(codec: Codec, options?: ParserOptions);
    /** The events of the next bytes, or characters, as far as they don't depend on what follows. */
    feed(input: Input): Event[];
    /** What is left at the end of the stream. The parser can then begin anew. */
    finish(): Event[];
}

/** Reads what a terminal sends, as it comes. */
export class InputParser {
    constructor(codec: Codec, options?: { dialect?: Dialect; limit?: number });
    feed(input: Input): InputEvent[];
    /** What waits, where nothing more came in time: ESC alone is a key, and so is ESC with one character. Else it goes on waiting. */
    pause(): InputEvent[];
    finish(): InputEvent[];
}

/** Reads the keys of what a terminal sends, as it comes; what isn't read as a key comes as its bytes. */
export class KeyParser {
    constructor(codec: Codec);
    /** The keys of the next bytes, or characters, as far as they don't depend on what follows: an ESC at the end waits. */
    feed(input: Input): (Key | Uint8Array)[];
    /** What waits, where nothing more came in time. */
    pause(): (Key | Uint8Array)[];
    finish(): (Key | Uint8Array)[];
}

/** Joins the pieces of each OSC among events. A content of more than `limit` bytes isn't told. */
export class OscReader {
    constructor(codec: Codec, options?: { limit?: number });
    /** What the OSC says that is over with this event; undefined, if none is. */
    take(event: Event): Osc | undefined;
}

/** What the programs wrote in a recording of asciinema (versions 2 and 3). */
export function recorded(input: Input): Uint8Array;
