// @ts-check
// What is looked at: typed, pasted, dropped, opened, or an example.

import { $, $input, later } from './dom.mjs';
import { bytesOf, isWritten, size, visible } from './text.mjs';

/**
 * @typedef {{ name: string, blob: Blob, text?: string, isRead?: boolean }} Stream `text` is what it was read from,
 * and `isRead` whether its escapes were read.
 */

const LONGEST_TYPED = 20_000;

export class Source {
    /** What was pasted or typed, which can be read in two ways. */
    #text = '';
    #name = '';
    /** @type {boolean | undefined} */
    #choice;
    #given;
    #opened;

    /**
     * @param {(stream: Stream) => void} given is called with each stream
     * @param {(files: File[]) => void} opened is called with files
     */
    constructor(given, opened) {
        this.#given = given;
        this.#opened = opened;
        $('input').addEventListener('input', later(150, () => this.text($input('input').value)));
        $('input').addEventListener('paste', event => this.#pasted(event));
        $('file').addEventListener('change', () => this.#files($input('file').files));
        $('clear').addEventListener('click', () => {
            this.text('');
            $('input').focus();
        });
        for (const it of ['raw', 'read']) {
            $(`reading-${it}`).addEventListener('change', () => {
                this.#choice = it === 'read';
                this.#give();
            });
        }
        addEventListener('dragover', event => {
            event.preventDefault();
            document.body.classList.add('over');
        });
        addEventListener('dragleave', () => document.body.classList.remove('over'));
        addEventListener('drop', event => {
            event.preventDefault();
            document.body.classList.remove('over');
            this.#files(event.dataTransfer?.files);
        });
    }

    /**
     * A text, in the box or, with a name, beside its chip.
     * @param {string} text
     * @param {string} [name]
     * @param {boolean} [isRead]
     */
    text(text, name = '', isRead) {
        this.#text = text;
        this.#choice = isRead;
        if (!name && $input('input').value !== text) $input('input').value = text;
        this.#name = name;
        this.#give();
    }

    /**
     * Shows the chip of bytes that have a name: a file's, a link's or an example's.
     * @param {Stream} stream
     */
    named(stream) {
        this.#text = '';
        this.#name = stream.name;
        this.#show(stream);
    }

    #give() {
        const isRead = this.#choice ?? isWritten(this.#text);
        const stream = { name: this.#name, blob: new Blob([bytesOf(this.#text, isRead)]), text: this.#text, isRead };
        this.#show(stream);
        this.#given(stream);
    }

    /** @param {Stream} stream */
    #show({ name, blob, isRead }) {
        $('chip').hidden = !name;
        $('box').hidden = Boolean(name);
        $('chip-name').textContent = visible(name);
        $('chip-size').textContent = size(blob.size);
        $('reading').hidden = !/\\|\^\[|\u241b/.test(this.#text.slice(0, 1e6));
        $input('reading-read').checked = Boolean(isRead);
        $input('reading-raw').checked = !isRead;
        document.body.classList.toggle('empty', !blob.size && !name);
    }

    /**
     * A text area changes what is pasted (CR LF becomes LF), so what has controls is taken past it.
     * @param {ClipboardEvent} event
     */
    #pasted(event) {
        const files = event.clipboardData?.files;
        const text = event.clipboardData?.getData('text/plain') ?? '';
        const box = /** @type {HTMLTextAreaElement} */ ($('input'));
        const isWhole = !box.value || box.selectionEnd - box.selectionStart === box.value.length;
        if (files?.length) this.#files(files);
        else if (isWhole && (/[\x00-\x08\x0b-\x1f]/.test(text) || text.length > LONGEST_TYPED)) this.text(text, 'pasted text');
        else return;
        event.preventDefault();
    }

    /** @param {FileList | null | undefined} files */
    #files(files) {
        const all = [...files ?? []];
        // So that the same file can be opened again.
        $input('file').value = '';
        if (all.length) this.#opened(all);
    }
}
