// @ts-check
// Goes through a recording's time: the row whose bytes came at that moment is shown.

import { $ } from './dom.mjs';
import { lastUpTo } from './recording.mjs';
import { clock } from './words.mjs';

/** @typedef {import('./recording.mjs').Times} Times */

const LONGEST_WAIT = 2;

export class Player {
    /** @type {Times | null} */
    #times = null;
    #event = 0;
    #isMoving = false;
    #moved;
    /** @type {ReturnType<typeof setTimeout> | undefined} */
    #waiting;
    #slider;

    /** @param {(event: number) => void} moved is called with each event that is gone to */
    constructor(moved) {
        this.#moved = moved;
        this.#slider = /** @type {HTMLInputElement} */ ($('time'));
        this.#slider.addEventListener('input', () => this.#to(Number(this.#slider.value)));
        $('play').addEventListener('click', () => this.#waiting ? this.stop() : this.#play());
    }

    /** @param {Times | null} times */
    begin(times) {
        this.stop();
        this.#times = times?.time.length ? times : null;
        $('player').hidden = !this.#times;
        this.#slider.max = String((this.#times?.time.length ?? 1) - 1);
        this.#shown(0);
    }

    /**
     * Follows what was selected otherwise.
     * @param {number} place
     */
    follow(place) {
        if (this.#times && !this.#isMoving && !this.#waiting) this.#shown(Math.max(0, lastUpTo(this.#times.at, place)));
    }

    stop() {
        clearTimeout(this.#waiting);
        this.#waiting = undefined;
        $('play').textContent = 'Play';
        $('play').setAttribute('aria-pressed', 'false');
    }

    /** @param {number} event */
    #shown(event) {
        this.#event = event;
        this.#slider.value = String(event);
        if (!this.#times) return;
        const last = this.#times.time[this.#times.time.length - 1];
        const said = `${clock(this.#times.time[event])} of ${clock(last)}`;
        $('clock').textContent = said;
        this.#slider.setAttribute('aria-valuetext', said);
    }

    /** @param {number} event */
    #to(event) {
        this.#shown(event);
        this.#isMoving = true;
        this.#moved(event);
        this.#isMoving = false;
    }

    #play() {
        const times = this.#times;
        if (!times) return;
        $('play').textContent = 'Pause';
        $('play').setAttribute('aria-pressed', 'true');
        const next = () => {
            const event = this.#event + 1;
            if (event >= times.time.length) {
                this.stop();
                return;
            }
            const wait = Math.min(LONGEST_WAIT, times.time[event] - times.time[this.#event]);
            this.#waiting = setTimeout(() => {
                this.#to(event);
                next();
            }, wait * 1000);
        };
        if (this.#event + 1 >= times.time.length) this.#to(0);
        next();
    }
}
