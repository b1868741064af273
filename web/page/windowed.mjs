// @ts-check
// Rows of one height, any number of them, of which only those in view are in the document.

// Browsers have a greatest height of what scrolls; beyond this one, a place of the bar stands for more than one row.
const TALLEST = 4_000_000;
const MORE = 8;
// More than any screen has.
const MOST = 500;

export class Windowed {
    #scroller;
    #space;
    #height;
    #render;
    #count = 0;
    #top = 0;
    #y = 0;
    #isAsked = false;
    /** The row that was shown last, if nobody has scrolled since. */
    #shown = -1;
    /** @type {ReturnType<typeof setTimeout> | undefined} */
    #settling;
    /** @type {Map<number, HTMLElement>} */
    #rows = new Map();

    /**
     * @param {HTMLElement} scroller
     * @param {HTMLElement | ShadowRoot} holder where the rows go, in the scroller
     * @param {string} height the name of the property that has the rows' height in pixels
     * @param {(i: number) => HTMLElement} render
     */
    constructor(scroller, holder, height, render) {
        this.#scroller = scroller;
        this.#render = render;
        this.#height = () => parseFloat(getComputedStyle(scroller).getPropertyValue(height));
        this.#space = document.createElement('div');
        this.#space.className = 'space';
        holder.append(this.#space);
        scroller.addEventListener('scroll', () => this.#scrolled(), { passive: true });
        new ResizeObserver(() => {
            this.refresh();
            if (this.#shown >= 0) this.show(this.#shown);
        }).observe(scroller);
    }

    get #scale() { return Math.max(1, this.#count * this.#height() / TALLEST); }

    /** How many rows are in view. */
    get visible() { return Math.max(1, Math.min(MOST, Math.floor(this.#scroller.clientHeight / this.#height()))); }

    get count() { return this.#count; }

    set count(count) {
        this.#count = count;
        this.#space.style.height = `${Math.min(count * this.#height(), TALLEST)}px`;
        this.#top = Math.min(this.#top, Math.max(0, count - 1));
        this.#ask();
    }

    /**
     * Makes the rows anew; all, or those that `isStale` says.
     * @param {(i: number) => boolean} [isStale]
     */
    refresh(isStale = () => true) {
        for (const [i, row] of this.#rows) {
            if (!isStale(i)) continue;
            row.remove();
            this.#rows.delete(i);
        }
        this.count = this.#count;
    }

    /**
     * The row, where it is in the document.
     * @param {number} i
     */
    row(i) { return this.#rows.get(i); }

    /**
     * Scrolls as little as is needed, or so that the row is the first, or in the middle.
     * @param {number} i
     * @param {'near' | 'first' | 'middle'} how
     */
    show(i, how = 'near') {
        this.#shown = i;
        const seen = this.visible;
        const isIn = i >= this.#top && i <= this.#top + seen - 1;
        if (how === 'near' && isIn) return;
        const to = how === 'first' ? i : how === 'middle' ? i - seen / 2 : i < this.#top ? i : i - seen + 1;
        this.#top = Math.max(0, Math.min(to, this.#count - seen));
        this.#settle();
        this.#ask();
    }

    #scrolled() {
        const y = this.#scroller.scrollTop;
        const moved = y - this.#y;
        this.#y = y;
        if (moved) this.#shown = -1;
        const room = this.#scroller.scrollHeight - this.#scroller.clientHeight;
        if (this.#scale === 1) this.#top = y / this.#height();
        else if (Math.abs(moved) < this.#scroller.clientHeight) this.#top += moved / this.#height();
        else this.#top = y / room * (this.#count - this.visible);
        this.#top = Math.max(0, Math.min(this.#top, this.#count - 1));
        if (this.#scale > 1) {
            clearTimeout(this.#settling);
            this.#settling = setTimeout(() => this.#settle(), 150);
        }
        this.#ask();
    }

    /** Puts the bar where the first row in view belongs. */
    #settle() {
        const room = this.#scroller.scrollHeight - this.#scroller.clientHeight;
        const most = Math.max(1, this.#count - this.visible);
        this.#scroller.scrollTop = this.#scale === 1 ? this.#top * this.#height() : this.#top / most * room;
        this.#y = this.#scroller.scrollTop;
        this.#ask();
    }

    #ask() {
        if (this.#isAsked) return;
        this.#isAsked = true;
        requestAnimationFrame(() => {
            this.#isAsked = false;
            this.#draw();
        });
    }

    #draw() {
        const height = this.#height();
        const from = Math.max(0, Math.floor(this.#top) - MORE);
        const to = Math.min(this.#count, Math.ceil(this.#top) + this.visible + MORE);
        for (const [i, row] of this.#rows) {
            if (i >= from && i < to) continue;
            row.remove();
            this.#rows.delete(i);
        }
        // From the last, so that each stands ahead of the one behind it, also where text is selected.
        for (let i = to - 1; i >= from; i--) {
            let row = this.#rows.get(i);
            if (!row) {
                row = this.#render(i);
                this.#space.insertBefore(row, this.#rows.get(i + 1) ?? null);
                this.#rows.set(i, row);
            }
            const y = this.#scale === 1 ? i * height : this.#y + (i - this.#top) * height;
            row.style.transform = `translateY(${y}px)`;
        }
    }
}
