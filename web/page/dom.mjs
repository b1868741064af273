// @ts-check
// Elements of the page, made of text alone.

/**
 * The element with an id, which the page has.
 * @template {HTMLElement} [T=HTMLElement]
 * @param {string} id
 * @returns {T}
 */
export function $(id) {
    const it = document.getElementById(id);
    if (!it) throw new Error(`the page has no ${id}`);
    return /** @type {T} */ (it);
}

/**
 * @template {keyof HTMLElementTagNameMap} K
 * @param {K} tag
 * @param {string} className
 * @param {(Node | string)[]} parts
 * @returns {HTMLElementTagNameMap[K]}
 */
export function element(tag, className, ...parts) {
    const it = document.createElement(tag);
    if (className) it.className = className;
    it.append(...parts);
    return it;
}

/**
 * A button.
 * @param {string} className
 * @param {string} text
 * @param {() => void} pressed
 */
export function button(className, text, pressed) {
    const it = element('button', className, text);
    it.type = 'button';
    it.addEventListener('click', pressed);
    return it;
}

/**
 * Calls once, a while after the last call.
 * @param {number} delay
 * @param {() => void} what
 */
export function later(delay, what) {
    /** @type {ReturnType<typeof setTimeout> | undefined} */
    let waiting;
    return () => {
        clearTimeout(waiting);
        waiting = setTimeout(what, delay);
    };
}

/**
 * Calls at once, and then at most once in a while.
 * @param {number} delay
 * @param {() => void} what
 */
export function seldom(delay, what) {
    let next = 0;
    let isWaiting = false;
    return () => {
        if (isWaiting) return;
        isWaiting = true;
        setTimeout(() => {
            isWaiting = false;
            next = performance.now() + delay;
            what();
        }, Math.max(0, next - performance.now()));
    };
}

/**
 * A file for whoever opened the page.
 * @param {Blob} blob
 * @param {string} name
 */
export function saved(blob, name) {
    const it = element('a', '');
    it.href = URL.createObjectURL(blob);
    it.download = name;
    it.click();
    setTimeout(() => URL.revokeObjectURL(it.href), 10_000);
}

/** @param {string} id */
export const $input = id => /** @type {HTMLInputElement} */ ($(id));
