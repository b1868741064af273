// @ts-check
// The workers that the page asks: one for each kind of work, so that none waits for another.

/** @typedef {{ worker: Worker, waiting: Map<number, (message: any) => void> }} Lane */

export class Engine {
    /** @type {Map<string, Lane>} */
    #lanes = new Map();
    #url;
    #module;
    #last = 0;

    /**
     * @param {string} source the worker's script
     * @param {WebAssembly.Module} module
     */
    constructor(source, module) {
        this.#url = URL.createObjectURL(new Blob([source], { type: 'text/javascript' }));
        this.#module = module;
    }

    /**
     * Ends what a lane does; who waits for it hears no more.
     * @param {string} name
     */
    cancel(name) {
        const lane = this.#lanes.get(name);
        if (!lane?.waiting.size) return;
        lane.worker.terminate();
        this.#lanes.delete(name);
    }

    /**
     * Asks for one task, behind those that the lane has; `told` hears what is found on the way.
     * @param {string} name
     * @param {{ task: string, [word: string]: unknown }} task
     * @param {(message: any) => void} [told]
     * @returns {Promise<any>}
     */
    ask(name, task, told) {
        const lane = this.#lane(name);
        const id = ++this.#last;
        return new Promise((yes, no) => {
            lane.waiting.set(id, message => {
                if (!message.done) {
                    told?.(message);
                    return;
                }
                lane.waiting.delete(id);
                if (message.fault) no(new Error(message.fault));
                else yes(message);
            });
            lane.worker.postMessage({ ...task, id, module: this.#module });
        });
    }

    /**
     * The same, in place of what the lane does.
     * @param {string} name
     * @param {{ task: string, [word: string]: unknown }} task
     * @param {(message: any) => void} [told]
     */
    askAnew(name, task, told) {
        this.cancel(name);
        return this.ask(name, task, told);
    }

    /**
     * @param {string} name
     * @returns {Lane}
     */
    #lane(name) {
        const old = this.#lanes.get(name);
        if (old) return old;
        const lane = { worker: new Worker(this.#url), waiting: new Map() };
        lane.worker.onmessage = ({ data }) => lane.waiting.get(data.id)?.(data);
        lane.worker.onerror = event => {
            for (const told of lane.waiting.values()) told({ done: true, fault: event.message ?? 'a worker failed' });
        };
        this.#lanes.set(name, lane);
        return lane;
    }
}
