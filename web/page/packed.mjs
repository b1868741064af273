// @ts-check
// What the page has inside, packed by LZMA in base 85. Browsers unpack gzip alone, with which the page has a third more bytes.

// The digits of base 85 (RFC 1924), with `/` and `,` for two that markup has.
const DIGITS = '0123456789ABCDEFGHIJKLMNOPQRSTUVWXYZabcdefghijklmnopqrstuvwxyz!#$%,()*+-;/=>?@^_`{|}~';
const VALUES = new Uint8Array(128);
for (let value = 0; value < 85; value++) VALUES[DIGITS.charCodeAt(value)] = value;

/** @param {string} text five digits for four bytes, and fewer at the end */
function bytesOf(text) {
    const bytes = new Uint8Array(Math.floor(text.length * 4 / 5));
    for (let at = 0, to = 0; at < text.length; at += 5, to += 4) {
        let number = 0;
        for (let i = at; i < at + 5; i++) number = number * 85 + (i < text.length ? VALUES[text.charCodeAt(i)] : 84);
        for (let i = 0; i < 4; i++) bytes[to + i] = number / 2 ** (24 - 8 * i);
    }
    return bytes;
}

/**
 * So many odds, of 2,048, each of them even.
 * @param {number} count
 */
const even = count => new Uint16Array(count).fill(1024);

/** The range decoder of LZMA (I. Pavlov, LZMA specification, 2015): bits by their odds, which learn of each bit. */
class Bits {
    #bytes;
    #at;
    #range = 2 ** 32 - 1;
    #code = 0;

    /**
     * @param {Uint8Array} bytes
     * @param {number} at where a byte of 0 and the first four of the code stand
     */
    constructor(bytes, at) {
        this.#bytes = bytes;
        this.#at = at + 1;
        for (let i = 0; i < 4; i++) this.#take();
    }

    #take() {
        this.#code = this.#code * 256 + this.#bytes[this.#at++];
    }

    /** @param {number} range how much of the range a bit of 0 has */
    #split(range) {
        const bit = this.#code < range ? 0 : 1;
        this.#range = bit ? this.#range - range : range;
        if (bit) this.#code -= range;
        return bit;
    }

    #refill() {
        if (this.#range >= 2 ** 24) return;
        this.#range *= 256;
        this.#take();
    }

    /**
     * @param {Uint16Array} odds
     * @param {number} at
     */
    bit(odds, at) {
        const bit = this.#split((this.#range >>> 11) * odds[at]);
        odds[at] += bit ? -(odds[at] >> 5) : 2048 - odds[at] >> 5;
        this.#refill();
        return bit;
    }

    /**
     * A number of so many bits of even odds.
     * @param {number} count
     */
    plain(count) {
        let number = 0;
        for (let i = 0; i < count; i++) {
            this.#range -= this.#range % 2;
            const half = this.#range / 2;
            number = number * 2 + this.#split(half);
            this.#range = half;
            this.#refill();
        }
        return number;
    }

    /**
     * A number of so many bits, the highest first, each by the odds behind those ahead of it.
     * @param {Uint16Array} odds
     * @param {number} at
     * @param {number} count
     */
    number(odds, at, count) {
        let node = 1;
        while (node < 1 << count) node = node * 2 + this.bit(odds, at + node);
        return node - (1 << count);
    }

    /**
     * The same, the lowest first.
     * @param {Uint16Array} odds
     * @param {number} at
     * @param {number} count
     */
    reversed(odds, at, count) {
        let node = 1;
        let number = 0;
        for (let i = 0; i < count; i++) {
            const bit = this.bit(odds, at + node);
            node = node * 2 + bit;
            number += bit << i;
        }
        return number;
    }
}

/** The lengths of matches, less two. */
class Lengths {
    #choices = even(2);
    #short = even(8);
    #middle = even(8);
    #long = even(256);

    /** @param {Bits} bits */
    next(bits) {
        if (!bits.bit(this.#choices, 0)) return bits.number(this.#short, 0, 3);
        if (!bits.bit(this.#choices, 1)) return 8 + bits.number(this.#middle, 0, 3);
        return 16 + bits.number(this.#long, 0, 8);
    }
}

/** How far back matches lie, less one. */
class Distances {
    #slots = even(4 * 64);
    #near = even(115);
    #low = even(16);

    /**
     * @param {Bits} bits
     * @param {number} length of the match, less two
     */
    next(bits, length) {
        const slot = bits.number(this.#slots, 64 * Math.min(length, 3), 6);
        if (slot < 4) return slot;
        const count = (slot >> 1) - 1;
        const begin = (2 + slot % 2) * 2 ** count;
        if (slot < 14) return begin + bits.reversed(this.#near, begin - slot, count);
        return begin + bits.plain(count - 4) * 16 + bits.reversed(this.#low, 0, 4);
    }
}

/** LZMA with three bits of the byte ahead as a literal's context, and none of its position (lc=3, lp=0, pb=0). */
class Unpacking {
    #out;
    #bits;
    #at = 0;
    // Below 7 a literal came last.
    #state = 0;
    // The last four distances, less one, the newest first.
    #last = new Uint32Array(4);
    #literals = even(8 * 0x300);
    #isMatch = even(12);
    #isAgain = even(12);
    // Whether the distance isn't the newest, nor the one behind that, nor the third.
    #isOther = [even(12), even(12), even(12)];
    #isLong = even(12);
    #lengths = new Lengths();
    #lengthsAgain = new Lengths();
    #distances = new Distances();

    /**
     * @param {Uint8Array} bytes
     * @param {number} at where what is packed begins
     * @param {number} length of what was packed
     */
    constructor(bytes, at, length) {
        this.#bits = new Bits(bytes, at);
        this.#out = new Uint8Array(length);
    }

    whole() {
        while (this.#at < this.#out.length) {
            if (!this.#bits.bit(this.#isMatch, this.#state)) this.#literal();
            else if (this.#bits.bit(this.#isAgain, this.#state)) this.#again();
            else this.#match();
        }
        return this.#out;
    }

    #literal() {
        const context = 0x300 * ((this.#out[this.#at - 1] ?? 0) >> 5);
        // Behind a match the byte that would go on with it tells the odds, as long as the bits are its.
        let other = this.#state < 7 ? 0 : 0x100 + this.#out[this.#at - this.#last[0] - 1];
        let node = 1;
        while (node < 0x100) {
            other *= 2;
            const expected = other >> 8 & 1;
            const bit = this.#bits.bit(this.#literals, context + node + (other ? 0x100 + 0x100 * expected : 0));
            node = node * 2 + bit;
            if (bit !== expected) other = 0;
        }
        this.#out[this.#at++] = node;
        this.#state = this.#state < 4 ? 0 : this.#state - (this.#state < 10 ? 3 : 6);
    }

    #match() {
        const length = this.#lengths.next(this.#bits);
        this.#remember(this.#distances.next(this.#bits, length), 3);
        this.#copy(length + 2);
        this.#state = this.#state < 7 ? 7 : 10;
    }

    #again() {
        let which = 0;
        while (which < 3 && this.#bits.bit(this.#isOther[which], this.#state)) which++;
        if (!which && !this.#bits.bit(this.#isLong, this.#state)) {
            this.#copy(1);
            this.#state = this.#state < 7 ? 9 : 11;
            return;
        }
        this.#remember(this.#last[which], which);
        this.#copy(this.#lengthsAgain.next(this.#bits) + 2);
        this.#state = this.#state < 7 ? 8 : 11;
    }

    /**
     * @param {number} distance
     * @param {number} which of the last it was, or 3
     */
    #remember(distance, which) {
        this.#last.copyWithin(1, 0, which);
        this.#last[0] = distance;
    }

    /** @param {number} length */
    #copy(length) {
        const from = this.#at - this.#last[0] - 1;
        for (let i = 0; i < length; i++) this.#out[this.#at + i] = this.#out[from + i];
        this.#at += length;
    }
}

/** @param {string} packed in base 85: a length of four bytes, the lowest first, and what is packed */
export function unpacked(packed) {
    const bytes = bytesOf(packed);
    return new Unpacking(bytes, 4, new DataView(bytes.buffer).getUint32(0, true)).whole();
}
