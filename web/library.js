/* The proved library: its module, and the lists that are lent to its calls. Names and numbers are those of include/dullavane.h, dullavane_panel.h and
   dullavane_listing.h. At this boundary a pointer is a number and a length a BigInt. */

const MOST_UNITS = 512, MOST_MEMBERS = MOST_UNITS + 1, MOST_REQUIREMENTS = 32, REGIONS = 5, PASSED_OVER = 10;
const SIZE = { contents: 56, settings: 8, frequency: 368, unit: 372, requirement: 24 };
const UNITS_AT = SIZE.contents + SIZE.settings + REGIONS * SIZE.frequency;
const MOST_BYTES = UNITS_AT + MOST_UNITS * SIZE.unit + MOST_REQUIREMENTS * SIZE.requirement;
const PANEL_BYTES = 80;

/* Every list that is lent: what its elements are, and how many it has. The book has a byte more than the longest, so that bytes too many are seen. */
const LISTS = {
    book: [Uint8Array, MOST_BYTES + 1],
    tally: [Uint32Array, 8],
    measures: [Int32Array, 375],
    sums: [BigInt64Array, 750],
    figures: [BigInt64Array, 50],
    numbers: [Uint16Array, MOST_UNITS],
    homes: [Uint8Array, MOST_UNITS],
    rows: [BigInt64Array, 8 * MOST_UNITS],
    groups: [Uint16Array, MOST_UNITS],
    deviations: [BigInt64Array, 75],
    performances: [BigInt64Array, MOST_MEMBERS],
    factors: [BigInt64Array, MOST_MEMBERS],
    payments: [BigInt64Array, MOST_MEMBERS],
    used: [BigInt64Array, MOST_MEMBERS],
    unused: [BigInt64Array, MOST_MEMBERS],
    reply: [BigUint64Array, 8],
    member: [Uint32Array, 3],
    page: [Uint32Array, 3],
    text: [Uint8Array, PANEL_BYTES],
    points: [Float32Array, 75],
    strip: [Float32Array, 3],
    drawn: [Uint32Array, 1],
    /* The listing has columns of its own: those above belong to the answer on show. */
    listedPerformances: [BigInt64Array, MOST_MEMBERS],
    listedFactors: [BigInt64Array, MOST_MEMBERS],
    listedPayments: [BigInt64Array, MOST_MEMBERS],
    listedUsed: [BigInt64Array, MOST_MEMBERS],
    listedUnused: [BigInt64Array, MOST_MEMBERS],
    cursor: [BigUint64Array, 16],
    piece: [Uint8Array, 16384],
};

const ALIGNED = 8, MEMORY_PAGE = 65536;

class Library {
    /* The module is there as text; compiling it takes a moment. */
    static async opened(text) {
        const { instance } = await WebAssembly.instantiate(bytesOf(text), {});
        return new Library(instance.exports);
    }

    /* The lists stand one behind the other, from where the module's own memory ends. */
    constructor(calls) {
        this.calls = calls;
        this.places = {};
        let at = calls.__heap_base.value;
        for (const [name, [View, length]] of Object.entries(LISTS)) {
            at = Math.ceil(at / ALIGNED) * ALIGNED;
            this.places[name] = at;
            at += View.BYTES_PER_ELEMENT * length;
        }
        const missing = at - calls.memory.buffer.byteLength;
        if (missing > 0) calls.memory.grow(Math.ceil(missing / MEMORY_PAGE));
    }

    /* A list's elements. Made anew each time: memory that has grown has another buffer. */
    list(name) {
        const [View, length] = LISTS[name];
        return new View(this.calls.memory.buffer, this.places[name], length);
    }

    /* Lists as arguments of a call: pointer and length of each. */
    lent(...names) {
        return names.flatMap((name) => [this.places[name], BigInt(LISTS[name][1])]);
    }

    /* Bytes of the book as arguments of a call. */
    part(at, bytes) {
        return [this.places.book + at, BigInt(bytes)];
    }
}

/* The bytes that a text of base64 stands for. */
function bytesOf(text) {
    return Uint8Array.from(atob(text), (letter) => letter.charCodeAt(0));
}
