/* A book, as the proved library takes it and shows it. Nothing of the rules is worked out here: bytes go in, calls are made in their order, numbers come
   out. */

const KEY = { show: 0, next: 1, previous: 2, home: 3 };
const LINES = 4, PLACES = 20;

/* Number, place and t, as a call that takes a record returns them. */
function refusalOf(reply) {
    const bits = BigInt.asUintN(64, reply);
    return { number: Number(bits & 0xffffffffn), place: Number((bits >> 32n) & 0xffffn), t: Number(bits >> 48n) };
}

/* A refusal of a call that takes no record: its number alone. */
function refusalNumbered(number) {
    return { number: number >>> 0, place: 0, t: 0 };
}

class Book {
    /* Takes the bytes, record by record. What is wrong with them, if anything, is this.refusal; count is how many books were handed in, this one among them. */
    constructor(library, bytes, count) {
        this.library = library;
        this.count = count;
        this.bytes = Math.min(bytes.length, MOST_BYTES + 1);
        library.list("book").set(bytes.subarray(0, this.bytes));
        this.refusal = this.take();
        if (!this.refusal) this.choose(0);
    }

    get units() {
        return this.library.list("tally")[0];
    }

    get requirements() {
        return this.library.list("tally")[1];
    }

    /* The call of each record, in the book's order. How many there are the tally says, once the contents are taken. */
    *records() {
        const { library } = this, { calls } = library, tally = library.lent("tally");
        yield [SIZE.contents, (part) => calls.dullavane_contents(...part, ...tally)];
        yield [SIZE.settings, (part) => calls.dullavane_settings(...tally, ...part)];
        const region = library.lent("measures", "sums", "figures");
        for (let r = 0; r < REGIONS; r++) yield [SIZE.frequency, (part) => calls.dullavane_frequency(...tally, ...part, ...region)];
        const unit = [...region, ...library.lent("numbers", "homes", "rows", "groups", "deviations")];
        for (let u = 0; u < this.units; u++) yield [SIZE.unit, (part) => calls.dullavane_unit(...tally, ...part, ...unit)];
        for (let m = 0; m < this.requirements; m++) yield [SIZE.requirement, (part) => calls.dullavane_requirement(...tally, ...part)];
    }

    /* The first refusal, or null where the book is taken to its end. */
    take() {
        let at = 0;
        for (const [size, call] of this.records()) {
            const reply = call(this.library.part(at, this.bytes - at));
            if (reply !== 0n) return refusalOf(reply);
            at += size;
        }
        return null;
    }

    /* A requirement's 24 bytes: where they stand. */
    requirementAt(which) {
        return UNITS_AT + SIZE.unit * this.units + SIZE.requirement * which;
    }

    /* What its record says of a requirement. */
    requirement(which) {
        const { library } = this, at = this.requirementAt(which);
        const view = new DataView(library.calls.memory.buffer, library.places.book + at, SIZE.requirement);
        return { number: view.getUint16(0, true), set: view.getUint8(2), direction: view.getUint8(3) };
    }

    /* A requirement comes on show: its answer, once, and the rows of the roster that its members stand in. */
    choose(which) {
        const { library } = this;
        this.chosen = which;
        this.asked = library.part(this.requirementAt(which), SIZE.requirement);
        const refused = library.calls.dullavane_answer(...library.lent("tally"), ...this.asked, ...library.lent("measures", "sums", "figures", "homes", "rows",
            "performances", "factors", "payments", "used", "unused", "reply"));
        if (refused) this.refusal = refusalNumbered(refused);
        else this.memberRows = this.rowsOfMembers();
    }

    rowsOfMembers() {
        const { library } = this, { set, direction } = this.requirement(this.chosen), rows = [];
        const tally = library.lent("tally"), lent = library.lent("figures", "numbers", "homes", "member");
        for (let row = 0; row < this.units; row++) {
            const refused = library.calls.dullavane_member(...tally, row, direction, set, ...lent);
            if (refused) throw new Error(`dullavane_member refused row ${row} with ${refused >>> 0}`);
            if (library.list("member")[0]) rows.push(row);
        }
        return rows;
    }

    /* A key press: moves the page and draws it; of a refused book its phrase. Gives the four lines. */
    press(key) {
        const { library } = this;
        if (!this.refusal) {
            const refused = library.calls.dullavane_panel_press(...library.lent("page"), key, this.count, ...library.lent("tally"), ...this.asked,
                ...library.lent("figures", "numbers", "homes", "payments", "used", "unused", "reply", "text"));
            if (refused) this.refusal = refusalNumbered(refused);
        }
        if (this.refusal) library.calls.dullavane_panel_phrase(this.refusal.number, ...library.lent("text"));
        const text = String.fromCharCode(...library.list("text"));
        return Array.from({ length: LINES }, (_, line) => text.slice(PLACES * line, PLACES * (line + 1)));
    }

    /* The page on show, 0 the first, and the last one's number, the residual's. */
    get page() {
        return this.library.list("page")[2];
    }

    get lastPage() {
        return Number(this.library.list("reply")[0]);
    }

    /* The rows of the units of the member on show: its row, and before it those that are passed over, a group's. The first page and the residual have none. */
    unitsOnShow() {
        const last = this.memberRows[this.page - 1], homes = this.library.list("homes"), rows = [];
        if (last === undefined) return rows;
        rows.push(last);
        while (rows[0] > 0 && homes[rows[0] - 1] === PASSED_OVER) rows.unshift(rows[0] - 1);
        return rows;
    }

    /* The trend strip of the unit in a row, with the number that its record has. */
    strip(row) {
        const { library } = this, at = UNITS_AT + SIZE.unit * row;
        const reply = library.calls.dullavane_trend(...library.part(at, SIZE.unit), ...library.lent("points", "strip", "drawn"));
        if (reply !== 0n) throw new Error(`dullavane_trend refused row ${row} with ${refusalOf(reply).number}`);
        const number = new DataView(library.calls.memory.buffer, library.places.book + at, SIZE.unit).getUint16(0, true);
        const [lowest, highest, last] = library.list("strip");
        return { number, lowest, highest, last, drawn: library.list("drawn")[0] > 0, points: library.list("points").slice() };
    }

    /* The whole listing, piece by piece. */
    listing() {
        const { library } = this, pieces = [];
        library.list("cursor").fill(0n);
        const lent = [...library.lent("cursor", "tally"), ...library.part(this.requirementAt(0), SIZE.requirement * this.requirements),
            ...library.lent("measures", "sums", "figures", "numbers", "homes", "rows"),
            ...library.lent("listedPerformances", "listedFactors", "listedPayments", "listedUsed", "listedUnused", "piece")];
        for (;;) {
            const refused = library.calls.dullavane_listing(...lent);
            if (refused) throw new Error(`dullavane_listing refused with ${refused >>> 0}`);
            const written = Number(library.list("cursor")[0]);
            if (written === 0) return pieces.join("");
            pieces.push(new TextDecoder().decode(library.list("piece").subarray(0, written)));
        }
    }
}
