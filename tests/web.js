/* Appended to the page by tests/web, behind RUNS and FACTORS: hands each book to the page, presses keys, and writes down what then stands on the page, in the
   form of `second/target/release/web shown`. Of the page's own state only the strips' floats are read, for their bits; all else is what can be seen. */

const screens = [], explained = [], listings = [], products = [];
/* While this goes on, the browser's virtual time moves by milliseconds, so that the files are read before it ends. */
const held = setInterval(() => {}, 1);

function changed(node) {
    return new Promise((done) => {
        const watcher = new MutationObserver(() => { watcher.disconnect(); done(); });
        watcher.observe(node, { childList: true, characterData: true, subtree: true });
    });
}

/* A book comes by an example's button, by the file picker, or dropped, and stands on the page when its name does. */
async function handIn(name, text, turn) {
    const where = document.getElementById("where"), button = document.querySelector(`[data-example="${name}"]`);
    const transfer = new DataTransfer(), shown = changed(where);
    if (button) {
        button.click();
        return shown;
    }
    transfer.items.add(new File([Uint8Array.from(atob(text), (letter) => letter.charCodeAt(0))], name));
    if (turn % 5 === 4) {
        const picker = document.getElementById("file");
        picker.files = transfer.files;
        picker.dispatchEvent(new Event("change", { bubbles: true }));
    } else document.getElementById("zone").dispatchEvent(new DragEvent("drop", { dataTransfer: transfer, bubbles: true, cancelable: true }));
    return shown;
}

const pressKey = (key) => document.body.dispatchEvent(new KeyboardEvent("keydown", { key, bubbles: true, cancelable: true }));
const click = (id) => document.getElementById(id).click();

/* The other requirement, where there is one. */
function choose(by) {
    const list = document.getElementById("requirement"), to = list.selectedIndex + by;
    if (list.disabled || to < 0 || to >= list.options.length) return;
    list.selectedIndex = to;
    list.dispatchEvent(new Event("change", { bubbles: true }));
}

/* A key of `watch`, by the ways that the page has for it, one after the other. */
const WAYS = {
    n: [() => pressKey("ArrowRight"), () => pressKey("ArrowDown"), () => click("next")],
    p: [() => pressKey("ArrowLeft"), () => pressKey("ArrowUp"), () => click("previous")],
    h: [() => pressKey("Home"), () => click("home")],
    r: [() => choose(1)],
    R: [() => choose(-1)],
};

const times = {};
function pressed(key) {
    times[key] = (times[key] ?? -1) + 1;
    WAYS[key][times[key] % WAYS[key].length]();
}

const linesSeen = () => [...document.querySelectorAll(".line")].map((line) => line.textContent);
const textOf = (node) => node.textContent.trim();

function writeScreen(name) {
    screens.push(`screen ${name}`, ...linesSeen());
    if (!document.getElementById("refusal").hidden) {
        const parts = ["number", "place", "t"].map((part) => textOf(document.getElementById(`refusal-${part}`)));
        screens.push(`refused ${parts.join(" ")}`);
    }
    [...document.querySelectorAll("#strips figure")].forEach((figure, i) => writeStrip(figure, box.strips[i]));
}

const bitsOf = (floats) => [...new Uint32Array(Float32Array.from(floats).buffer)].map((bits) => bits.toString(16).toUpperCase().padStart(8, "0")).join(" ");

function writeStrip(figure, strip) {
    const canvas = figure.querySelector("canvas");
    screens.push(`${textOf(figure.querySelector("figcaption"))} ${strip.drawn ? "drawn" : "bad"} ${bitsOf([strip.lowest, strip.highest, strip.last])}`);
    if (canvas) screens.push(bitsOf(strip.points), ...canvasSeen(canvas));
    const words = [...figure.querySelectorAll("dt, dd, .bad")].map(textOf);
    screens.push(`words ${words.join(" ")}`);
}

/* The colours that the page draws in, as the four bytes of a pixel. */
function pixel(name) {
    const digits = getComputedStyle(document.documentElement).getPropertyValue(`--${name}`).trim().slice(1);
    return new Uint32Array(Uint8Array.from([0, 2, 4].map((at) => parseInt(digits.slice(at, at + 2), 16)).concat(255)).buffer)[0];
}
const POINT = pixel("point"), ZERO = pixel("zero"), LAST = pixel("last");

/* Read back from the pixels: the middle of each patch in the points' colour, from left to right, and how many pixels a side has, if all are squares of one
   size; the rows of the zero line at the left edge; first and last row of the mark in the last point's column. */
function canvasSeen(canvas) {
    const { width, height } = canvas, pixels = new Uint32Array(canvas.getContext("2d").getImageData(0, 0, width, height).data.buffer);
    const columns = Array.from({ length: width }, () => []);
    for (let at = 0; at < pixels.length; at++) if (pixels[at] === POINT) columns[at % width].push(Math.floor(at / width));
    const patches = patchesOf(columns), side = patches[0]?.rows.length ?? 0;
    const square = ({ rows }) => rows.length === side && rows.every((one) => one.length === side && one[0] === rows[0][0] && one.at(-1) === one[0] + side - 1);
    const middles = patches.map(({ from, rows }) => [from + (rows.length - 1) / 2, (rows[0][0] + rows[0].at(-1)) / 2]);
    const rowsIn = (column, colour) => Array.from({ length: height }, (_, row) => row).filter((row) => pixels[row * width + column] === colour);
    const mark = rowsIn(middles.at(-1)?.[0] ?? 0, LAST);
    return [`points ${middles.map((middle) => middle.join(",")).join(" ")}`,
        `size ${width} ${height} dot ${patches.every(square) ? side : "uneven"} zero ${rowsIn(0, ZERO).join(" ")} mark ${mark[0]} ${mark.at(-1)}`];
}

/* Columns side by side that have rows in them, as one patch: where it begins, and the rows of each column. */
function patchesOf(columns) {
    const patches = [];
    columns.forEach((rows, column) => {
        if (rows.length === 0) return;
        if (column === 0 || columns[column - 1].length === 0) patches.push({ from: column, rows: [] });
        patches.at(-1).rows.push(rows);
    });
    return patches;
}

/* Every line of the display is explained where it has the focus or is pointed at: its words first, then more; and no longer. A line with nothing on it is not. */
function writeExplained(name) {
    const turns = [[(line) => line.focus(), (line) => line.blur()],
        ["mouseenter", "mouseleave"].map((turn) => (line) => line.dispatchEvent(new MouseEvent(turn)))];
    const words = document.getElementById("explained"), hint = textOf(words);
    document.querySelectorAll(".line").forEach((line, i) => turns.forEach(([come, go]) => {
        come(line);
        const shown = line.textContent.trim().replace(/ +/g, " "), said = textOf(words);
        const more = said.startsWith(shown) && said.length > shown.length + 20;
        go(line);
        explained.push(`${name} ${i + 1} ${textOf(words) !== hint ? "stays" : shown === "" ? "empty" : more ? "yes" : `no: ${said}`}`);
    }));
}

/* The listing's fold-out. It opens by itself a moment later than it is told to. */
async function writeListing(name) {
    const listing = document.getElementById("listing"), text = document.getElementById("listing-text");
    if (!text.textContent) {
        const filled = changed(text);
        listing.open = true;
        await filled;
    }
    listings.push(`listing ${name}`, text.textContent.trimEnd());
    listing.open = false;
    await new Promise((done) => listing.addEventListener("toggle", done, { once: true }));
}

/* The product of two 128-bit words, by the module's own function, into a lent list. */
function writeProduct(line) {
    const words = line.split(" ").map((digits) => BigInt.asIntN(64, BigInt(`0x${digits}`)));
    box.library.calls.__multi3(box.library.places.reply, ...words);
    products.push([...box.library.list("reply").slice(0, 2)].map((word) => word.toString(16).padStart(16, "0")).join(" "));
}

/* How much wider than the window the page is, at most. */
let wider = 0;

async function run() {
    let turn = 0;
    for (const [name, text, keys, asks] of RUNS) {
        await handIn(name, text, turn++);
        writeScreen(name);
        for (const key of keys) {
            pressed(key);
            writeScreen(name);
        }
        wider = Math.max(wider, document.documentElement.scrollWidth - innerWidth);
        if (asks.includes("explained")) writeExplained(name);
        if (asks.includes("listing")) await writeListing(name);
    }
    FACTORS.forEach(writeProduct);
    return "end";
}

run().catch((error) => `stopped: ${error.stack}`).then((ended) => {
    const sections = { screens, explained, listings, products, width: [`${innerWidth} ${wider}`], ended: [ended] };
    const seen = Object.entries(sections).flatMap(([name, written]) => [`## ${name}`, ...written]);
    const pre = document.createElement("pre");
    pre.id = "seen";
    pre.textContent = `\n\n${seen.join("\n")}\n`;
    document.body.append(pre);
    clearInterval(held);
});
