/* The page: what is dropped on it, picked, pressed and pointed at. */

const element = (id) => document.getElementById(id);
const lines = [...document.querySelectorAll(".line")];

/* What is on show: the library, once it is there; the book; its file's name; the strips as they were drawn; how many books were handed in; and the line of the
   display that is pointed at. */
const box = { library: null, book: null, name: "", strips: [], count: 0, pointed: null };
const opened = Library.opened(MODULE).then((library) => { box.library = library; });

/* Puts a book on show. Only the last one that was asked for is: a file that takes longer to read does not push it away. */
async function show(name, bytesComing) {
    const count = ++box.count;
    let bytes;
    try {
        await opened;
        bytes = await bytesComing;
    } catch (error) {
        if (count === box.count) say(`${name} cannot be read: ${error.message}`, true);
        return;
    }
    if (count !== box.count) return;
    box.name = name;
    box.book = new Book(box.library, bytes, count);
    listRequirements();
    press(KEY.show);
}

/* A file: no more of it than the longest book and a byte, by which bytes too many are seen. */
function showFile(file) {
    return show(file.name, file.slice(0, MOST_BYTES + 1).arrayBuffer().then((buffer) => new Uint8Array(buffer)));
}

/* A key press: what the library draws, and what belongs to it. */
function press(key) {
    if (!box.book) return;
    const drawn = box.book.press(key);
    lines.forEach((line, i) => { line.textContent = drawn[i]; });
    showStrips();
    showRefusal();
    showWhere();
    explain();
    if (element("listing").open) showListing();
    say(spoken(drawn), false);
}

/* What kind of page is on show, by the names of EXPLAINED. */
function kind() {
    const { book } = box;
    if (!book) return "nothing";
    if (book.refusal) return "refused";
    if (book.page === 0) return "first";
    return book.page === book.lastPage ? "residual" : "member";
}

function listRequirements() {
    const { book } = box, list = element("requirement"), taken = !book.refusal;
    const names = taken ? Array.from({ length: book.requirements }, (_, which) => requirementName(book.requirement(which))) : ["refused"];
    list.replaceChildren(...names.map((name) => new Option(name)));
    list.selectedIndex = 0;
    list.disabled = !taken;
    for (const id of ["previous", "home", "next"]) element(id).disabled = !taken;
    element("listing-text").textContent = "";
}

function showWhere() {
    element("where").textContent = `${box.name}: ${placeOf(box.book)}`;
}

function placeOf({ refusal, page, lastPage }) {
    if (refusal) return "refused";
    return page === 0 ? `first page, of ${lastPage} ${lastPage === 1 ? "member" : "members"}` : `member ${page} of ${lastPage}`;
}

function showStrips() {
    const { book } = box, units = book.refusal ? [] : book.unitsOnShow();
    box.strips = units.map((row) => book.strip(row));
    const layout = layoutFor(units.length), colours = coloursNow();
    element("strips").className = units.length > 1 ? "group" : "";
    element("strips").replaceChildren(...box.strips.map((strip) => figureOf(strip, layout, colours)));
    element("strips-note").textContent = stripsNote(units.length);
}

function stripsNote(units) {
    if (box.book.refusal) return NO_STRIP;
    if (units === 0) return NOT_A_MEMBER;
    return units === 1 ? "" : `A group of ${units} units: the strip of each.`;
}

/* A unit's strip with its three numbers; of a bad unit the words. */
function figureOf(strip, layout, colours) {
    const figure = made("figure", "", "strip" + (layout === LAYOUT.alone ? "" : " small"));
    figure.append(made("figcaption", `unit ${strip.number}`));
    if (!strip.drawn) {
        figure.append(made("p", "bad unit", "bad"));
        return figure;
    }
    const canvas = document.createElement("canvas"), numbers = document.createElement("dl");
    for (const name of ["lowest", "highest", "last"]) {
        const number = document.createElement("div");
        number.append(made("dt", name), made("dd", megawatts(strip[name])));
        numbers.append(number);
    }
    canvas.setAttribute("role", "img");
    canvas.setAttribute("aria-label", `trend strip of unit ${strip.number}, 75 points`);
    drawStrip(canvas, strip, layout, colours);
    figure.append(canvas, numbers);
    return figure;
}

function made(kindOfElement, text, className = "") {
    const one = document.createElement(kindOfElement);
    one.textContent = text;
    one.className = className;
    return one;
}

function showRefusal() {
    const { refusal } = box.book;
    element("refusal").hidden = !refusal;
    if (!refusal) return;
    for (const part of ["number", "place", "t"]) element(`refusal-${part}`).textContent = refusal[part];
    element("refusal-cause").textContent = `${CAUSES[refusal.number] ?? ""} ${PLACED}`.trim();
}

function showListing() {
    const { book } = box, text = element("listing-text");
    if (!book || text.textContent) return;
    text.textContent = book.refusal ? `refused ${book.refusal.number} ${book.refusal.place} ${book.refusal.t}\n` : book.listing();
}

/* Below the display: what the line says that is pointed at, or else has the focus; or how to ask. */
function explain() {
    const line = box.pointed ?? lines.find((one) => one === document.activeElement);
    const words = line ? EXPLAINED[kind()][lines.indexOf(line)] : "";
    if (words) element("explained").replaceChildren(made("b", plain(line.textContent)), ` ${words}`);
    else element("explained").textContent = box.book ? HINT : START;
}

/* A line of the display as words. */
function plain(line) {
    return line.trim().replace(/ +/g, " ");
}

/* For those who listen: the lines of the page, one after the other, and the numbers of a strip. */
function spoken(drawn) {
    const page = drawn.map(plain).filter((line) => line !== "").join(", ");
    if (box.strips.length !== 1) return page;
    const [{ drawn: isDrawn, lowest, highest, last }] = box.strips;
    return `${page}. ${isDrawn ? `Trend: lowest ${megawatts(lowest)}, highest ${megawatts(highest)}, last ${megawatts(last)}` : "bad unit"}`;
}

/* What went wrong is also seen. */
function say(text, wrong) {
    element("said").textContent = text;
    if (wrong) element("explained").textContent = text;
}

const KEYS = { ArrowRight: KEY.next, ArrowDown: KEY.next, ArrowLeft: KEY.previous, ArrowUp: KEY.previous, Home: KEY.home };

/* The arrows are the display's wherever one is on the page, but in the list and the listing, which have arrows of their own. */
document.addEventListener("keydown", (event) => {
    const key = KEYS[event.key];
    if (key === undefined || !box.book || event.altKey || event.ctrlKey || event.metaKey || event.shiftKey) return;
    if (event.target instanceof Element && event.target.closest("select, pre")) return;
    event.preventDefault();
    press(key);
});
element("next").addEventListener("click", () => press(KEY.next));
element("previous").addEventListener("click", () => press(KEY.previous));
element("home").addEventListener("click", () => press(KEY.home));
element("requirement").addEventListener("change", (event) => {
    box.book.choose(event.target.selectedIndex);
    press(KEY.show);
});

function pointAt(line) {
    box.pointed = line;
    explain();
}

for (const line of lines) {
    line.addEventListener("mouseenter", () => pointAt(line));
    line.addEventListener("mouseleave", () => pointAt(null));
    for (const turn of ["focus", "blur"]) line.addEventListener(turn, explain);
    /* A tap on a line is to give it the focus, which not every browser does. */
    line.addEventListener("click", () => line.focus());
}

document.addEventListener("dragover", (event) => {
    event.preventDefault();
    document.body.classList.add("over");
});
document.addEventListener("dragleave", (event) => {
    if (!event.relatedTarget) document.body.classList.remove("over");
});
document.addEventListener("drop", (event) => {
    event.preventDefault();
    document.body.classList.remove("over");
    const [file] = event.dataTransfer.files;
    if (file) showFile(file);
});
element("file").addEventListener("change", (event) => {
    const [file] = event.target.files;
    if (file) showFile(file);
    event.target.value = "";
});
for (const button of document.querySelectorAll("[data-example]")) {
    const { example } = button.dataset;
    button.addEventListener("click", () => show(`${example}.book`, bytesOf(EXAMPLES[example])));
}
element("listing").addEventListener("toggle", () => { if (element("listing").open) showListing(); });
matchMedia("(prefers-color-scheme: dark)").addEventListener("change", () => { if (box.book) showStrips(); });

/* What should not happen is said, not hidden. */
addEventListener("error", (event) => say(`The page has stopped: ${event.message}`, true));
addEventListener("unhandledrejection", (event) => say(`The page has stopped: ${event.reason}`, true));

explain();
element("strips-note").textContent = NO_STRIP;
opened.catch((error) => say(`This browser does not run the library: ${error.message}`, true));
