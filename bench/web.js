/* Appended to the page by bench/web, behind LARGE and GROUPED: hands it a book of 512 units as soon as it is there, and writes down how many milliseconds after
   the browser began to open the page the display was drawn; then how long a key press takes, and a page with 512 strips. Real time: the browser takes the page
   down when it is loaded, and an unfinished frame keeps it from being so until all is written. */

const unfinished = document.createElement("iframe");
document.body.append(unfinished);
unfinished.contentDocument.open();

/* The next time that the browser has painted. */
const painted = () => new Promise((done) => requestAnimationFrame(() => setTimeout(() => done(performance.now()), 0)));

function dropped(text) {
    const transfer = new DataTransfer(), where = document.getElementById("where");
    transfer.items.add(new File([Uint8Array.from(atob(text), (letter) => letter.charCodeAt(0))], "a.book"));
    return new Promise((done) => {
        const watcher = new MutationObserver(() => { watcher.disconnect(); done(); });
        watcher.observe(where, { childList: true });
        document.dispatchEvent(new DragEvent("drop", { dataTransfer: transfer, bubbles: true, cancelable: true }));
    });
}

/* Milliseconds of a turn, up to when it is painted. */
async function timed(turn) {
    const began = performance.now();
    await turn();
    return (await painted()) - began;
}

(async () => {
    const there = performance.now();
    const taking = await timed(() => dropped(LARGE));
    const ready = performance.now();
    const pressing = await timed(() => document.getElementById("next").click());
    await dropped(GROUPED);
    const grouped = await timed(() => document.getElementById("next").click());
    const strips = document.querySelectorAll("#strips canvas").length, line = document.querySelector(".line").textContent.trim();
    const pre = document.createElement("pre");
    pre.textContent = ["", "", `times ${[there, taking, ready, pressing, grouped].map((time) => time.toFixed(1)).join(" ")} ${strips} ${line}`, ""].join("\n");
    document.body.append(pre);
    unfinished.contentDocument.close();
})();
