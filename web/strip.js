/* A trend strip on a canvas: 75 points between lowest and highest, a line at zero, the last point marked. The scale goes from lowest to highest, and on to zero
   where zero is not between them, so that the line is always there. Whole pixels throughout: tests/web reads them back. */

/* Pixels from point to point, around the points, of the whole height, and from a point's middle to its edge. A member's one unit has a strip to itself; those
   of a group are smaller, and of a large group smaller still. On the page a pixel of the first two is half a pixel. */
const LAYOUT = {
    alone: { step: 16, margin: 20, height: 280, dot: 3, shown: 0.5 },
    few: { step: 8, margin: 16, height: 144, dot: 2, shown: 0.5 },
    many: { step: 4, margin: 8, height: 72, dot: 1, shown: 1 },
};
const FEW = 16;

function layoutFor(units) {
    if (units === 1) return LAYOUT.alone;
    return units <= FEW ? LAYOUT.few : LAYOUT.many;
}

/* Where a value stands, from above, between the two ends of the scale; in the middle where they are the same. */
function heightOf(value, { lowest, highest }, { margin, height }) {
    const least = Math.min(lowest, 0), most = Math.max(highest, 0), room = height - 1 - 2 * margin;
    return margin + Math.floor((most === least ? 0.5 : (most - value) / (most - least)) * room + 0.5);
}

/* The colours of the page's style, as they are now: light or dark. */
function coloursNow() {
    const style = getComputedStyle(document.documentElement);
    return Object.fromEntries(["area", "trace", "zero", "point", "last"].map((name) => [name, style.getPropertyValue(`--${name}`).trim()]));
}

function drawStrip(canvas, strip, layout, colours) {
    const { step, margin, height, dot, shown } = layout, width = 74 * step + 2 * margin + 1;
    canvas.width = width;
    canvas.height = height;
    canvas.style.width = `${width * shown}px`;
    const places = Array.from(strip.points, (value, t) => [margin + step * t, heightOf(value, strip, layout)]);
    const zero = heightOf(0, strip, layout), context = canvas.getContext("2d");
    drawCourse(context, places, zero, colours, dot);
    context.fillStyle = colours.zero;
    context.fillRect(0, zero, width, 1);
    drawLast(context, places[74], dot, colours.last);
    context.fillStyle = colours.point;
    for (const [x, y] of places) context.fillRect(x - dot, y - dot, 2 * dot + 1, 2 * dot + 1);
}

/* The area between points and zero, and the line from point to point. */
function drawCourse(context, places, zero, { area, trace }, width) {
    const line = new Path2D();
    for (const [x, y] of places) line.lineTo(x + 0.5, y + 0.5);
    const below = new Path2D(line);
    below.lineTo(places[74][0] + 0.5, zero + 0.5);
    below.lineTo(places[0][0] + 0.5, zero + 0.5);
    context.fillStyle = area;
    context.fill(below);
    context.strokeStyle = trace;
    context.lineWidth = width;
    context.lineJoin = "round";
    context.stroke(line);
}

/* A square around the last point. */
function drawLast(context, [x, y], dot, colour) {
    const edge = 2 * dot + 2;
    context.fillStyle = colour;
    context.fillRect(x - edge, y - edge, 2 * edge + 1, dot);
    context.fillRect(x - edge, y + edge - dot + 1, 2 * edge + 1, dot);
    context.fillRect(x - edge, y - edge, dot, 2 * edge + 1);
    context.fillRect(x + edge - dot + 1, y - edge, dot, 2 * edge + 1);
}
