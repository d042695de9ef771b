/* What the page says: of each line of the display, by what is on show, and of each refusal that a book can meet. */

const START = "Drop a book on this page, or press one of the example buttons above.";
const HINT = "Point at a line of the display, tap it, or go to it with Tab: what stands on it is explained here.";

const CENTS = "In cents; a minus is a charge.";
const STANDING = "At the right live: it is judged by what it did in these five minutes; or default: its readings or its region cannot be relied on, and " +
    "numbers agreed before stand in.";

const EXPLAINED = {
    nothing: ["", "", "", ""],
    first: [
        "Which requirement this is, by its number, and its direction: raise, more power was needed, or lower, less was. The next pages are its members.",
        "The requirement for corrective response: the most power that was put right at one point, all members of that direction together. 7500 is 1 MW.",
        "What is paid to those who helped and charged to those who did not, for this requirement. In cents.",
        "What the regulation that was held ready for this requirement cost, as the book says. It is charged as USED and IDLE. In cents.",
    ],
    member: [
        `Who this is: a unit by its number; a group of units goes by its first one's. ${STANDING}`,
        `Its part of the pool. Who moved the way that frequency needed is credited, who moved against it is charged. ${CENTS}`,
        `Its part of what the regulation cost that was used, charged to those who moved against what frequency needed. ${CENTS}`,
        `Its part of what the regulation cost that was held ready and not used, charged by numbers agreed before. ${CENTS}`,
    ],
    residual: [
        `The residual: all that is not metered unit by unit in the requirement's regions, taken together. It is the last page. ${STANDING}`,
        `The residual's part of the pool. ${CENTS}`,
        `The residual's part of what the regulation cost that was used. ${CENTS}`,
        `The residual's part of what the regulation cost that was held ready and not used. ${CENTS}`,
    ],
    refused: ["The book was refused, and nothing of it is settled. This is why, in the display's words; number, place and t stand under it.", "", "", ""],
};

const NOT_A_MEMBER = "The first page and the residual have no strip: go to a unit with next.";
const NO_STRIP = "Once a book is there, a unit's page has its trend strip here.";

/* Causes by number, where a book alone can be the cause. */
const CAUSES = {
    1: "The book ends before the record does that stands at this place.",
    2: "The file does not begin with the mark of an interval book.",
    3: "The table of contents is wrong: an entry, the entry count or the zero field.",
    4: "Bytes follow the last requirement.",
    5: "A count in the table of contents is over or under its limit: at most 512 units, 1 to 32 requirements.",
    6: "A field of the settings breaks its rule.",
    9: "The unit's number does not rise.",
    10: "A field of the requirement breaks its rule, or its number does not rise.",
    16: "The unit's group: its number stood before and was left, or the unit is in another region than the group, or it has a default and is not the first.",
    71: "The frequency record's header: region, separation, measure before the interval, or generation.",
    72: "A default of the frequency record.",
    73: "The quality bytes of the frequency record.",
    74: "The frequency at point t is out of range, or bad and not 0.",
    81: "The unit's header: region, kind, start or end.",
    82: "A default of the unit.",
    83: "The quality bytes of the unit.",
    84: "The unit's reading at t is out of range, or bad and not 0.",
};
const PLACED = "The place is that of the record among those of its kind, from 1; t is the point or reading, 1 to 75. What is not there is 0.";

const REGION_NAMES = ["QLD1", "NSW1", "VIC1", "SA1", "TAS1"];
const DIRECTION_NAMES = ["raise", "lower"];

/* A requirement in the list. */
function requirementName({ number, direction, set }) {
    const regions = REGION_NAMES.filter((_, region) => set & (1 << region));
    return `${number} ${DIRECTION_NAMES[direction]}, ${regions.join(" ")}`;
}

/* A float of a strip's small record, with the four decimals that `trend` prints. */
function megawatts(value) {
    return `${value.toFixed(4)} MW`;
}
