/**
 * Computes how wide columns are: as their headers and first rows need it, within bounds. What room is left goes to columns that want more.
 */
import { fillOf, fractionOf, isGrouped } from "./cell.js";
import { element } from "./element.js";

const SAMPLE = 60;
const LEAST = 56;
const MOST = 300;
const MOST_WITH_ROOM = 640;
const MOST_HEADER = 210;
const MOST_SIGNS = 120;
const CELL_PADDING = 21;
const HEADER_EXTRA = 60;
const THOUSANDS_GAP = 3;
const KEY_STEP = 16;

const context = document.createElement("canvas").getContext("2d");

function measurerOf(font) {
    context.font = font;
    return (text) => {
        context.font = font;
        return context.measureText(text).width;
    };
}

/** Measures a digit as it is in columns of numbers (all of one width), which a canvas does not know. */
function digitWidth(table) {
    const digits = element("span", {}, "0".repeat(20));
    const row = element("tr", {}, element("td", { class: "number" }, digits));
    table.tBodies[0].append(row);
    const { width } = digits.getBoundingClientRect();
    row.remove();
    return width / 20;
}

/** The width of a title on one line or, broken at a space or `_`, on two. */
function titleWidth(title, measure, room) {
    const whole = measure(title);
    if (whole <= room) {
        return whole;
    }
    const cuts = [...title.matchAll(/[ _]/g)].map(({ index }) => index + 1);
    return Math.min(whole, ...cuts.map((cut) => Math.max(measure(title.slice(0, cut)), measure(title.slice(cut)), room)));
}

const fontOf = (found) => {
    const { fontWeight, fontSize, fontFamily } = getComputedStyle(found);
    return `${fontWeight} ${fontSize} ${fontFamily}`;
};

export const longestFraction = (rows, name) => Math.max(0, ...rows.map((row) => fractionOf(row[name])));

/** Gives each column what it needs, and shares the room that is left among those that wish for more. */
function shared(needs, wishes, room) {
    const left = Math.max(0, room - needs.reduce((sum, width) => sum + width, 0));
    const wants = wishes.map((wish, at) => Math.max(0, Math.min(MOST_WITH_ROOM, wish) - needs[at]));
    const all = wants.reduce((sum, want) => sum + want, 0);
    return needs.map((width, at) => Math.ceil(width + (all === 0 ? 0 : Math.min(wants[at], (left * wants[at]) / all))));
}

function numberWidth(text, column, measure, digit) {
    const digits = text.replace(/\D/g, "").length;
    return measure(text.replace(/\d/g, "")) + digit * digits + (isGrouped(column) ? Math.floor(digits / 3) * THOUSANDS_GAP : 0);
}

/** The width of a column's widest cell in the sample. */
function cellsWidth(column, sample, measure, digit) {
    const { name, type } = column;
    const longest = type === "decimal" ? longestFraction(sample, name) : 0;
    const widths = sample.map((row) => {
        const value = row[name];
        const text = value === null ? "–" : String(value) + ((type === "decimal" && fillOf(value, longest)) || "");
        return type === "string" ? measure(text.slice(0, MOST_SIGNS)) : numberWidth(text, column, measure, digit);
    });
    return Math.max(LEAST, Math.max(0, ...widths) + CELL_PADDING);
}

/** Returns the widths of columns in pixels, by their names, for a room of as many. Titles take two lines if room is short. */
export function widthsOf(columns, rows, table, room) {
    const sample = rows.slice(0, SAMPLE);
    const digit = digitWidth(table);
    const measure = measurerOf(fontOf(table));
    const bold = measurerOf(fontOf(table).replace(/^\d+/, "600"));
    const cells = columns.map((column) => cellsWidth(column, sample, measure, digit));
    const headers = (widthOf) => columns.map(({ title }, at) => Math.min(MOST_HEADER, widthOf(title, cells[at]) + HEADER_EXTRA));
    const short = headers((title, cell) => titleWidth(title, bold, cell - HEADER_EXTRA));
    const long = headers((title) => bold(title));
    const needs = cells.map((width, at) => Math.max(short[at], Math.min(MOST, width)));
    const widths = shared(needs, cells.map((width, at) => Math.max(long[at], width)), room);
    return new Map(columns.map(({ name }, at) => [name, widths[at]]));
}

/** Lets a header's end be dragged; `changed` gets the width in pixels. */
export function makeDraggable(handle, col, changed) {
    handle.addEventListener("pointerdown", (event) => {
        event.preventDefault();
        handle.setPointerCapture(event.pointerId);
        const width = parseFloat(col.style.width);
        const move = ({ clientX }) => changed(Math.max(LEAST, Math.round(width + clientX - event.clientX)));
        handle.addEventListener("pointermove", move);
        handle.addEventListener("pointerup", () => handle.removeEventListener("pointermove", move), { once: true });
    });
    handle.addEventListener("click", (event) => event.stopPropagation());
}

/** The width after a step by the keyboard. */
export const steppedWidth = (width, direction) => Math.max(LEAST, width + direction * KEY_STEP);
