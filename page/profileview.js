/**
 * Draws the profile of a column: facts, a histogram whose bars filter, and the commonest values, each with a box.
 */
import { chipOfBin } from "./bins.js";
import { countOf, countText, roundText, shortText, wordOf } from "./cell.js";
import { toggled, valuesOf, withChip } from "./conditions.js";
import { drawing, element } from "./element.js";
import { profileOf } from "./profile.js";

const SHOWN = 10;
/** So many values and more are shown by the histogram alone. */
const MANY = 60;
const WIDTH = 296;
const HEIGHT = 72;
const LEAST_BAR = 1.5;

const share = (part, whole) => (part === 0 || whole === 0 ? "" : ` (${part / whole < 0.01 ? "<1" : Math.round((100 * part) / whole)} %)`);

function factsOf({ rows, nulls, distinct, least, most, mean }) {
    const facts = [
        ["Different", distinct === null ? "…" : countText(distinct)], ["No value", countText(nulls) + share(nulls, rows)],
        ...(mean === null ? [] : [["Mean", roundText(mean)]]), ...(least === null ? [] : [["Range", `${least} to ${most}`]])];
    return element("dl", { class: "profile-facts" }, ...facts.map(([word, value]) =>
        element("div", { class: word === "Range" ? "is-wide" : null }, element("dt", {}, word), element("dd", { title: value }, value))));
}

/** Words for a limit below the drawing; of a day as much as is needed. */
const limitText = (literal, type) => (type === "date" ? literal.replace(/-01-01$/, "").replace(/-01$/, "") : shortText(Number(literal)));

function barOf(bin, at, { most, wide }, choose) {
    const { low, high, rows } = bin;
    const height = rows === 0 ? 0 : Math.max(LEAST_BAR, ((HEIGHT - 2) * rows) / most);
    const words = `${low.literal} to below ${high.literal}: ${countOf(rows, "row")}`;
    const bar = drawing("g", { class: "bin", tabindex: "0", role: "button", "aria-label": words }, drawing("title", {}, words),
        drawing("rect", { class: "whole", x: at * wide, y: 0, width: wide, height: HEIGHT }),
        drawing("rect", { class: "length", x: at * wide + 0.5, y: HEIGHT - height, width: Math.max(1, wide - 1), height }));
    bar.addEventListener("click", () => choose(bin));
    bar.addEventListener("keydown", ({ key }) => key === "Enter" && choose(bin));
    return bar;
}

function histogramOf(bins, column, choose) {
    const scale = { most: Math.max(...bins.map(({ rows }) => rows), 1), wide: WIDTH / bins.length };
    const ends = [bins[0].low, bins.at(-1).high].map(({ literal }) => element("span", {}, limitText(literal, column.type)));
    return element("figure", { class: "histogram" },
        drawing("svg", { viewBox: `0 0 ${WIDTH} ${HEIGHT + 1}`, width: "100%", role: "group", "aria-label": `Histogram of ${column.title}` },
            ...bins.map((bin, at) => barOf(bin, at, scale, choose)), drawing("line", { x1: 0, x2: WIDTH, y1: HEIGHT + 0.5, y2: HEIGHT + 0.5 })),
        element("figcaption", {}, ...ends));
}

function valueLine({ value, rows }, at, { most, isTicked, tick }) {
    const box = element("input", { type: "checkbox", id: `value-${at}` });
    box.checked = isTicked(value);
    box.addEventListener("change", () => tick(value));
    const length = drawing("rect", { width: `${(100 * rows) / most}%`, height: "100%", rx: 2 });
    const bar = drawing("svg", { class: "share", width: "100%", height: "100%", "aria-hidden": "true" }, length);
    const label = element("label", { for: box.id, dir: "auto", class: value ? null : "quiet", title: wordOf(value) }, wordOf(value));
    return element("li", {}, bar, box, label, element("span", { class: "rows" }, countText(rows)));
}

/** The list of values; those beyond the first few are found by a field. */
function valuesList(values, { distinct, nulls }, shared) {
    const list = element("ul", { class: "values" });
    const more = element("p", { class: "quiet", role: "status" });
    const unknown = distinct + (nulls > 0 ? 1 : 0) - values.length;
    const field = element("input", { type: "search", "aria-label": "Find a value", placeholder: "find a value", autocomplete: "off", spellcheck: "false" });
    const show = () => {
        const text = field.value.toLocaleLowerCase();
        const found = values.filter(({ value }) => wordOf(value).toLocaleLowerCase().includes(text));
        const left = Math.max(0, found.length - SHOWN) + (text === "" ? unknown : 0);
        list.replaceChildren(...found.slice(0, SHOWN).map((one, at) => valueLine(one, at, shared)));
        more.replaceChildren(left > 0 ? `and ${countText(left)} more` : "");
    };
    field.addEventListener("input", show);
    show();
    const head = element("div", { class: "values-head" }, element("h3", {}, "Commonest values"), ...(values.length > SHOWN ? [field] : []));
    return element("div", {}, head, list, more);
}

/** Returns a place for the profile of a column, which is asked for at once. Its least height is that of most profiles, so that little moves. */
export function profileView({ where, set, ticks, grown, ...question }) {
    const { column, signal } = question;
    const place = element("section", { class: "part profile", "aria-label": "Profile", "aria-busy": "true" },
        element("p", { class: "quiet" }, "Looking at the column …"));
    const tell = ({ summary, values, bins, isUnique }) => {
        const shared = {
            most: values?.[0]?.rows,
            isTicked: (value) => valuesOf(where, column.name, "is").includes(value),
            tick: (value) => ticks(toggled(where, column.name, value)),
        };
        const hasList = values && !isUnique && !(bins && values.length > MANY);
        const words = isUnique ? ["Each value occurs once."] : values === undefined ? ["Counting its values …"] : [];
        place.replaceChildren(factsOf(summary), ...(bins ? [histogramOf(bins, column, (bin) => set(withChip(where, chipOfBin(bin, column))))] : []),
            ...(hasList ? [valuesList(values, summary, shared)] : []), ...words.map((text) => element("p", { class: "quiet" }, text)));
        grown();
    };
    profileOf(question, tell).then(
        () => place.setAttribute("aria-busy", "false"),
        (error) => signal.aborted || place.replaceChildren(element("p", { class: "error" }, `The profile did not come: ${error.message}.`)));
    return place;
}
