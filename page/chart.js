/**
 * Draws a line over days. The table below it says the same, so the drawing is one image to a screen reader.
 */
import { shortText } from "./cell.js";
import { timeOf } from "./bins.js";
import { drawing, element } from "./element.js";

const HEIGHT = 160;
const LEFT = 48;
const RIGHT = 8;
const TOP = 12;
const BOTTOM = 20;

/** The least and the greatest number of the axis. It may begin above zero if all of the line is far above it: the rules have their numbers. */
function axisOf(lengths) {
    const least = Math.min(...lengths);
    const most = Math.max(...lengths);
    const step = 10 ** Math.floor(Math.log10(most - least || 1));
    const low = least > 0 && least < most / 2 ? 0 : Math.floor(least / step) * step;
    return { low, high: Math.max(Math.ceil(most / step) * step, low + 1) };
}

/** Returns the line of groups by days, months or years, in their order. */
export function lineChart(groups, words, width) {
    const points = groups.filter(({ values, shown }) => values[0] !== null && shown !== null)
        .map(({ values: [day], length }) => ({ day, at: timeOf(day.padEnd(10, "-01")), length }));
    const [first, last] = [points[0], points.at(-1)];
    const { low, high } = axisOf(points.map(({ length }) => length));
    const x = (at) => LEFT + ((width - LEFT - RIGHT) * (at - first.at)) / (last.at - first.at || 1);
    const y = (length) => HEIGHT - BOTTOM - ((HEIGHT - TOP - BOTTOM) * (length - low)) / (high - low);
    const rules = [low, (low + high) / 2, high].flatMap((length) => [
        drawing("line", { class: "rule", x1: LEFT, x2: width, y1: y(length), y2: y(length) }),
        drawing("text", { x: LEFT - 6, y: y(length) + 4, "text-anchor": "end" }, shortText(length))]);
    const ends = [[first, "start"], [last, "end"]].map(([{ day, at }, anchor]) => drawing("text", { x: x(at), y: HEIGHT - 3, "text-anchor": anchor }, day));
    const line = drawing("polyline", { points: points.map(({ at, length }) => `${x(at).toFixed(1)},${y(length).toFixed(1)}`).join(" ") });
    return element("figure", { class: "line-chart" },
        drawing("svg", { viewBox: `0 0 ${width} ${HEIGHT}`, role: "img", "aria-label": `${words}, from ${first.day} to ${last.day}` }, ...rules, ...ends, line));
}
