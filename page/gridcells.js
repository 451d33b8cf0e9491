/**
 * Makes the cells of the rows' table: headers with their two buttons, and values.
 */
import { contentOf, fillOf, isNumber, kindOf } from "./cell.js";
import { element } from "./element.js";
import { isNameable } from "./filter.js";

/** The longest text that is shown when the pointer rests on a cell, and the shortest that needs it. */
const MOST_HOVER = 1000;
const LEAST_HOVER = 30;

const typeClass = ({ type }) => `${type}${isNumber(type) ? " number" : ""}`;

export function headerCell(column) {
    const { name, title } = column;
    // a long title may break after `_` too
    const words = element("span", { class: "words", dir: "auto" }, ...title.split(/(?<=_)/).flatMap((part) => [part, element("wbr")]));
    const button = (attributes, ...children) => element("button", { type: "button", tabindex: "-1", ...attributes }, ...children);
    const sort = isNameable(name) ? button({ class: "sort", "data-sorts": name, title: `Sort by ${title}` }, words) : words;
    const menu = button({ class: "menu", "data-menu": name, "aria-label": `${title}: filter and profile`, "aria-haspopup": "dialog" });
    const handle = element("span", { class: "handle", "aria-hidden": "true" });
    return element("th", { scope: "col", class: typeClass(column) }, element("div", { class: "head" }, sort, menu), handle);
}

export function bodyCell(column, value, longest) {
    const isText = column.type === "string";
    const title = isText && value?.length > LEAST_HOVER ? value.slice(0, MOST_HOVER) : null;
    const fill = column.type === "decimal" ? fillOf(value, longest) : null;
    const attributes = { class: typeClass(column) + kindOf(value), tabindex: "-1", dir: isText ? "auto" : null, title, "data-fill": fill };
    return element("td", attributes, ...contentOf(value, column));
}
