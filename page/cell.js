/**
 * Shows values. The digits of a number are the service's own; the space between them is style, so that what is copied is the number.
 */
import { element } from "./element.js";

export const TYPE_WORDS = { string: "text", integer: "whole number", decimal: "decimal", boolean: "true or false", date: "date" };

const dayInWords = new Intl.DateTimeFormat(undefined, { dateStyle: "full", timeZone: "UTC" });
const counts = new Intl.NumberFormat();
const few = new Intl.NumberFormat(undefined, { maximumSignificantDigits: 4 });
const compact = new Intl.NumberFormat(undefined, { notation: "compact", maximumSignificantDigits: 3 });
const MANY = 1e4;

export const countText = (number) => counts.format(number);
export const countOf = (number, noun) => `${countText(number)} ${noun}${number === 1 ? "" : "s"}`;
export const roundText = (number) => (Math.abs(number) >= MANY ? counts.format(Math.round(number)) : few.format(number));
export const shortText = (number) => (Math.abs(number) >= MANY ? compact.format(number) : few.format(number));

/** Returns a writer of means that all have the same number of digits after the point: some four in all of the greatest. */
export function meansText(most) {
    const digits = Math.max(0, Math.min(6, 3 - Math.floor(Math.log10(Math.abs(most) || 1))));
    const format = new Intl.NumberFormat(undefined, { minimumFractionDigits: digits, maximumFractionDigits: digits });
    return (number) => format.format(number);
}

export const isNumber = (type) => type === "integer" || type === "decimal";

const LEAST_GROUPED = 5;

/** True if the thousands of a column are set apart: not in keys, and not in numbers of four digits, which are often years. */
export const isGrouped = ({ type, isKey, name }) => isNumber(type) && !isKey && !/(^|_)(id|year|code|zip|no|nr)$/i.test(name);

function groupedDigits(text) {
    const [, sign, whole, rest] = /^(-?)(\d+)(.*)$/.exec(text);
    if (whole.length < LEAST_GROUPED) {
        return [text];
    }
    const first = whole.slice(0, whole.length % 3 || 3);
    const groups = whole.slice(first.length).match(/\d{3}/g) ?? [];
    return [sign + first, ...groups.map((group) => element("span", { class: "thousands" }, group)), rest];
}

/** Returns what a cell contains: nothing for `null`, which style marks, so that no text is taken for a mark. */
export function contentOf(value, column) {
    if (value === null || value === "") {
        return [];
    }
    if (isGrouped(column)) {
        return groupedDigits(String(value));
    }
    if (column.type === "date") {
        return [element("time", { datetime: value, title: dayInWords.format(new Date(`${value}T00:00:00Z`)) }, value)];
    }
    return [String(value)];
}

/** The class of a value that would not be seen; a text of spaces is put between quotes. */
export function kindOf(value) {
    if (value === null) {
        return " is-null";
    }
    return value === "" ? " is-empty" : /^\s+$/.test(value) ? " is-blank" : "";
}

/** Returns a value as it is said within a sentence. */
export const wordOf = (value) => (value === null ? "no value" : value === "" ? "empty text" : String(value));

/** Counts the digits after the point. */
export const fractionOf = (value) => (value === null ? 0 : (String(value).split(".")[1]?.length ?? 0));

/** Returns the digits that a number lacks to have `longest` after its point: they are there and not seen, so that points are below each other. */
export function fillOf(value, longest) {
    const own = fractionOf(value);
    return value === null || longest === own ? null : (own === 0 ? "." : "") + "0".repeat(longest - own);
}
