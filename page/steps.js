/**
 * Joins groups of days into months or years: the service groups by whole values. Sums are exact.
 */
import { firstDayOf } from "./bins.js";

/** So many signs of a day make its month or its year. */
export const STEPS = { month: 7, year: 4 };

const SCALE = 6;

/** Reads a number of at most SCALE digits after the point as a whole number of its last digit. */
function scaled(text) {
    const [, sign, whole, part = ""] = /^(-?)(\d+)(?:\.(\d+))?$/.exec(String(text));
    return BigInt(sign + whole + part.padEnd(SCALE, "0"));
}

/** Returns the sum of two numbers with all of its digits. */
export function exactSum(one, other) {
    const sum = scaled(one) + scaled(other);
    const digits = String(sum < 0n ? -sum : sum).padStart(SCALE + 1, "0");
    const part = digits.slice(-SCALE).replace(/0+$/, "");
    return `${sum < 0n ? "-" : ""}${digits.slice(0, -SCALE)}${part && "."}${part}`;
}

/** The order of two values: numbers are texts here, and so are days. */
const isLess = (one, other, isNumeric) => (isNumeric ? scaled(one) < scaled(other) : one < other);

const JOIN = {
    min: (one, other, isNumeric) => (isLess(other, one, isNumeric) ? other : one),
    max: (one, other, isNumeric) => (isLess(one, other, isNumeric) ? other : one),
};

function joinedValue(one, other, method, isNumeric) {
    if (one === null || other === null) {
        return one ?? other;
    }
    return (JOIN[method] ?? exactSum)(one, other, isNumeric);
}

/** Joins groups of days, in their order, by the first `length` signs of the day. */
export function joined(parts, length, method, isNumeric) {
    const groups = new Map();
    for (const { values: [day], rows, value } of parts) {
        const front = day?.slice(0, length) ?? null;
        const group = groups.get(front) ?? { values: [front], rows: 0, value: null };
        groups.set(front, { values: [front], rows: group.rows + rows, value: joinedValue(group.value, value, method, isNumeric) });
    }
    return [...groups.values()];
}

/** Returns the first day of a month or a year, and that of the next one. */
export function limitsOfStep(front) {
    const [year, month] = front.split("-").map(Number);
    const first = year * 12 + (month ?? 1) - 1;
    return [first, first + (month === undefined ? 12 : 1)].map(firstDayOf);
}
