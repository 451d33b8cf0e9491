/**
 * Changes the chips of a state. One column has one chip of a kind, so that a second "Only this" adds to the first.
 */
import { wordOf } from "./cell.js";
import { TESTS } from "./filter.js";

const isKind = (column, test) => (chip) => chip.column === column && chip.test === test;

/** The tests that exclude each other. */
export const LIMITS = ["from", "to", "range", "span"];

/** Sets a chip in place of one of the same column and kind; a chip without values is taken away. */
export function withChip(where, chip) {
    const isSame = (one) => one.column === chip.column && (one.test === chip.test || (LIMITS.includes(one.test) && LIMITS.includes(chip.test)));
    const at = where.findIndex(isSame);
    const rest = where.filter((one) => !isSame(one));
    if (chip.values.length === 0) {
        return rest;
    }
    return at < 0 ? [...rest, chip] : [...rest.slice(0, at), chip, ...rest.slice(at)];
}

export const valuesOf = (where, column, test) => where.find(isKind(column, test))?.values ?? [];

/** Adds a value to the chip of a kind. */
export const withValue = (where, column, test, value) => withChip(where, { column, test, values: [...new Set([...valuesOf(where, column, test), value])] });

/** Keeps the rows with this value alone: "is" it, and no "is not". */
export const onlyValue = (where, column, value) => withChip(where.filter((chip) => !isKind(column, "not")(chip)), { column, test: "is", values: [value] });

/** Adds a value to "is", or takes it away. */
export function toggled(where, column, value) {
    const values = valuesOf(where, column, "is");
    return withChip(where, { column, test: "is", values: values.includes(value) ? values.filter((one) => one !== value) : [...values, value] });
}

/** Returns a chip in words: its column's title, its test, and each value. */
export function wordsOf({ column, test, values }, table) {
    const { title } = table.column(column);
    if (test === "range" || test === "span") {
        return { title, words: "", values: [`${wordOf(values[0])} ${test === "range" ? "to" : "to below"} ${wordOf(values[1])}`] };
    }
    if (values.length === 1 && values[0] === null) {
        return { title, words: test === "is" ? "has" : "has a", values: [test === "is" ? "no value" : "value"] };
    }
    const symbols = { from: "≥", to: "≤" };
    return { title, words: symbols[test] ?? TESTS[test]?.words ?? test, values: values.map(wordOf) };
}
