/**
 * Writes $filter (OData 4.01 URL Conventions, section 5.1): the chips, the search and the text by hand, joined by `and`.
 */
import { encoded } from "./encoding.js";

const anyOf = (parts) => (parts.length === 1 ? parts[0] : `(${parts.join(" or ")})`);

const call = (name) => (column, literals) => anyOf(literals.map((literal) => `${name}(${column},${literal})`));
const equal = (column, literals) => (literals.length === 1 ? `${column} eq ${literals[0]}` : `${column} in (${literals.join(",")})`);
const unlike = (column, literals) => (literals.length === 1 ? `${column} ne ${literals[0]}` : `not (${equal(column, literals)})`);

/** Puts parentheses around a condition that has none. */
const closed = (condition) => (condition.startsWith("(") ? condition : `(${condition})`);

/** Each test of a chip: its words, and how $filter says it of a column's name and literals. Values of one chip are joined by `or`. */
export const TESTS = {
    is: { words: "is", write: equal },
    not: { words: "is not", write: unlike },
    contains: { words: "contains", write: call("contains") },
    lacks: { words: "does not contain", write: (column, literals) => `not ${closed(call("contains")(column, literals))}` },
    begins: { words: "begins with", write: call("startswith") },
    ends: { words: "ends with", write: call("endswith") },
    from: { words: "from", write: (column, [least]) => `${column} ge ${least}` },
    to: { words: "up to", write: (column, [most]) => `${column} le ${most}` },
    range: { words: "from", write: (column, [least, most]) => `${column} ge ${least} and ${column} le ${most}` },
    span: { words: "from", write: (column, [least, end]) => `${column} ge ${least} and ${column} lt ${end}` },
};

/** True if an expression can name a column: it reads these words as values or as `not`. */
export const isNameable = (name) => !["true", "false", "null", "not"].includes(name.toLowerCase());

/**
 * Returns a value as a literal (section 5.1.1.14.1). A text is between quotes, and a quote in it is doubled. A decimal always has a point:
 * the service compares a decimal column with a number without one three times as slowly.
 */
export function literalOf(value, type) {
    if (value === null) {
        return "null";
    }
    const text = String(value);
    if (type === "string") {
        return `'${text.replaceAll("'", "''")}'`;
    }
    return type === "decimal" && /^\s*-?\d+\s*$/.test(text) ? `${text.trim()}.0` : text.trim();
}

function chipFilter({ column, test, values }, table) {
    const type = table.typeOf(column);
    return TESTS[test].write(column, values.map((value) => literalOf(value, type)));
}

/** The spellings of a text that are searched for, since case counts in `contains` and there is no `tolower`. The most useful comes first. */
function spellings(text) {
    const small = text.toLocaleLowerCase();
    const capital = small.replace(/(^|\s)\p{L}/gu, (front) => front.toLocaleUpperCase());
    return [...new Set([text, small, capital, text.toLocaleUpperCase()])];
}

/** The service refuses more than 1,024 tokens (eight for each part of a search) and a head of more than 8,192 bytes: both leave room for other conditions. */
const MOST_PARTS = 110;
const MOST_LENGTH = 5000;

/** The types that a text reads as, besides texts. */
function typesOf(text) {
    if (/^-?\d{1,18}$/.test(text)) {
        return ["integer", "decimal"];
    }
    if (/^-?\d{1,12}\.\d{1,6}$/.test(text)) {
        return ["decimal"];
    }
    return /^\d{4}-\d\d-\d\d$/.test(text) ? ["date"] : [];
}

/** Searches texts for a few spellings, and columns of numbers or days for what reads as one. A table of many columns is searched for fewer spellings. */
function searchFilter(text, table) {
    const columns = table.columns.filter(({ name }) => isNameable(name));
    const texts = columns.filter(({ type }) => type === "string");
    const others = columns.filter(({ type }) => typesOf(text).includes(type)).map(({ name, type }) => `${name} eq ${literalOf(text, type)}`);
    let spelled = spellings(text);
    for (;;) {
        const parts = [...texts.flatMap(({ name }) => spelled.map((spelling) => `contains(${name},${literalOf(spelling, "string")})`)), ...others];
        const written = anyOf(parts);
        if (spelled.length === 1 || (parts.length <= MOST_PARTS && encoded(written).length <= MOST_LENGTH)) {
            return parts.length === 0 ? "false" : written;
        }
        spelled = spelled.slice(0, -1);
    }
}

/** Joins the conditions that are not empty by `and`. */
export const and = (...parts) => parts.filter((part) => part !== "").join(" and ");

/** A condition that may be joined to others. */
export const closedFilter = (filter) => (filter === "" ? "" : `(${filter})`);

/** Returns $filter of a state (section 5.1.2). */
export function filterOf(state, table) {
    const chips = state.where.filter(({ test, values }) => Object.hasOwn(TESTS, test) && values.length > 0).map((chip) => chipFilter(chip, table));
    const searched = state.search.trim() === "" ? [] : [searchFilter(state.search.trim(), table)];
    const written = state.text.trim();
    const isJoined = searched.length + chips.length > 0;
    return and(...searched, isJoined ? closedFilter(written) : written, ...chips);
}
