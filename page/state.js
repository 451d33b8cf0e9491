/**
 * Reads and writes the address of what is shown. Everything is in it, after `#`, so that a link, a reload and the back button give the same view.
 *
 * table: the name of the table; empty for the list of tables
 * view: "rows", "groups" or "use" (downloads and code)
 * search: a text that some column has
 * text: a condition of $filter that was written by hand
 * where: the chips, each { column, test, values }; a value is a text, or null
 * order: { column, descending }, or null for the order of the file
 * select: the names of the columns that are shown; an empty list means all
 * skip: the number of rows before the first that is shown
 * by, method, of, step: the columns of the groups, what is computed for each (a method of a column), and whether days are joined by month or year
 */
import { decoded, encoded } from "./encoding.js";

export const PAGE_SIZE = 100;

export const START = Object.freeze({
    table: "", view: "rows", search: "", text: "", where: [], order: null, select: [], skip: 0, by: [], method: "count", of: "", step: "",
});

/** Splits a list of names. They have letters, digits and `_` alone, so a comma separates them and a space ends them. */
const names = (value) => value.split(",").filter((name) => name !== "");

/** Adds a value to the condition before it. */
function withValue(state, value) {
    const last = state.where.at(-1);
    return last ? { ...state, where: [...state.where.slice(0, -1), { ...last, values: [...last.values, value] }] } : state;
}

const READERS = {
    table: (state, value) => ({ ...state, table: value }),
    view: (state, value) => ({ ...state, view: ["groups", "use"].includes(value) ? value : "rows" }),
    search: (state, value) => ({ ...state, search: value }),
    text: (state, value) => ({ ...state, text: value }),
    where: (state, value) => {
        const [column, test] = value.split(" ");
        return test ? { ...state, where: [...state.where, { column, test, values: [] }] } : state;
    },
    value: withValue,
    none: (state) => withValue(state, null),
    order: (state, value) => {
        const [column, direction] = value.split(" ");
        return { ...state, order: { column, descending: direction === "desc" } };
    },
    select: (state, value) => ({ ...state, select: names(value) }),
    skip: (state, value) => ({ ...state, skip: /^\d{1,15}$/.test(value) ? Number(value) : 0 }),
    by: (state, value) => ({ ...state, by: names(value).slice(0, 2) }),
    method: (state, value) => ({ ...state, method: value }),
    of: (state, value) => ({ ...state, of: value }),
    step: (state, value) => ({ ...state, step: value }),
};

/** Returns the state of a fragment; parts that are none of it are ignored. */
export function stateOf(fragment) {
    let state = START;
    for (const part of fragment.replace(/^#/, "").split("&")) {
        const [name, escaped = ""] = part.split("=", 2);
        const value = decoded(escaped);
        if (Object.hasOwn(READERS, name) && value !== null) {
            state = READERS[name](state, value);
        }
    }
    return state;
}

const pairsOf = ({ column, test, values }) => [
    ["where", `${column} ${test}`],
    ...values.map((value) => (value === null ? ["none", null] : ["value", value])),
];

/** Returns the fragment of a state. What is as at the start is left out, so that one state has one fragment. */
export function fragmentOf(state) {
    const single = (name) => (state[name] === START[name] ? [] : [[name, String(state[name])]]);
    const list = (name) => (state[name].length === 0 ? [] : [[name, state[name].join(",")]]);
    const { order } = state;
    const pairs = [
        ...single("table"), ...single("view"), ...list("by"), ...single("method"), ...single("of"), ...single("step"),
        ...single("search"), ...single("text"), ...state.where.flatMap(pairsOf),
        ...(order ? [["order", `${order.column}${order.descending ? " desc" : ""}`]] : []),
        ...list("select"), ...single("skip"),
    ];
    return "#" + pairs.map(([name, value]) => (value === null ? name : `${name}=${encoded(value)}`)).join("&");
}
