/**
 * Asks for the rows grouped by one or two columns, and computes what the service does not: means, and days joined by month or year.
 */
import { isNumber } from "./cell.js";
import { and, closedFilter, filterOf, isNameable } from "./filter.js";
import { aliasOf, groupAddress, pageAddress } from "./query.js";
import { joined, STEPS } from "./steps.js";

export const SHOWN = 200;
/** So many groups are asked for if they are joined or ordered here. */
export const MOST_JOINED = 20_000;

const SCALES = ["integer", "decimal"];
const ANY = [...SCALES, "string", "date", "boolean"];

/** What can be shown of each group: its words, and the types of columns that it is of. */
export const METHODS = {
    count: { words: "number of rows", types: [] },
    mean: { words: "mean", types: SCALES },
    sum: { words: "sum", types: SCALES },
    min: { words: "least", types: ANY },
    max: { words: "greatest", types: ANY },
    countdistinct: { words: "different values", types: ANY },
};

/** The columns that a method can be of. A mean needs a filter on its column. */
export const fittingColumns = (table, method) =>
    table.columns.filter(({ name, type }) => METHODS[method].types.includes(type) && (method !== "mean" || isNameable(name)));

/** What a state asks for, with what it leaves open filled in. */
export function groupingOf(state, table) {
    const fitting = Object.hasOwn(METHODS, state.method) ? fittingColumns(table, state.method) : [];
    const of = fitting.find(({ name }) => name === state.of) ?? fitting[0] ?? null;
    const method = of ? state.method : "count";
    const by = state.by.map((name) => table.column(name));
    const isDays = by[0].type === "date";
    const step = isDays && by.length === 1 && method !== "countdistinct" ? (STEPS[state.step] ?? 0) : 0;
    return { by, method, of, step, isDays, isMean: method === "mean", rows: aliasOf("Rows", table), value: aliasOf("Value", table) };
}

/** The request for groups: days in their order, others greatest first. */
function addressOfGroups(state, table, { by, method, of, isDays, isMean, rows, value }, options) {
    const filter = filterOf(state, table);
    const filled = isMean ? and(closedFilter(filter), `${of.name} ne null`) : filter;
    const items = [`$count as ${rows}`, ...(of ? [`${of.name} with ${isMean ? "sum" : method} as ${value}`] : [])];
    const order = isDays && isNameable(by[0].name) ? by[0].name : `${of && !isMean ? value : rows} desc`;
    return groupAddress(table, filled, by.map(({ name }) => name), items, { $orderby: order, ...options });
}

/** The address of all groups, for a script. */
export const groupsAddress = (state, table, format) => addressOfGroups(state, table, groupingOf(state, table), { $top: "", $format: format });

/** What the groups at that address are, in words. */
export function groupsWords(state, table) {
    const { by, of, method, isMean, rows, value } = groupingOf(state, table);
    const names = by.map(({ title }) => title).join(" and ");
    const what = of ? `${METHODS[isMean ? "sum" : method].words} of ${of.title} (${value}) and number of rows` : "number of rows";
    const mean = isMean ? `; the mean is ${value} divided by ${rows}` : "";
    return `${what[0].toUpperCase()}${what.slice(1)} (${rows}) by ${names}${mean}`;
}

/** Returns the column of the first rows that has the fewest values but one: what one would group by. */
function likelyColumn(table, rows) {
    const candidates = table.columns.filter(({ type, isKey }) => ["string", "boolean"].includes(type) && !isKey)
        .map(({ name }) => ({ name, distinct: new Set(rows.map((row) => row[name])).size })).filter(({ distinct }) => distinct > 1);
    candidates.sort((one, other) => one.distinct - other.distinct);
    return (candidates[0] ?? table.columns[0]).name;
}

/** Returns the state with columns to group by. */
export async function withColumns(client, state, table, signal) {
    if (state.by.length > 0) {
        return state;
    }
    const rows = await client.rows(pageAddress({ ...state, skip: 0, order: null, select: [] }, table), signal);
    return { ...state, by: [likelyColumn(table, rows)] };
}

/** Returns the groups, each with its values, its rows, what is shown of it, and that as a number; `isCut` if there are more than were asked for. */
export async function groupsOf(client, state, table, signal) {
    const grouping = groupingOf(state, table);
    const { by, of, method, step, isDays, isMean, rows, value } = grouping;
    const most = isMean || isDays ? MOST_JOINED : SHOWN + 1;
    const found = await client.rows(addressOfGroups(state, table, grouping, { $top: String(most) }), signal);
    const parts = found.map((row) => ({ values: by.map(({ name }) => row[name]), rows: Number(row[rows]), value: of ? row[value] : row[rows] }));
    const whole = (step ? joined(parts, step, method, !of || isNumber(of.type)) : parts).map((part) => {
        const shown = isMean ? Number(part.value) / part.rows : part.value;
        return { ...part, shown, length: Number(shown ?? 0) };
    });
    const isCut = found.length >= most;
    if (isCut && step) {
        // the last one may be a part of its month or year
        whole.pop();
    }
    if (isMean && !isDays) {
        whole.sort((one, other) => other.length - one.length);
    }
    return { grouping, groups: whole, isCut };
}
