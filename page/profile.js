/**
 * Asks what a column contains: its limits and sum, how many different values, the commonest of them, and bins between round limits.
 * A server limits requests: the bins of a column of many values take one request for each but the last, so there are few of them.
 */
import { binsOf, timeOf } from "./bins.js";
import { isNumber } from "./cell.js";
import { and, closedFilter, literalOf } from "./filter.js";
import { aliasOf, countAddress, groupAddress } from "./query.js";

/** Up to MOST_VALUES different values are asked for, with their numbers of rows; of a text with more the MOST_TOP commonest. */
const MOST_VALUES = 3000;
const MOST_TOP = 200;
const FEW = 8;
const BINS_OF_VALUES = 14;
const BINS_ASKED = 9;

/** The number of rows, the limits and the sum of a column, and how many rows have no value. */
async function limitsOf({ client, table, column, filter, signal }) {
    const { name, type } = column;
    const [rows, least, most, sum] = ["Rows", "Least", "Most", "Sum"].map((word) => aliasOf(word, table));
    const limits = type === "date" || isNumber(type) ? [`${name} with min as ${least}`, `${name} with max as ${most}`] : [];
    const items = [`$count as ${rows}`, ...limits, ...(isNumber(type) ? [`${name} with sum as ${sum}`] : [])];
    const [[row], nulls] = await Promise.all([
        client.rows(groupAddress(table, filter, [], items), signal),
        column.isRequired || column.isKey ? 0 : client.number(countAddress(and(closedFilter(filter), `${name} eq null`), table), signal),
    ]);
    const count = Number(row[rows]);
    const mean = isNumber(type) && row[sum] !== null ? Number(row[sum]) / (count - nulls) : null;
    return { rows: count, nulls, least: row[least] ?? null, most: row[most] ?? null, mean };
}

/** How many different values there are. A key has as many as rows. */
async function distinctOf({ client, table, column, filter, signal }, { rows }) {
    if (column.isKey && table.columns.filter(({ isKey }) => isKey).length === 1) {
        return rows;
    }
    const alias = aliasOf("Different", table);
    const [row] = await client.rows(groupAddress(table, filter, [], [`${column.name} with countdistinct as ${alias}`]), signal);
    return Number(row[alias]);
}

async function commonestOf({ client, table, column, filter, signal }, most) {
    const rows = aliasOf("Rows", table);
    const options = { $orderby: `${rows} desc`, $top: String(most) };
    const found = await client.rows(groupAddress(table, filter, [column.name], [`$count as ${rows}`], options), signal);
    return found.map((row) => ({ value: row[column.name], rows: Number(row[rows]) }));
}

/** Puts values that are here into bins. */
function filledBins(bins, values, type) {
    const numbers = values.filter(({ value }) => value !== null).map(({ value, rows }) => ({ number: type === "date" ? timeOf(value) : Number(value), rows }));
    return bins.map(({ low, high }) => ({
        low, high, rows: numbers.filter(({ number }) => number >= low.at && number < high.at).reduce((sum, { rows }) => sum + rows, 0),
    }));
}

/** Asks for the number of rows of each bin but the last, which has the rest. No value is below the first bin. */
async function askedBins({ client, table, column, filter, signal }, bins, { rows, nulls }) {
    const { name, type } = column;
    const conditions = bins.slice(0, -1).map(({ low, high }, at) =>
        and(at === 0 ? "" : `${name} ge ${literalOf(low.literal, type)}`, `${name} lt ${literalOf(high.literal, type)}`));
    const counts = await Promise.all(conditions.map((condition) => client.number(countAddress(and(closedFilter(filter), condition), table), signal)));
    const last = rows - nulls - counts.reduce((sum, count) => sum + count, 0);
    return bins.map((bin, at) => ({ ...bin, rows: counts[at] ?? last }));
}

/**
 * Calls `tell` with what is known, step by step: the limits, how many values there are, then the commonest of them and bins.
 * The question has the client, the table, the column, a filter of its rows and a signal.
 */
export async function profileOf(question, tell) {
    const { column } = question;
    const limits = await limitsOf(question);
    tell({ summary: { ...limits, distinct: null } });
    const distinct = await distinctOf(question, limits);
    const summary = { ...limits, distinct };
    tell({ summary });
    const isUnique = distinct > 1 && distinct === summary.rows - summary.nulls;
    const isScale = column.type === "date" || isNumber(column.type);
    const isWhole = distinct <= MOST_VALUES;
    const hasValues = distinct > 0 && (isScale ? isWhole : !isUnique);
    const values = hasValues ? await commonestOf(question, isWhole ? MOST_VALUES + 1 : MOST_TOP) : null;
    let bins = null;
    if (isScale && distinct > FEW) {
        const empty = binsOf(summary, column.type, values ? BINS_OF_VALUES : BINS_ASKED);
        bins = values ? filledBins(empty, values, column.type) : await askedBins(question, empty, summary);
    }
    tell({ summary, values, bins, isUnique });
}
