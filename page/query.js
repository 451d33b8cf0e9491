/**
 * Writes the addresses that the service is asked for (OData 4.01 URL Conventions, section 5.1; of $apply OData Data Aggregation 4.0, section 3).
 * Each has a $top, so that a server may refuse requests without one.
 */
import { encoded } from "./encoding.js";
import { and, filterOf, literalOf } from "./filter.js";
import { PAGE_SIZE } from "./state.js";

const orderOf = ({ order }) => (order ? `${order.column}${order.descending ? " desc" : ""}` : "");

/** Returns a table's address with options, in which slashes and commas are kept as they are. An option without a value is left out. */
export function addressOf(table, options, path = "") {
    const given = Object.entries(options).filter(([, value]) => value !== "");
    const written = given.map(([name, value]) => `${name}=${encoded(value).replaceAll("%2F", "/").replaceAll("%2C", ",")}`);
    return `${table.address}${path}${written.length > 0 ? `?${written.join("&")}` : ""}`;
}

const contentOf = (state, table) => ({ $filter: filterOf(state, table), $orderby: orderOf(state), $select: state.select.join(",") });

/** The rows of a page. They are not counted with it: to count, the service reads all rows. */
export const pageAddress = (state, table) =>
    addressOf(table, { ...contentOf(state, table), $skip: state.skip === 0 ? "" : String(state.skip), $top: String(PAGE_SIZE) });

export const countAddress = (filter, table) => addressOf(table, { $filter: filter }, "/$count");

/** Asks for no row, to learn whether the service reads a condition. */
export const triedAddress = (filter, table) => addressOf(table, { $filter: filter, $top: "0" });

/** All rows that meet the condition, in a format: for downloads. */
export const wholeAddress = (state, table, format) => addressOf(table, { ...contentOf(state, table), $format: format });

/** Returns a name that no column of the table has: `$apply` refuses one that is taken. */
export const aliasOf = (name, table) => (table.columns.some((column) => column.name === name) ? aliasOf(`${name}_`, table) : name);

/** Groups of the rows that meet a condition: by columns, with items; without columns all rows are one group. */
export function groupAddress(table, filter, by, items, options = {}) {
    const aggregate = `aggregate(${items.join(",")})`;
    const group = by.length > 0 ? `groupby((${by.join(",")}),${aggregate})` : aggregate;
    return addressOf(table, { $apply: `${filter && `filter(${filter})/`}${group}`, $top: "1", ...options });
}

const keysOf = (table) => table.columns.filter(({ isKey }) => isKey);

const hasKey = (table, row) => keysOf(table).length > 0 && keysOf(table).every(({ name }) => row[name] != null);

/** Returns a row's own address; `null` if the table has no key, or the row's values of it are not here. */
export function rowAddress(table, row) {
    const keys = keysOf(table).map(({ name, type }) => `${name}=${literalOf(row[name], type)}`);
    return hasKey(table, row) ? `${table.address}(${encoded(keys.join(","))})` : null;
}

/** The same row, asked for as a list of one row. */
export function sameRowAddress(table, row) {
    const keys = keysOf(table).map(({ name, type }) => `${name} eq ${literalOf(row[name], type)}`);
    return hasKey(table, row) ? addressOf(table, { $filter: and(...keys), $top: "1" }) : null;
}
