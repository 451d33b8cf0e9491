/**
 * Shows groups as a table whose numbers have bars; days with a line above. Each group leads to its rows.
 */
import { contentOf, countOf, countText, fillOf, fractionOf, isNumber, kindOf, meansText, wordOf } from "./cell.js";
import { lineChart } from "./chart.js";
import { onlyValue, withChip } from "./conditions.js";
import { drawing, element, selectOf } from "./element.js";
import { isNameable } from "./filter.js";
import { fittingColumns, groupsOf, METHODS, MOST_JOINED, SHOWN, withColumns } from "./groups.js";
import { fragmentOf } from "./state.js";
import { limitsOfStep } from "./steps.js";

const LEAST_POINTS = 3;
const CHART_MARGIN = 32;

/** What a state is without groups. */
const NO_GROUPS = { view: "rows", by: [], method: "count", of: "", step: "", order: null, skip: 0 };

/** The chips that leave the rows of a group; `null` if no filter can name its columns. */
function whereOf(where, { by, step }, { values }) {
    if (!by.every(({ name }) => isNameable(name))) {
        return null;
    }
    if (step && values[0] !== null) {
        return withChip(where, { column: by[0].name, test: "span", values: limitsOfStep(values[0]) });
    }
    return by.reduce((chips, { name }, at) => onlyValue(chips, name, values[at]), where);
}

/** What the column of numbers shows: its title, its type, and how a value is written. */
function shownColumn({ of, method, isMean, value }, groups) {
    const title = of ? `${METHODS[method].words} of ${of.title}` : "rows";
    const type = isMean ? "decimal" : of && method !== "countdistinct" ? of.type : "integer";
    const column = { name: value, title, type };
    const means = isMean ? meansText(Math.max(0, ...groups.map(({ length }) => Math.abs(length)))) : null;
    const longest = isMean ? 0 : groups.reduce((most, { shown }) => Math.max(most, fractionOf(shown)), 0);
    return {
        ...column,
        hasBars: isNumber(type),
        write: (shown) => (means ? [means(shown)] : contentOf(shown, column)),
        fill: (shown) => (type === "decimal" && !isMean ? fillOf(shown, longest) : null),
    };
}

function headOf({ by, of }, shown) {
    const counted = of ? [["rows", true, " beside"]] : [];
    const titles = [...by.map(({ title, type }) => [title, isNumber(type), ""]), ...counted, [shown.title, shown.hasBars, ""]];
    const cells = titles.map(([words, isRight, kind]) => element("th", { scope: "col", class: `${isRight ? "number" : ""}${kind}`, dir: "auto" }, words));
    return element("thead", {}, element("tr", {}, ...cells, ...(shown.hasBars ? [element("td", { class: "bar-cell" })] : [])));
}

const barOf = (length, most) => drawing("svg", { class: "group-bar", width: "100%", height: "100%", "aria-hidden": "true" },
    drawing("rect", { width: `${(100 * Math.abs(length)) / most}%`, height: "100%", rx: 2, class: length < 0 ? "below" : null }));

function rowOf(group, state, grouping, shown, most) {
    const { by, of, step } = grouping;
    const where = whereOf(state.where, grouping, group);
    const values = by.map((column, at) => {
        const value = group.values[at];
        const words = value === null || value === "" ? [element("span", { class: "quiet" }, wordOf(value))] : step ? [value] : contentOf(value, column);
        const linked = where && at === 0 ? [element("a", { href: fragmentOf({ ...state, ...NO_GROUPS, where }) }, ...words)] : words;
        return element("th", { scope: "row", dir: "auto", class: isNumber(column.type) ? "number" : null }, ...linked);
    });
    const counted = of ? [element("td", { class: "number quiet beside" }, countText(group.rows))] : [];
    const kind = `shown${shown.hasBars ? " number" : ""}${kindOf(group.shown)}`;
    const cell = element("td", { class: kind, "data-fill": shown.fill(group.shown) }, ...shown.write(group.shown));
    return element("tr", {}, ...values, ...counted, cell, ...(shown.hasBars ? [element("td", { class: "bar-cell" }, barOf(group.length, most))] : []));
}

function footWords(groups, isCut, { by, isDays, isMean }) {
    const first = groups.length > SHOWN ? `The first ${countText(SHOWN)}${isCut ? "" : ` of ${countOf(groups.length, "group")}`}` : countOf(groups.length, "group");
    return isCut && (isMean || isDays) ? `${first}, of the first ${countText(MOST_JOINED)} values of ${by[0].title}` : `${first}${isCut ? " groups" : ""}`;
}

export class GroupsView {
    #place;
    #client;
    #change;

    constructor(place, client, change) {
        this.#place = place;
        this.#client = client;
        this.#change = change;
    }

    async show(given, table, signal) {
        const state = await withColumns(this.#client, given, table, signal);
        const { grouping, groups, isCut } = await groupsOf(this.#client, state, table, signal);
        signal.throwIfAborted();
        const shown = shownColumn(grouping, groups);
        const most = groups.reduce((found, { length }) => Math.max(found, Math.abs(length)), 0) || 1;
        const hasLine = grouping.isDays && grouping.by.length === 1 && shown.hasBars && groups.length >= LEAST_POINTS;
        this.#place.replaceChildren(this.#form(state, table, grouping),
            ...(hasLine ? [lineChart(groups, shown.title, this.#place.clientWidth - CHART_MARGIN)] : []),
            element("div", { class: "frame" }, element("table", { class: "groups", "aria-labelledby": "name" }, headOf(grouping, shown),
                element("tbody", {}, ...groups.slice(0, SHOWN).map((group) => rowOf(group, state, grouping, shown, most))))),
            element("div", { class: "foot" }, element("p", { role: "status" }, footWords(groups, isCut, grouping))));
    }

    /** Shows no groups, and the choices if the columns are known. */
    showNothing() {
        this.#place.replaceChildren();
    }

    #form(state, table, { method, of, isDays }) {
        const options = (columns) => columns.map(({ name, title }) => [name, title]);
        const select = (words, id, list, chosen, changes) => {
            const found = selectOf(list, chosen, { id });
            found.addEventListener("change", () => {
                this.#change({ by: state.by, skip: 0, ...changes(found.value) });
            });
            return element("label", {}, element("span", {}, words), found);
        };
        const [first, second = ""] = state.by;
        const others = table.columns.filter(({ name }) => name !== first);
        const methods = Object.keys(METHODS).filter((name) => name === "count" || fittingColumns(table, name).length > 0);
        return element("form", { class: "group-form", "aria-label": "Groups" },
            select("Group by", "group-by", options(table.columns), first, (name) => ({ by: [...new Set([name, second])].filter(Boolean) })),
            ...(isDays && second === "" ? [select("per", "group-step", [["", "day"], ["month", "month"], ["year", "year"]], state.step, (step) => ({ step }))] : []),
            select("and by", "group-and", [["", "nothing else"], ...options(others)], second, (name) => ({ by: [first, name].filter(Boolean) })),
            select("show the", "group-method", methods.map((name) => [name, METHODS[name].words]), method, (name) => ({ method: name, of: "" })),
            ...(of ? [select("of", "group-of", options(fittingColumns(table, method)), of.name, (name) => ({ of: name }))] : []));
    }
}
