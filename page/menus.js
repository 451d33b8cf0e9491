/**
 * The menus of a column and of a cell. Each action ends in a change of the state.
 */
import { isNumber, kindOf, TYPE_WORDS, wordOf } from "./cell.js";
import { onlyValue, withChip, withValue } from "./conditions.js";
import { action, element } from "./element.js";
import { filterOf, isNameable } from "./filter.js";
import { filterForm } from "./filterform.js";
import { profileView } from "./profileview.js";

const ORDER_WORDS = { string: ["A to Z", "Z to A"], boolean: ["False first", "True first"], date: ["Oldest first", "Newest first"] };
const NUMBER_ORDER = ["Least first", "Greatest first"];

export class Menus {
    #popup;
    #client;
    #change;
    #now;

    /** `now` returns the state and the table that are shown. */
    constructor(popup, client, change, now) {
        this.#popup = popup;
        this.#client = client;
        this.#change = change;
        this.#now = now;
    }

    #closesAnd(changes) {
        this.#popup.close();
        this.#change({ skip: 0, ...changes });
    }

    /** A column: its order, filter and profile. The profile is about the rows that the filters of other columns leave. */
    openColumn(name, anchor) {
        const { state, table } = this.#now();
        const column = table.column(name);
        const note = [column.title === name ? "" : name, TYPE_WORDS[column.type] ?? column.type, column.isKey && "key"].filter(Boolean).join(" · ");
        if (!isNameable(name)) {
            this.#popup.open(anchor, column.title, note, element("p", { class: "part" }, "No filter and no order can name this column."));
            return;
        }
        const about = column.description ? [element("p", { dir: "auto" }, column.description)] : [];
        const profile = new AbortController();
        this.#popup.open(anchor, column.title, note, ...about,
            this.#orders(state, column),
            filterForm(column, state.where, (where) => this.#closesAnd({ where })),
            this.#profileOf(state, table, column, anchor, profile.signal),
            this.#uses(state, table, name));
        this.#popup.whenClosed(() => profile.abort());
    }

    #orders({ order }, { name, type }) {
        const [rising, falling] = ORDER_WORDS[type] ?? NUMBER_ORDER;
        const button = (words, descending) => {
            const isSet = order?.column === name && order.descending === descending;
            return action(words, () => this.#closesAnd({ order: isSet ? null : { column: name, descending } }), { "aria-pressed": String(isSet) });
        };
        return element("p", { class: "actions" }, button(`↑ ${rising}`, false), button(`↓ ${falling}`, true));
    }

    #profileOf(state, table, column, anchor, signal) {
        const others = { ...state, where: state.where.filter((chip) => chip.column !== column.name) };
        const ticks = (where) => {
            this.#change({ where, skip: 0 });
            // the boxes are about the new state from here on; a chip that opened the menu is a new one
            const other = document.querySelector(`[data-menu="${column.name}"]`) ?? document.getElementById("add-filter");
            this.openColumn(column.name, anchor.isConnected ? anchor : other);
        };
        return profileView({
            client: this.#client, table, column, filter: filterOf(others, table), where: state.where, signal,
            set: (where) => this.#closesAnd({ where }), ticks, grown: () => this.#popup.place(),
        });
    }

    #uses(state, table, name) {
        const shown = state.select.length === 0 ? table.columns.map((one) => one.name) : state.select;
        const hides = () => this.#closesAnd({ select: shown.filter((one) => one !== name), skip: state.skip });
        const groups = () => this.#closesAnd({ view: "groups", by: [name], order: null });
        return element("p", { class: "actions part" }, action("Group by this", groups), ...(shown.length > 1 && state.view === "rows" ? [action("Hide", hides)] : []));
    }

    /** A cell: its whole value, and filters by it. */
    openCell(column, value, anchor, openRow) {
        const { name, type } = column;
        const whole = element("p", { class: `whole-value${kindOf(value)}`, dir: "auto" }, wordOf(value));
        const opens = () => {
            this.#popup.close();
            openRow();
        };
        const copies = () => navigator.clipboard.writeText(value ?? "").then(() => this.#popup.close());
        this.#popup.open(anchor, column.title, "", whole,
            element("p", { class: "actions" }, ...(isNameable(name) ? this.#cellFilters(name, type, value) : [])),
            element("p", { class: "actions part" }, action("Copy", copies), action("Open row", opens)));
    }

    #cellFilters(name, type, value) {
        const { where } = this.#now().state;
        const isScale = value !== null && (isNumber(type) || type === "date");
        const limit = (words, test) => action(words, () => this.#closesAnd({ where: withChip(where, { column: name, test, values: [value] }) }));
        return [
            action(value === null ? "Rows without a value" : "Only this", () => this.#closesAnd({ where: onlyValue(where, name, value) }), { autofocus: true }),
            action(value === null ? "Rows with a value" : "Not this", () => this.#closesAnd({ where: withValue(where, name, "not", value) })),
            ...(isScale ? [limit("From this up", "from"), limit("Up to this", "to")] : []),
        ];
    }
}
