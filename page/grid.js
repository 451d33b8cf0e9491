/**
 * Shows rows as a table. A header's words order the rows, and the mark beside them opens the column's menu; a cell opens its own menu.
 * Header cells stay as they are while rows come, so that the focus stays on them and nothing moves.
 */
import { countText } from "./cell.js";
import { element } from "./element.js";
import { bodyCell, headerCell } from "./gridcells.js";
import { listenToKeys } from "./gridkeys.js";
import { longestFraction, makeDraggable, steppedWidth, widthsOf } from "./widths.js";

const ROOM_BESIDE = 70;

/** The order after a press on a header: rising, then falling, then that of the file again. */
function orderAfter(order, column) {
    if (order?.column !== column) {
        return { column, descending: false };
    }
    return order.descending ? null : { column, descending: true };
}

export class Grid {
    #table;
    #frame;
    #handlers;
    #columns = [];
    #cols = [];
    #order = null;
    #rows = [];
    #skip = 0;
    #key = "";
    #isFresh = true;

    /** The handlers: `change` a state, `openMenu` of a column, `openCell`, `openRow`. */
    constructor(table, frame, handlers) {
        this.#table = table;
        this.#frame = frame;
        this.#handlers = handlers;
        table.addEventListener("click", (event) => this.#pressed(event.target));
        listenToKeys(table, {
            opens: (cell) => this.#opens(cell),
            widens: (cell, direction) => this.#setWidth(cell.cellIndex, steppedWidth(parseFloat(this.#cols[cell.cellIndex].style.width), direction)),
        });
    }

    #pressed(target) {
        const { menu } = target.closest("button")?.dataset ?? {};
        const sort = target.closest("thead th")?.querySelector("[data-sorts]");
        const cell = target.closest("tbody td, tbody th");
        if (menu) {
            this.#handlers.openMenu(menu, target.closest("button"));
        } else if (sort) {
            this.#handlers.change({ order: orderAfter(this.#order, sort.dataset.sorts), skip: 0 });
        } else if (cell && getSelection().isCollapsed) {
            this.#opens(cell);
        }
    }

    #opens(cell) {
        const at = cell.parentElement.sectionRowIndex;
        const column = this.#columns[cell.cellIndex - 1];
        const openRow = () => this.#handlers.openRow(this.#rows, at, this.#skip);
        if (column) {
            this.#handlers.openCell(column, this.#rows[at][column.name], cell, openRow);
        } else {
            openRow();
        }
    }

    showHeader(table, columns, state) {
        const key = JSON.stringify([table.name, columns.map(({ name }) => name)]);
        const header = this.#table.tHead.rows[0];
        this.#columns = columns;
        this.#order = state.order;
        if (key !== this.#key) {
            this.#key = key;
            this.#isFresh = true;
            const ordinal = element("th", { scope: "col", class: "ordinal" }, element("span", { class: "unseen" }, "Row"));
            header.replaceChildren(ordinal, ...columns.map(headerCell), element("td", { class: "rest", "aria-hidden": "true" }));
            this.#table.tBodies[0].replaceChildren();
            // headers come with their widths, so that none moves
            this.#table.style.visibility = "hidden";
            header.querySelector("button")?.setAttribute("tabindex", "0");
        }
        const filtered = new Set(state.where.map(({ column }) => column));
        columns.forEach(({ name }, at) => {
            const direction = state.order?.column !== name ? "none" : state.order.descending ? "descending" : "ascending";
            header.cells[at + 1].setAttribute("aria-sort", direction);
            header.cells[at + 1].querySelector(".menu").classList.toggle("is-set", filtered.has(name));
        });
    }

    /** Shows no rows, since none came; headers get their widths. */
    showNothing() {
        this.#rows = [];
        this.#table.tBodies[0].replaceChildren();
        this.#frame.querySelector(".empty")?.remove();
        if (this.#isFresh) {
            this.#setWidths([], 0);
        }
    }

    showRows(rows, skip) {
        this.#rows = rows;
        this.#skip = skip;
        if (this.#isFresh) {
            this.#isFresh = rows.length === 0;
            this.#setWidths(rows, skip);
        }
        const longest = new Map(this.#columns.filter(({ type }) => type === "decimal").map(({ name }) => [name, longestFraction(rows, name)]));
        this.#table.tBodies[0].replaceChildren(...rows.map((row, at) => element("tr", {},
            element("th", { scope: "row", class: "ordinal", tabindex: "-1", title: "Open this row" }, countText(skip + at + 1)),
            ...this.#columns.map((column) => bodyCell(column, row[column.name], longest.get(column.name))),
            element("td", { class: "rest", "aria-hidden": "true" }))));
        this.#frame.scrollTop = 0;
        this.#frame.querySelector(".empty")?.remove();
        if (rows.length === 0) {
            this.#frame.append(element("p", { class: "empty" }, "No rows meet these filters."));
        }
    }

    #setWidth(at, width) {
        this.#cols[at].style.width = `${width}px`;
        this.#table.style.width = `max(100%, ${this.#cols.reduce((sum, col) => sum + parseFloat(col.style.width), 0)}px)`;
    }

    #setWidths(rows, skip) {
        this.#table.style.visibility = "";
        const widths = widthsOf(this.#columns, rows, this.#table, this.#frame.clientWidth - ROOM_BESIDE);
        const ordinal = 22 + 9 * Math.max(2, countText(skip + rows.length).length);
        this.#cols = [ordinal, ...this.#columns.map(({ name }) => widths.get(name))].map(() => element("col"));
        this.#table.querySelector("colgroup").replaceChildren(...this.#cols, element("col"));
        [ordinal, ...widths.values()].forEach((width, at) => (this.#cols[at].style.width = `${width}px`));
        this.#setWidth(0, ordinal);
        this.#table.tHead.querySelectorAll(".handle").forEach((handle, at) => makeDraggable(handle, this.#cols[at + 1], (width) => this.#setWidth(at + 1, width)));
    }
}
