/**
 * Shows what the address says: asks the service for it, and hands it to the parts of the page.
 * Each change goes through the address, so that every way to a view shows the same.
 */
import { filterOf } from "./filter.js";
import { showFacts, showFolder, showTitle } from "./heading.js";
import { hintsOf } from "./hints.js";
import { countByRows } from "./pager.js";
import { partsOf } from "./parts.js";
import { countAddress, pageAddress } from "./query.js";
import { fragmentOf, START, stateOf } from "./state.js";
import { showUse } from "./use.js";

const found = (id) => document.getElementById(id);
const VIEWS = ["rows", "groups", "use"];

export class Page {
    #client;
    #folder;
    #parts;
    #state = START;
    #table;
    /** The controller of the newest requests; replies to older ones are not shown. */
    #newest = new AbortController();

    constructor(client, folder) {
        this.#client = client;
        this.#folder = folder;
        this.#parts = partsOf(client, folder, (changes) => this.#change(changes), () => ({ state: this.#state, table: this.#table }));
        showFolder(folder);
        found("again").addEventListener("click", () => this.show());
        addEventListener("hashchange", () => this.show());
    }

    #change(changes) {
        const fragment = fragmentOf({ ...this.#state, ...changes });
        if (fragment === fragmentOf(stateOf(location.hash))) {
            this.show();
        } else {
            // the parts that go on at once see the new state; the browser shows it a moment later
            this.#state = { ...this.#state, ...changes };
            location.hash = fragment;
        }
    }

    /** Shows what the address says. A folder of one table begins with it. */
    show() {
        const { tables, facts } = this.#folder;
        const state = stateOf(location.hash);
        const name = state.table === "" && tables.length === 1 ? tables[0].name : state.table;
        const table = tables.find((one) => one.name === name);
        const isOther = table !== this.#table;
        this.#state = { ...state, table: name };
        this.#table = table;
        this.#newest.abort();
        this.#newest = new AbortController();
        document.body.classList.toggle("has-table", table !== undefined);
        found("start").hidden = table !== undefined;
        found("table").hidden = found("heading").hidden = table === undefined;
        found("unknown").hidden = table !== undefined || name === "";
        document.title = [table?.title, facts.title ?? "Tables"].filter(Boolean).join(" – ");
        if (isOther) {
            this.#parts.popup.close();
        }
        if (table) {
            this.#showTable(this.#state, table);
        }
        if (isOther || name !== state.table) {
            // a screen reader says what is shown now, and the keyboard goes on from its heading
            found(table ? "name" : "start-heading").focus({ preventScroll: true });
        }
    }

    #showTable(state, table) {
        showTitle(table);
        showFacts(table, this.#parts.counter.known(table.name));
        for (const link of found("views").children) {
            link.href = fragmentOf({ ...state, view: link.dataset.view, skip: 0 });
            link.setAttribute("aria-current", String(link.dataset.view === state.view));
        }
        for (const view of VIEWS) {
            found(`${view}-view`).hidden = view !== state.view;
        }
        this.#parts.bar.show(state, table);
        this.#ask(state, table, this.#newest);
    }

    async #ask(state, table, controller) {
        const view = found(`${state.view}-view`);
        const isNewest = () => controller === this.#newest;
        this.#showError("");
        found("table").ariaBusy = view.ariaBusy = "true";
        try {
            await this.#parts.progress.run(`the ${state.view} of ${table.title}`, controller, () => this.#askView(state, table, controller.signal, view));
        } catch (error) {
            if (isNewest()) {
                this.#showError(error.code ? `The service can’t give this: ${error.message}` : error.message, hintsOf(filterOf(state, table), error.code, table));
            }
        }
        if (isNewest()) {
            found("table").ariaBusy = view.ariaBusy = "false";
        }
        this.#parts.counter.ask(table, (count) => this.#table === table && showFacts(table, count));
    }

    async #askView(state, table, signal, view) {
        if (state.view === "rows") {
            await this.#askRows(state, table, signal, view);
        } else if (state.view === "groups") {
            await this.#parts.groups.show(state, table, signal);
        } else {
            showUse(view, this.#client, state, table, filterOf(state, table));
        }
    }

    async #askRows(state, table, signal, view) {
        const { grid, pager } = this.#parts;
        const columns = table.columns.filter(({ name }) => state.select.length === 0 || state.select.includes(name));
        grid.showHeader(table, columns, state);
        const rows = await this.#client.rows(pageAddress(state, table), signal);
        signal.throwIfAborted();
        grid.showRows(rows, state.skip);
        view.ariaBusy = "false";
        const known = countByRows(state.skip, rows.length);
        pager.show(state.skip, rows.length, known);
        if (known === null) {
            const count = await this.#client.number(countAddress(filterOf(state, table), table), signal);
            signal.throwIfAborted();
            pager.show(state.skip, rows.length, count);
        }
    }

    /** Shows why nothing came, and no rows; no words take it away. */
    #showError(words, hints = []) {
        const sentence = words && `${words[0].toUpperCase()}${words.slice(1)}.`;
        found("error").replaceChildren([sentence, ...hints].filter(Boolean).join(" "));
        found("failure-line").hidden = words === "";
        if (words !== "") {
            this.#parts.pager.clear();
            this.#parts.grid.showNothing();
            this.#parts.groups.showNothing();
        }
    }
}
