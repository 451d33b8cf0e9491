/**
 * The panels of the bar: what is said of the table, its columns to filter by or to show, and the condition as text.
 */
import { TYPE_WORDS } from "./cell.js";
import { action, element, linked } from "./element.js";
import { filterOf, isNameable } from "./filter.js";
import { hintsOf } from "./hints.js";
import { triedAddress } from "./query.js";

const FACTS = [["Licence", "license"], ["Source", "source"], ["Publisher", "publisher"], ["As of", "modified"]];

const line = (word, ...words) => element("div", {}, element("dt", { dir: "auto" }, word), element("dd", {}, ...words));

export class Panels {
    #popup;
    #client;
    #change;
    #now;
    #openColumn;

    /** `now` returns the state and the table that are shown. */
    constructor(popup, client, { change, now, openColumn }) {
        this.#popup = popup;
        this.#client = client;
        this.#change = change;
        this.#now = now;
        this.#openColumn = openColumn;
    }

    /** What the publisher says of the table and of its columns. */
    openAbout(anchor) {
        const { table } = this.#now();
        const { facts } = table;
        const lines = FACTS.filter(([, name]) => facts[name]).map(([word, name]) => line(word, linked(facts[name])));
        const columns = table.columns.map(({ name, title, type, description, isKey }) => {
            const words = [title === name ? "" : name, TYPE_WORDS[type] ?? type, isKey && "key"].filter(Boolean).join(" · ");
            return line(title, words, ...(description ? [element("p", { dir: "auto" }, description)] : []));
        });
        const sources = [element("a", { href: "csv-metadata.json" }, "csv-metadata.json"), " · ", element("a", { href: "?$format=json" }, "service document")];
        this.#popup.open(anchor, table.title, "",
            element("p", { dir: "auto" }, facts.description ?? ""),
            element("dl", { class: "about-list part" }, line("Name", table.name), ...lines),
            element("dl", { class: "about-list part" }, ...columns),
            element("p", { class: "part quiet" }, ...sources));
    }

    openFilters(anchor) {
        const { table } = this.#now();
        const choices = table.columns.filter(({ name }) => isNameable(name)).map(({ name, title, type }) => {
            const words = [element("span", { dir: "auto" }, title), element("small", {}, TYPE_WORDS[type] ?? type)];
            return element("li", {}, action(words, () => this.#openColumn(name, anchor), { "data-filters": name }));
        });
        this.#popup.open(anchor, "Filter by a column", "", element("ul", { class: "choices" }, ...choices),
            element("p", { class: "actions part" }, action("Write it as text", () => this.openText(anchor))));
    }

    openColumns(anchor) {
        const { state, table } = this.#now();
        const lines = table.columns.map(({ name, title }) => {
            const box = element("input", { type: "checkbox", id: `show-${name}`, value: name });
            box.checked = state.select.length === 0 || state.select.includes(name);
            return element("li", {}, box, element("label", { for: box.id, dir: "auto" }, title));
        });
        const list = element("ul", { class: "choices" }, ...lines);
        list.addEventListener("change", ({ target }) => {
            const ticked = [...list.querySelectorAll("input")].filter(({ checked }) => checked).map(({ value }) => value);
            // one column is always shown
            target.checked ||= ticked.length === 0;
            if (ticked.length > 0) {
                this.#change({ select: ticked.length === table.columns.length ? [] : ticked });
            }
        });
        const all = action("Show all", () => {
            this.#popup.close();
            this.#change({ select: [] });
        });
        this.#popup.open(anchor, "Columns", "", list, element("p", { class: "actions part" }, all));
    }

    /** The condition as the service reads it. It is tried first: what is wrong in it is explained here, and the rows stay. */
    openText(anchor) {
        const { state, table } = this.#now();
        const text = element("textarea", { rows: "4", spellcheck: "false", autocapitalize: "none", "aria-label": "Condition", "aria-describedby": "text-error" });
        const error = element("div", { id: "text-error", class: "error", role: "alert" });
        text.value = filterOf(state, table);
        const apply = async () => {
            const written = text.value.trim();
            try {
                await this.#client.text(triedAddress(written, table));
                this.#popup.close();
                this.#change({ search: "", where: [], text: written, skip: 0 });
            } catch (refused) {
                text.setAttribute("aria-invalid", "true");
                error.replaceChildren(element("p", {}, `The service can’t read this: ${refused.message}.`),
                    ...hintsOf(written, refused.code, table).map((hint) => element("p", { class: "hint" }, hint)));
                this.#popup.place();
            }
        };
        this.#popup.open(anchor, "Edit as text", "As $filter of OData says it",
            element("div", { class: "part" }, text, error, element("p", { class: "actions" }, action("Apply", apply, { class: "primary" }))));
    }
}
