/**
 * The bar above the rows: a search, the chips of what is filtered, and the way to more of them.
 */
import { action, element } from "./element.js";
import { wordsOf } from "./conditions.js";

const SHOWN_VALUES = 2;

function valuesText(values) {
    const shown = values.slice(0, SHOWN_VALUES).join(", ");
    return values.length > SHOWN_VALUES ? `${shown} +${values.length - SHOWN_VALUES}` : shown;
}

export class Bar {
    #found;
    #change;
    #openColumn;
    #state;

    /** `found` finds an element by its id; the others open the panels. */
    constructor(found, change, { openColumn, openFilters, openText, openColumns }) {
        this.#found = found;
        this.#change = change;
        this.#openColumn = openColumn;
        const search = found("search");
        found("search-form").addEventListener("submit", (event) => {
            event.preventDefault();
            change({ search: search.value.trim(), skip: 0 });
        });
        // the cross of the field clears it
        search.addEventListener("search", () => search.value === "" && this.#state.search !== "" && change({ search: "", skip: 0 }));
        found("add-filter").addEventListener("click", ({ currentTarget }) => openFilters(currentTarget));
        found("edit-text").addEventListener("click", ({ currentTarget }) => openText(currentTarget));
        found("choose-columns").addEventListener("click", ({ currentTarget }) => openColumns(currentTarget));
        found("clear").addEventListener("click", () => {
            change({ search: "", text: "", where: [], skip: 0 });
            found("add-filter").focus();
        });
    }

    show(state, table) {
        const isFiltered = state.search !== "" || state.text !== "" || state.where.length > 0;
        const count = table.columns.length;
        this.#state = state;
        this.#found("search").value = state.search;
        const written = state.text === "" ? [] : [this.#textChip(state.text)];
        this.#found("chips").replaceChildren(...written, ...state.where.map((chip, at) => this.#chip(chip, at, table)));
        this.#found("clear").hidden = this.#found("edit-text").hidden = !isFiltered;
        this.#found("choose-columns").replaceChildren(state.select.length === 0 ? `Columns: ${count}` : `Columns: ${state.select.length} of ${count}`);
        this.#found("choose-columns").hidden = state.view !== "rows";
    }

    #chip(chip, at, table) {
        const { title, words, values } = wordsOf(chip, table);
        const text = valuesText(values);
        const open = element("button", { type: "button", class: "chip-words", "aria-haspopup": "dialog", title: `${title} ${words} ${values.join(", ")}` },
            element("span", { class: "chip-column", dir: "auto" }, title), ` ${words}${words && " "}`, element("b", { dir: "auto" }, text));
        open.addEventListener("click", () => this.#openColumn(chip.column, open));
        return element("li", {}, open, this.#remove(`${title} ${words} ${text}`, () => ({ where: this.#state.where.toSpliced(at, 1) })));
    }

    #textChip(text) {
        const open = element("button", { type: "button", class: "chip-words", "aria-haspopup": "dialog", title: text }, element("code", {}, text));
        open.addEventListener("click", () => this.#found("edit-text").click());
        return element("li", {}, open, this.#remove(text, () => ({ text: "" })));
    }

    #remove(words, changes) {
        const remove = () => {
            this.#change({ ...changes(), skip: 0 });
            this.#found("add-filter").focus();
        };
        return action("×", remove, { class: "chip-remove", "aria-label": `Remove the filter: ${words}` });
    }
}
