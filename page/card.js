/**
 * Shows a row as a card with all of its columns, and leads to the rows before and after it.
 */
import { contentOf, countText, isNumber, kindOf } from "./cell.js";
import { action, element } from "./element.js";
import { rowAddress, sameRowAddress } from "./query.js";

export class Card {
    #dialog;
    #client;
    #opened;

    constructor(dialog, client) {
        this.#dialog = dialog;
        this.#client = client;
        dialog.addEventListener("click", ({ target }) => target === dialog && dialog.close());
    }

    /** Opens the row at an index of `rows`. Columns that are hidden are missing in it: if it has a key, the whole row is asked for. */
    async open(table, rows, at, skip) {
        const opened = rows[at];
        this.#opened = opened;
        this.#show(table, rows, at, skip, opened);
        if (!this.#dialog.open) {
            this.#dialog.showModal();
        }
        const address = sameRowAddress(table, opened);
        if (address && table.columns.some(({ name }) => !(name in opened))) {
            const [whole] = await this.#client.rows(address).catch(() => []);
            if (whole && this.#opened === opened) {
                this.#show(table, rows, at, skip, whole);
            }
        }
    }

    #show(table, rows, at, skip, row) {
        const step = (words, label, to) => action(words, () => {
            this.open(table, rows, to, skip).then(() => this.#dialog.querySelector(`[aria-label="${label}"]`)?.focus());
        }, { "aria-label": label, disabled: to < 0 || to >= rows.length });
        const address = rowAddress(table, row);
        const values = table.columns.filter(({ name }) => name in row).map((column) => element("div", {},
            element("dt", { dir: "auto" }, column.title),
            element("dd", { dir: "auto", class: `${isNumber(column.type) ? "number" : ""}${kindOf(row[column.name])}` }, ...contentOf(row[column.name], column))));
        this.#dialog.replaceChildren(
            element("div", { class: "popup-head" }, element("h2", { id: "card-heading" }, `Row ${countText(skip + at + 1)}`),
                element("span", { class: "steps" }, step("↑", "The row before", at - 1), step("↓", "The row after", at + 1)),
                action("×", () => this.#dialog.close(), { class: "close", "aria-label": "Close" })),
            element("dl", {}, ...values),
            element("p", { class: "quiet" }, ...(address ? [element("a", { href: this.#client.whole(address) }, "This row as JSON")] : [])));
    }
}
