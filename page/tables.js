/**
 * Lists the tables, as a view and as a panel. Both are searched by names, titles, descriptions and columns.
 */
import { countOf, countText } from "./cell.js";
import { element } from "./element.js";
import { fragmentOf, START } from "./state.js";

const wordsOf = (text) => text.toLocaleLowerCase().split(/\s+/).filter(Boolean);

/** Returns a test: whether a table has all of the words. */
function finder(search) {
    const words = wordsOf(search);
    return ({ name, title, facts, columns }) => {
        const text = [name, title, facts.description ?? "", ...columns.flatMap((column) => [column.name, column.title])].join(" ").toLocaleLowerCase();
        return words.every((word) => text.includes(word));
    };
}

const linkOf = ({ name }) => fragmentOf({ ...START, table: name });

function lineOf(table) {
    const { title, name, facts, columns } = table;
    const own = title === name ? [] : [" ", element("code", { class: "quiet" }, name)];
    return element("li", { "data-table": name },
        element("a", { href: linkOf(table) }, element("span", { class: "table-title", dir: "auto" }, title), ...own),
        element("span", { class: "table-about", dir: "auto" }, facts.description ?? columns.map((column) => column.title).join(", ")),
        element("span", { class: "table-columns" }, countOf(columns.length, "column")),
        element("span", { class: "table-rows" }, "\u00a0"));
}

export class TableList {
    #list;
    #status;
    #lines;

    /** Each line asks the counter for its number of rows when it comes into view. */
    constructor(list, field, status, tables, counter) {
        this.#list = list;
        this.#status = status;
        this.#lines = tables.map((table) => ({ table, line: lineOf(table) }));
        const tableOf = new Map(this.#lines.map(({ table, line }) => [line, table]));
        const seen = new IntersectionObserver((entries) => {
            for (const { target } of entries.filter(({ isIntersecting }) => isIntersecting)) {
                seen.unobserve(target);
                counter.ask(tableOf.get(target), (count) => target.querySelector(".table-rows").replaceChildren(countOf(count, "row")));
            }
        });
        this.#lines.forEach(({ line }) => seen.observe(line));
        field.addEventListener("input", () => this.show(field.value));
        this.show("");
    }

    show(search) {
        const isFound = finder(search);
        const found = this.#lines.filter(({ table }) => isFound(table));
        const all = this.#lines.length;
        this.#list.replaceChildren(...found.map(({ line }) => line));
        this.#status.replaceChildren(found.length === all ? countOf(all, "table") : `${countText(found.length)} of ${countOf(all, "table")}`);
    }
}

/** Returns the same list as names for a panel, to go from one table to another. Nothing is counted for it. */
export function tableChoices(tables, chosen, counter) {
    const words = "Search tables";
    const field = element("input", { type: "search", placeholder: words, "aria-label": words, autocomplete: "off", spellcheck: "false", autofocus: true });
    const list = element("ul", { class: "choices" });
    const rowsOf = (name) => (counter.known(name) === undefined ? [] : [element("small", {}, countText(counter.known(name)))]);
    const show = () => list.replaceChildren(...tables.filter(finder(field.value)).map((table) => element("li", {},
        element("a", { href: linkOf(table), "aria-current": table.name === chosen ? "page" : null, dir: "auto" }, table.title), ...rowsOf(table.name))));
    field.addEventListener("input", show);
    show();
    const all = element("a", { href: "#" }, `All ${countOf(tables.length, "table")}`);
    return [element("p", { class: "find" }, field), element("p", { class: "all-tables" }, all), list];
}
