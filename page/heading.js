/**
 * Writes what is above the data: the titles of the folder and the table, and one line of facts.
 */
import { countOf } from "./cell.js";
import { element, linked } from "./element.js";

const found = (id) => document.getElementById(id);

/** Shows the folder on its own view and above each table. */
export function showFolder({ facts, tables }) {
    const title = facts.title ?? "Tables";
    found("home").replaceChildren(title);
    found("start-heading").replaceChildren(title);
    found("start-description").replaceChildren([facts.description, facts.publisher && `Published by ${facts.publisher}.`].filter(Boolean).join(" "));
    found("switch").disabled = tables.length === 1;
}

export function showTitle({ title, facts }) {
    found("switch").firstElementChild.replaceChildren(title);
    found("description").replaceChildren(facts.description ?? "");
    found("description").title = facts.description ?? "";
}

/** Shows how much there is, under which licence, and from where; `count` is undefined as long as it is not known. */
export function showFacts({ columns, facts }, count) {
    const { license, source, publisher, modified } = facts;
    const rows = count === undefined ? "… rows" : countOf(count, "row");
    const words = [rows, countOf(columns.length, "column"), license, source ?? publisher, modified && `as of ${modified}`].filter(Boolean);
    const withoutScheme = (fact) => fact.replace(/^https?:\/\/(www\.)?|\/$/g, "");
    found("facts").replaceChildren(...words.map((fact) => element("span", {}, linked(fact, withoutScheme(fact)))));
}
