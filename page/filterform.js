/**
 * The form that filters a column, as its type needs it: a test and a text, or limits of numbers and days.
 */
import { action, element, selectOf } from "./element.js";
import { TESTS } from "./filter.js";
import { LIMITS, withChip, withValue } from "./conditions.js";

const TEXT_TESTS = ["contains", "is", "begins", "ends", "lacks", "not"];
/** Tests of which one chip has several values, each added by itself. */
const LISTS = ["is", "not"];

/** Numbers are texts that the service reads, since a number of the browser has fewer digits. */
const INPUTS = {
    integer: { type: "text", inputmode: "numeric", pattern: "-?[0-9]+", title: "a whole number, as 41" },
    decimal: { type: "text", inputmode: "decimal", pattern: "-?[0-9]+([.][0-9]+)?", title: "a number, as 41 or -2.5" },
    date: { type: "date" },
};

function formOf(kind, fields, submit) {
    const form = element("form", { class: `filter-form ${kind}` }, ...fields, element("button", { class: "primary" }, "Apply"));
    form.addEventListener("submit", (event) => {
        event.preventDefault();
        submit();
    });
    return form;
}

function textForm({ name }, where, set) {
    const present = where.find(({ column, test }) => column === name && TEXT_TESTS.includes(test) && !LISTS.includes(test));
    const test = selectOf(TEXT_TESTS.map((one) => [one, TESTS[one].words]), present?.test ?? "contains", { "aria-label": "Test" });
    const value = element("input", { type: "text", "aria-label": "Text", dir: "auto", autocomplete: "off", spellcheck: "false", required: true });
    value.value = present?.values[0] ?? "";
    const chips = () => (LISTS.includes(test.value)
        ? withValue(where, name, test.value, value.value)
        : withChip(where, { column: name, test: test.value, values: [value.value] }));
    return formOf("is-text", [test, value], () => set(chips()));
}

function limitsForm({ name, type }, where, set) {
    const present = where.find(({ column, test }) => column === name && LIMITS.includes(test));
    const least = element("input", { ...INPUTS[type], "aria-label": "From", placeholder: "from" });
    const most = element("input", { ...INPUTS[type], "aria-label": "Up to", placeholder: "up to" });
    least.value = present && present.test !== "to" ? present.values[0] : "";
    most.value = present?.test === "to" ? present.values[0] : (present?.values[1] ?? "");
    const chips = () => {
        const values = [least.value.trim(), most.value.trim()];
        const given = values.filter((value) => value !== "");
        const isOne = given.length === 2 && values[0] === values[1];
        const test = values[0] === "" ? "to" : values[1] === "" ? "from" : "range";
        return isOne ? withChip(withChip(where, { column: name, test: "range", values: [] }), { column: name, test: "is", values: [values[0]] })
            : withChip(where, { column: name, test, values: given });
    };
    return formOf(`is-${type}`, [least, element("span", { class: "quiet", "aria-hidden": "true" }, "–"), most], () => set(chips()));
}

/** Returns the form of a column, and two buttons for `null`. `set` gets the new chips. */
export function filterForm(column, where, set) {
    const { name, type, isRequired, isKey } = column;
    const form = { string: textForm, boolean: null }[type] ?? limitsForm;
    const nulls = [
        action("Has a value", () => set(withChip(where, { column: name, test: "not", values: [null] }))),
        action("Has no value", () => set(withChip(where, { column: name, test: "is", values: [null] })))];
    return element("section", { class: "part", "aria-label": "Filter" },
        ...(type === "boolean" ? [] : [form(column, where, set)]), ...(isRequired || isKey ? [] : [element("p", { class: "actions" }, ...nulls)]));
}
