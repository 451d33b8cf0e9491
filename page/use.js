/**
 * Offers what is shown as files, as an address, and as the lines of a script that gets the same.
 */
import { action, element } from "./element.js";
import { groupsAddress, groupsWords } from "./groups.js";
import { wholeAddress } from "./query.js";

const PROGRAMS = [
    ["curl", (csv, json, name) => `curl -s '${csv}' -o ${name}.csv`],
    ["Python", (csv) => `import pandas\n\nrows = pandas.read_csv("${csv}")\nprint(rows.head())`],
    ["R", (csv) => `rows <- read.csv("${csv}")\nhead(rows)`],
    ["JavaScript", (csv, json) => [
        `const reply = await fetch("${json}");`,
        "if (!reply.ok) throw new Error((await reply.json()).error.message);",
        "const { value: rows } = await reply.json();",
        "console.log(rows.length);",
    ].join("\n")],
];
const SAID_FOR = 2000;

function copyButton(text, words) {
    const button = action("Copy", async () => {
        try {
            await navigator.clipboard.writeText(text);
            button.replaceChildren("Copied");
        } catch {
            button.replaceChildren("Ctrl+C");
        }
        setTimeout(() => button.replaceChildren("Copy"), SAID_FOR);
    }, { "aria-label": `Copy: ${words}` });
    return button;
}

const codeBlock = (words, text) => element("div", { class: "code" },
    element("div", { class: "code-head" }, element("h3", {}, words), copyButton(text, words)), element("pre", { tabindex: "0", "aria-label": words }, text));

const fileLink = (label, href, name) => element("a", { class: "file", href, download: name }, element("b", {}, label), element("small", {}, name));

/** Two sections: the files, and the programs. */
function sectionsOf(heading, words, name, [csv, json]) {
    const files = element("p", { class: "files" }, fileLink("CSV", csv, `${name}.csv`), fileLink("JSON", json, `${name}.json`));
    const programs = PROGRAMS.map(([program, write]) => codeBlock(program, write(csv, json, name)));
    return [
        element("section", {}, element("h2", {}, heading), element("p", { class: "quiet" }, words), files),
        element("section", {}, element("h2", {}, "The same from a program"), codeBlock("Address", json), ...programs),
    ];
}

/** Shows downloads and code: of the groups if the state has some, else of the rows that meet `filter`. */
export function showUse(place, client, state, table, filter) {
    const isGroups = state.by.length > 0;
    const addresses = ["text/csv", "json"].map((format) => client.whole(isGroups ? groupsAddress(state, table, format) : wholeAddress(state, table, format)));
    const rows = filter === "" ? "All rows of the table" : `The rows that meet: ${filter}`;
    const sections = isGroups
        ? sectionsOf("Download the groups", `${groupsWords(state, table)}. ${rows}.`, `${table.name}_groups`, addresses)
        : sectionsOf("Download", `${rows}.`, table.name, addresses);
    const link = location.href.replace("view=use", isGroups ? "view=groups" : "view=rows");
    place.replaceChildren(element("div", { class: "use" }, ...sections, element("section", {}, element("h2", {}, "A link to this page"), codeBlock("Link", link))));
}
