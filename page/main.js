/**
 * Starts the page: asks for the folder, and shows what the address says.
 */
import { Client } from "./client.js";
import { folderOf } from "./metadata.js";
import { Page } from "./page.js";

const found = (id) => document.getElementById(id);

async function start() {
    const client = new Client(new URL(".", location.href));
    try {
        new Page(client, folderOf(await client.folder(), navigator.languages)).show();
    } catch (error) {
        found("failure").replaceChildren(`The list of tables did not come: ${error.message}. Load the page again to try once more.`);
    }
}

found("skip").addEventListener("click", (event) => {
    // the fragment of the address is the page's own
    event.preventDefault();
    found("main").focus();
});
start();
