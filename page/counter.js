/**
 * Counts the rows of tables that come into view: few at a time, and each table once.
 */
import { countAddress } from "./query.js";

const LANES = 2;

export class Counter {
    #client;
    #counts = new Map();
    #waiting = [];
    #running = 0;

    constructor(client) {
        this.#client = client;
    }

    /** Returns the number of rows of a table, if it was counted before. */
    known(name) {
        return this.#counts.get(name);
    }

    /** Calls `tell` with the number of rows of a table. */
    ask(table, tell) {
        const known = this.known(table.name);
        if (known !== undefined) {
            tell(known);
            return;
        }
        this.#waiting.push({ table, tell });
        this.#next();
    }

    async #next() {
        if (this.#running >= LANES || this.#waiting.length === 0) {
            return;
        }
        this.#running += 1;
        const { table, tell } = this.#waiting.shift();
        try {
            const count = this.known(table.name) ?? (await this.#client.number(countAddress("", table)));
            this.#counts.set(table.name, count);
            tell(count);
        } catch {
            // a table without its number can be opened all the same
        }
        this.#running -= 1;
        this.#next();
    }
}
