/**
 * Shows what is being asked for, if it takes over half a second: with the seconds so far and a button that stops it.
 */

const PATIENCE = 500;
const SECOND = 1000;

/** Why a request ended that a person stopped. */
export class Stop extends Error {
    constructor() {
        super("the request was stopped");
    }
}

export class Progress {
    #line;
    #words;
    #seconds;
    #timer = 0;
    #running = null;

    constructor(line) {
        this.#line = line;
        this.#words = line.querySelector("[role=status]");
        this.#seconds = line.querySelector(".seconds");
        line.querySelector("button").addEventListener("click", () => this.#running?.controller.abort(new Stop()));
    }

    /** Runs `ask`, whose requests end when the controller aborts. A newer call takes the line from an older one. */
    async run(words, controller, ask) {
        const running = { words, controller, since: performance.now() };
        this.#running = running;
        this.#show();
        try {
            return await ask();
        } finally {
            if (this.#running === running) {
                this.#running = null;
                this.#show();
            }
        }
    }

    /** Writes the line, and again each second while the request runs. */
    #show() {
        clearTimeout(this.#timer);
        const elapsed = this.#running ? performance.now() - this.#running.since : 0;
        const isSlow = elapsed >= PATIENCE;
        const words = isSlow ? `Asking for ${this.#running.words}` : "";
        this.#line.hidden = !isSlow;
        if (this.#words.textContent !== words) {
            this.#words.replaceChildren(words);
        }
        this.#seconds.replaceChildren(elapsed >= SECOND ? `${Math.floor(elapsed / SECOND)} s` : "");
        if (this.#running) {
            this.#timer = setTimeout(() => this.#show(), isSlow ? SECOND : PATIENCE - elapsed + 1);
        }
    }
}
