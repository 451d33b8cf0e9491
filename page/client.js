/**
 * Makes the requests to the service, which is where the page is. Replies are kept for ten seconds, as nginx keeps them.
 * Few requests run at a time, since a server limits them for each client. If it says that there are too many, the request is made again after the time that it names.
 */

const WORDS_OF_STATUS = {
    400: "the request can’t be read; perhaps its address is too long",
    403: "this server does not give so many rows at once; ask for fewer",
    414: "the address is too long; use fewer or shorter conditions",
    429: "too many requests",
    502: "the service does not answer",
    503: "the service is busy",
    504: "the service took too long",
};
const BUSY = [429, 503];
const MOST_TRIES = 5;
const FIRST_PAUSE = 400;
const LONGEST_PAUSE = 10_000;
const KEPT_FOR = 10_000;
const MOST_KEPT = 1_000_000;
const LANES = 3;

/** A request that gave nothing to show: the reply's status, and the service's code and message (OData JSON Format, section 21.1). */
export class Refusal extends Error {
    constructor(status, code, message) {
        super(message);
        this.status = status;
        this.code = code;
    }
}

/** Parses JSON, with each number as a text: the service's digits exceed those of JavaScript's numbers. A text's own digits are between quotes. */
const exactJson = (text) => JSON.parse(text.replace(/"[^"\\]*(?:\\.[^"\\]*)*"|-?\d+(?:\.\d+)?/g, (token) => (token.startsWith('"') ? token : `"${token}"`)));

/** The pause before another try, in milliseconds: what the server says, else a longer one each time. */
function pauseAfter(response, tries) {
    const seconds = Number(response.headers.get("Retry-After") ?? "");
    return seconds > 0 ? seconds * 1000 : tries * FIRST_PAUSE;
}

async function refusalOf(response) {
    const text = await response.text();
    try {
        const { code, message } = JSON.parse(text).error;
        return new Refusal(response.status, code, message);
    } catch {
        const words = WORDS_OF_STATUS[response.status] ?? `a reply that is not the service’s (${response.status})`;
        const seconds = Math.ceil(pauseAfter(response, MOST_TRIES) / 1000);
        return new Refusal(response.status, "", BUSY.includes(response.status) ? `${words}; try again in ${seconds} seconds` : words);
    }
}

const pause = (milliseconds, signal) => new Promise((resolve, reject) => {
    setTimeout(resolve, milliseconds);
    signal?.addEventListener("abort", () => reject(signal.reason), { once: true });
});

export class Client {
    #root;
    #kept = new Map();
    #running = 0;
    #waiting = [];

    /** `root` is the address of the service document. */
    constructor(root) {
        this.#root = root;
    }

    whole(address) {
        return new URL(address, this.#root).href;
    }

    async #response(address, signal) {
        while (this.#running >= LANES) {
            await new Promise((resolve) => this.#waiting.push(resolve));
        }
        this.#running += 1;
        try {
            signal?.throwIfAborted();
            return await fetch(this.whole(address), { signal, headers: { Accept: "application/json, text/plain" } });
        } catch (error) {
            throw signal?.aborted ? signal.reason : new Refusal(0, "", "there is no connection to the service");
        } finally {
            this.#running -= 1;
            this.#waiting.shift()?.();
        }
    }

    #keep(address, text) {
        const now = performance.now();
        for (const [old, { at }] of this.#kept) {
            if (now - at >= KEPT_FOR) {
                this.#kept.delete(old);
            }
        }
        if (text.length < MOST_KEPT) {
            this.#kept.set(address, { text, at: now });
        }
    }

    async text(address, signal) {
        const kept = this.#kept.get(address);
        if (kept && performance.now() - kept.at < KEPT_FOR) {
            return kept.text;
        }
        let response = await this.#response(address, signal);
        for (let tries = 1; BUSY.includes(response.status) && tries < MOST_TRIES; tries += 1) {
            const milliseconds = pauseAfter(response, tries);
            if (milliseconds > LONGEST_PAUSE) {
                break;
            }
            await pause(milliseconds, signal);
            response = await this.#response(address, signal);
        }
        if (!response.ok) {
            throw await refusalOf(response);
        }
        const text = await response.text();
        this.#keep(address, text);
        return text;
    }

    /**
     * The service document (OData JSON Format, section 5), and what the publisher says of the tables.
     * A browser gets the page at `/`, so the document is asked for with an option.
     */
    async folder() {
        const [listing, metadata] = await Promise.all([this.text("?$format=json"), this.text("csv-metadata.json")]);
        return { listing: JSON.parse(listing), metadata: JSON.parse(metadata) };
    }

    async number(address, signal) {
        return Number(await this.text(address, signal));
    }

    /** Rows, each an object of its values. Numbers are texts. */
    async rows(address, signal) {
        return exactJson(await this.text(address, signal)).value;
    }
}
