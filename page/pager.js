/**
 * Says which of the rows are shown, and leads to the others.
 */
import { countOf, countText } from "./cell.js";
import { PAGE_SIZE } from "./state.js";

const lastSkip = (count) => Math.max(0, Math.floor((count - 1) / PAGE_SIZE) * PAGE_SIZE);

/** Returns how many rows there are, if the page shows it: after a page that is not full there are no more. */
export const countByRows = (skip, shown) => (shown < PAGE_SIZE && (shown > 0 || skip === 0) ? skip + shown : null);

function rangeText(skip, shown, count) {
    if (shown === 0) {
        return "No rows";
    }
    return count === shown ? countOf(count, "row") : `${countText(skip + 1)}–${countText(skip + shown)}${count === null ? "" : ` of ${countText(count)} rows`}`;
}

export class Pager {
    #summary;
    #group;
    #steps;

    constructor(summary, group, change) {
        this.#summary = summary;
        this.#group = group;
        this.#steps = [...group.querySelectorAll("button")].map((button) => ({ button, skip: 0 }));
        for (const step of this.#steps) {
            // a button that leads nowhere stays where it is, and keeps the focus
            step.button.addEventListener("click", () => step.button.ariaDisabled === "false" && change({ skip: step.skip }));
        }
    }

    /** `count` is null as long as it is not known. */
    show(skip, shown, count) {
        const last = count === null ? skip + shown : lastSkip(count);
        const skips = [0, Math.max(0, skip - PAGE_SIZE), skip + PAGE_SIZE, last];
        const leads = [skip > 0, skip > 0, skip < last, skip < last && count !== null];
        this.#summary.replaceChildren(rangeText(skip, shown, count));
        this.#steps.forEach((step, at) => {
            step.skip = skips[at];
            step.button.ariaDisabled = String(!leads[at]);
        });
        this.#group.classList.toggle("is-idle", leads.every((lead) => !lead));
    }

    clear() {
        this.#summary.replaceChildren();
        for (const { button } of this.#steps) {
            button.ariaDisabled = "true";
        }
    }
}
