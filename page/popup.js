/**
 * The one panel that opens below a button, a header or a cell; on a small screen a sheet at the foot.
 * The browser closes it by Escape or a press beside it, and the focus goes back.
 */
import { action, element } from "./element.js";

const MARGIN = 16;
const GAP = 4;
const LEAST_ROOM = 320;
const SHEET = matchMedia("(max-width: 40rem)");

export class Popup {
    #panel;
    #anchor = null;
    #closed = () => {};

    constructor(panel) {
        this.#panel = panel;
        panel.addEventListener("beforetoggle", ({ newState }) => {
            if (newState === "closed") {
                this.#anchor?.setAttribute("aria-expanded", "false");
                this.#closed();
                // a press elsewhere has moved the focus already
                if (panel.contains(document.activeElement)) {
                    setTimeout(() => this.#focusBack());
                }
            }
        });
    }

    /** Gives the focus back to where the panel was opened. A chip or a cell may be gone by then. */
    #focusBack() {
        if (!this.#panel.matches(":popover-open")) {
            (this.#anchor?.isConnected ? this.#anchor : document.getElementById("add-filter"))?.focus({ preventScroll: true });
            this.#panel.replaceChildren();
        }
    }

    /** Opens the panel with a heading and what is below it. */
    open(anchor, heading, note, ...children) {
        this.close();
        this.#anchor = anchor;
        this.#closed = () => {};
        const title = element("h2", { id: "popup-heading", tabindex: "-1", dir: "auto" }, heading);
        const words = element("div", {}, title, ...(note ? [element("p", { class: "quiet" }, note)] : []));
        const close = action("×", () => this.close(), { class: "close", "aria-label": "Close" });
        this.#panel.replaceChildren(element("div", { class: "popup-head" }, words, close), ...children);
        this.#panel.scrollTop = 0;
        this.#panel.showPopover();
        anchor.setAttribute("aria-expanded", "true");
        this.place();
        (this.#panel.querySelector("[autofocus]") ?? title).focus({ preventScroll: true });
    }

    /** Places the panel below its anchor, within the window; called again when its content has grown. */
    place() {
        const { style } = this.#panel;
        if (SHEET.matches) {
            style.left = style.top = style.maxHeight = "";
            return;
        }
        const box = this.#anchor.getBoundingClientRect();
        const { width } = this.#panel.getBoundingClientRect();
        const top = Math.max(MARGIN, Math.min(box.bottom + GAP, innerHeight - LEAST_ROOM));
        style.left = `${Math.max(MARGIN, Math.min(box.left, innerWidth - width - MARGIN))}px`;
        style.top = `${top}px`;
        style.maxHeight = `${innerHeight - top - MARGIN / 2}px`;
    }

    /** Calls `does` when the panel that is open now closes. */
    whenClosed(does) {
        this.#closed = does;
    }

    close() {
        if (this.#panel.matches(":popover-open")) {
            this.#panel.hidePopover();
        }
    }
}
