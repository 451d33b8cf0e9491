/**
 * Moves through a table by the keyboard. The table is one stop of the Tab key, within which arrows move (the grid pattern of the ARIA Authoring Practices).
 * On a header Shift and an arrow change the width of its column.
 */
const FAR = 1000;
const PAGE = 20;
const STEPS = {
    ArrowLeft: [0, -1], ArrowRight: [0, 1], ArrowUp: [-1, 0], ArrowDown: [1, 0], PageUp: [-PAGE, 0], PageDown: [PAGE, 0], Home: [0, -FAR], End: [0, FAR],
};

const within = (at, count) => Math.max(0, Math.min(count - 1, at));

/** Makes one cell of the table a stop of the Tab key; of a header both buttons. */
function stopAt(table, target) {
    for (const old of table.querySelectorAll("[tabindex='0']")) {
        old.tabIndex = -1;
    }
    const head = target.closest("thead th");
    for (const stop of head ? head.querySelectorAll("button") : [target]) {
        stop.tabIndex = 0;
    }
}

function moves(table, cell, [down, right]) {
    const { cells } = table.rows[within(cell.parentElement.rowIndex + down, table.rows.length)];
    // the last cell of each row is only the room that is left
    const next = cells[within(cell.cellIndex + right, cells.length - 1)];
    (next.querySelector("thead button") ?? next).focus();
}

/** `opens` opens a cell of the body; `widens` changes the width of a header's column by a direction. */
export function listenToKeys(table, { opens, widens }) {
    table.addEventListener("focusin", ({ target }) => stopAt(table, target));
    table.addEventListener("keydown", (event) => {
        const { key, shiftKey } = event;
        const cell = event.target.closest("td, th");
        if ((key === "Enter" || key === " ") && table.tBodies[0].contains(cell)) {
            event.preventDefault();
            opens(cell);
        } else if (Object.hasOwn(STEPS, key) && !event.altKey && !event.ctrlKey && !event.metaKey) {
            event.preventDefault();
            if (shiftKey && table.tHead.contains(cell) && STEPS[key][1] !== 0) {
                widens(cell, Math.sign(STEPS[key][1]));
            } else {
                moves(table, cell, STEPS[key]);
            }
        }
    });
}
