/**
 * Makes the parts of the page and connects them. They know of the page by two functions: `change` changes the state, `now` returns it with its table.
 */
import { Bar } from "./bar.js";
import { Card } from "./card.js";
import { Counter } from "./counter.js";
import { Grid } from "./grid.js";
import { GroupsView } from "./groupsview.js";
import { Menus } from "./menus.js";
import { Pager } from "./pager.js";
import { Panels } from "./panels.js";
import { Popup } from "./popup.js";
import { Progress } from "./progress.js";
import { tableChoices, TableList } from "./tables.js";

const found = (id) => document.getElementById(id);

/** Returns the parts, by their names. */
export function partsOf(client, folder, change, now) {
    const popup = new Popup(found("popup"));
    const menus = new Menus(popup, client, change, now);
    const openColumn = (name, anchor) => menus.openColumn(name, anchor);
    const panels = new Panels(popup, client, { change, now, openColumn });
    const card = new Card(found("card"), client);
    const counter = new Counter(client);
    const openTables = () => popup.open(found("switch"), "Tables", "", ...tableChoices(folder.tables, now().state.table, counter));
    found("about").addEventListener("click", ({ currentTarget }) => panels.openAbout(currentTarget));
    found("switch").addEventListener("click", openTables);
    return {
        popup, counter,
        list: new TableList(found("tables"), found("find-table"), found("found-tables"), folder.tables, counter),
        bar: new Bar(found, change, {
            openColumn,
            openFilters: (anchor) => panels.openFilters(anchor),
            openText: (anchor) => panels.openText(anchor),
            openColumns: (anchor) => panels.openColumns(anchor),
        }),
        grid: new Grid(found("rows"), found("frame"), {
            change,
            openMenu: openColumn,
            openCell: (...given) => menus.openCell(...given),
            openRow: (...given) => card.open(now().table, ...given),
        }),
        groups: new GroupsView(found("groups-view"), client, change),
        pager: new Pager(found("summary"), found("pager"), change),
        progress: new Progress(found("progress")),
    };
}
