"""What is left of the rows of an example by filters: by the menu of a cell, by that of a column, by a search and by text."""

import urllib.parse

from page_rows import NUMBERS, filter_text, kept, literal, nameable, searched, shown, text_of
from page_views import shows_rows

# Conditions that the service refuses, and what the page says of them after the service's message.
REFUSED = (
    ("{0} = 1", "“=” is written eq"),
    ("tolower({0}) eq 'a'", "tolower is not served"),
    ("{0} eq \"a\"", "between single quotes"),
    ("({0} eq null", "parenthesis"),
    ("nothing eq 1", "Columns: {0}"),
    ("{1} eq null", "The column is written {0}."),
    ("{0} like 'a'", "is written contains"),
    ("{0} < 1", "are written lt, le, gt, ge"),
)


# So many conditions of a column are typed.
MOST_TYPED = 5


def address(table, chips):
    """The fragment of chips."""
    parts = [f"#table={table.name}"]
    for column, test, others in chips:
        parts.append(f"where={column.name}%20{test}")
        parts += ["none" if other is None else "value=" + urllib.parse.quote(text_of(other), safe="-_.!~*()") for other in others]
    return "&".join(parts)


def tries_cells(browser, checks, table):
    """A cell's menu: its whole value, only this, not this, from this up and up to this. Each value of the column with texts of every kind, of others the first."""
    browser.open(f"#table={table.name}")
    for place, column in enumerate(table.columns):
        seen = set()
        for at, row in enumerate(table.rows[:40]):
            value = row[place]
            if value in seen or (seen and column.name != "Text" and value is not None):
                continue
            seen.add(value)
            name = f"{table.name}: {column.name} of {shown(value)!r:.40}"
            browser.cell(at, place)
            checks.equal(f"{name}: whole", browser.text("#popup .whole-value"), {"[null]": "no value", "[empty text]": "empty text"}.get(shown(value), shown(value)))
            if not nameable(column):
                checks.equal(f"{name}: no filter", browser.script("return document.querySelector('#popup .actions').children.length"), 0)
                continue
            browser.press("Rows without a value" if value is None else "Only this")
            shows_rows(browser, checks, name, kept(table, [(column, "is", [value])]))
            browser.script("document.querySelector('.chip-remove').click()")
            browser.settle()
        tries_other_actions(browser, checks, table, place)


def tries_other_actions(browser, checks, table, place):
    column = table.columns[place]
    value = table.rows[0][place]
    actions = [("Rows with a value" if value is None else "Not this", "not")]
    if column.type in (*NUMBERS, "date") and value is not None:
        actions += [("From this up", "from"), ("Up to this", "to")]
    for words, test in actions if nameable(column) else []:
        browser.cell(0, place)
        browser.press(words)
        chips = [(column, test, [value])]
        checks.equal(f"{table.name}: {column.name}, {words}: the address", browser.fragment(), address(table, chips))
        shows_rows(browser, checks, f"{table.name}: {column.name}, {words}", kept(table, chips))
        browser.goes(f"#table={table.name}")


def forms_of(table, column):
    """What is typed into the form of a column, and the chip that it makes."""
    values = [row[table.place(column.name)] for row in table.rows if row[table.place(column.name)] is not None]
    if column.type == "string":
        some = list(dict.fromkeys(values)) if column.name == "Text" else values[:1]
        for at, value in enumerate(some):
            test, part = [("contains", value[len(value) // 3:len(value) // 3 + 5]), ("begins", value[:4]), ("ends", value[-4:]), ("lacks", value[:2]), ("is", value)][at % 5]
            # a field has no line feeds
            if part and "\n" not in part:
                yield {"select": test, "input": part}, (column, test, [part])
    elif column.type != "boolean":
        least, most = min(values), sorted(values)[len(values) // 2]
        yield {"[aria-label=From]": text_of(most)}, (column, "from", [most])
        yield {"[aria-label='Up to']": text_of(most)}, (column, "to", [most])
        yield {"[aria-label=From]": text_of(least), "[aria-label='Up to']": text_of(most)}, (column, "is" if least == most else "range", [least] if least == most else [least, most])


def types(browser, table, column, typed):
    """Types into the form of a column's menu, and applies it."""
    browser.goes(f"#table={table.name}")
    browser.script("document.querySelector(arguments[0]).click()", f"[data-menu={column.name}]")
    for selector, text in typed.items():
        browser.script("document.querySelector(arguments[0]).value = arguments[1]", f"#popup .filter-form {selector}", text)
    browser.press("Apply")


def tries_forms(browser, checks, table):
    """The form of a column's menu, and its two buttons for rows with and without a value. The first conditions are typed; others are those of an address."""
    for column in filter(nameable, table.columns):
        for at, (typed, chip) in enumerate(forms_of(table, column)):
            if at < MOST_TYPED:
                types(browser, table, column, typed)
                checks.equal(f"{table.name}: {filter_text([chip])}: the address", browser.fragment(), address(table, [chip]))
            else:
                browser.goes(address(table, [chip]))
            shows_rows(browser, checks, f"{table.name}: {filter_text([chip])}", kept(table, [chip]))
        if column.is_key:
            continue
        for words, test in (("Has a value", "not"), ("Has no value", "is")):
            browser.goes(f"#table={table.name}")
            browser.script("document.querySelector(arguments[0]).click()", f"[data-menu={column.name}]")
            if browser.script("return [...document.querySelectorAll('#popup button')].some(it => it.textContent === arguments[0])", words):
                browser.press(words)
                shows_rows(browser, checks, f"{table.name}: {column.name}: {words}", kept(table, [(column, test, [None])]))
            else:
                browser.press("Close")


def tries_joined(browser, checks, table):
    """Chips joined by `and`, of which one is taken away again; values of one joined by `or`; each by its address."""
    first, *_, last = [column for column in table.columns if nameable(column)]
    values = list(dict.fromkeys(row[table.place(first.name)] for row in table.rows))[:3]
    chips = [(first, "is", values), (last, "not", [None])]
    browser.goes(address(table, chips))
    shows_rows(browser, checks, f"{table.name}: joined", kept(table, chips))
    checks.equal(f"{table.name}: joined, the chips", len(browser.chips()), 2)
    browser.click("#edit-text")
    checks.equal(f"{table.name}: joined, as text", browser.value("#popup textarea"), filter_text(chips))
    browser.press("Close")
    browser.click("#chips li:first-child .chip-remove")
    shows_rows(browser, checks, f"{table.name}: one is taken away", kept(table, chips[1:]))
    browser.click("#clear")
    checks.equal(f"{table.name}: all are cleared", (browser.fragment(), browser.chips()), (f"#table={table.name}", []))


def tries_search(browser, checks, table):
    column = next((it for it in table.columns if it.type == "string" and nameable(it) and not it.is_key), None)
    if column is None:
        return
    text = next(row[table.place(column.name)] for row in table.rows if row[table.place(column.name)])[:3].lower().strip()
    browser.goes(f"#table={table.name}")
    browser.script("document.querySelector('#search').value = arguments[0]; document.querySelector('#search-form').requestSubmit()", text)
    browser.settle()
    shows_rows(browser, checks, f"{table.name}: search for {text}", searched(table, text))
    browser.goes(f"#table={table.name}&search=%7E%7E")
    checks.equal(f"{table.name}: what nothing has", (browser.cells(), browser.text("#summary"), browser.text("#frame .empty")), ([], "No rows", "No rows meet these filters."))


def writes(browser, text):
    browser.click("#add-filter")
    browser.press("Write it as text")
    browser.choose("#popup textarea", text)
    browser.script("[...document.querySelectorAll('#popup .actions button')].at(-1).click()")
    browser.wait("return !document.querySelector('#popup:popover-open') || document.querySelector('#text-error').textContent !== ''")
    browser.settle()


def tries_text(browser, checks, table):
    """A condition written by hand, to which a chip is added. One that the service refuses is explained, and the rows stay."""
    column = table.columns[0]
    value = table.rows[0][0]
    other = [row for row in table.rows if row[0] != value]
    browser.goes(f"#table={table.name}")
    for text, hint in REFUSED:
        written = text.format(column.name, column.name.swapcase())
        writes(browser, written)
        said = browser.text("#text-error")
        checks.equal(f"{table.name}: {written} is explained: {said}", (said.startswith("The service can’t read this: "), hint.format(column.name) in said), (True, True))
        browser.press("Close")
    shows_rows(browser, checks, f"{table.name}: the rows stay", table.rows)
    written = f"not ({column.name} eq {literal(column, value)})"
    writes(browser, written)
    shows_rows(browser, checks, f"{table.name}: by hand", other)
    if other:
        browser.cell(0, 0)
        browser.press("Not this")
        shows_rows(browser, checks, f"{table.name}: by hand, and a chip", [row for row in other if row[0] != other[0][0]])
        browser.click("#edit-text")
        checks.equal(f"{table.name}: by hand, and a chip, as text", browser.value("#popup textarea"), f"({written}) and {column.name} ne {literal(column, other[0][0])}")
        browser.press("Close")
    browser.goes(f"#table={table.name}&text=Nothing%20eq%201")
    checks.equal(f"{table.name}: an address that is refused", (browser.cells(), browser.text("#error").startswith("The service can’t give this: no such column.")), ([], True))
    browser.click("#clear")
    checks.equal(f"{table.name}: no error after it", browser.find("#failure-line").is_displayed(), False)
    shows_rows(browser, checks, f"{table.name}: cleared", table.rows)
