"""What the page for people shows of an example, compared with what its files have: tables, rows, orders, columns, cards and addresses."""

import ssl
import urllib.parse
import urllib.request

from page_rows import NUMBERS, all_shown, in_order, nameable, shown

PAGE = 100
TYPES = {"string": "text", "integer": "whole number", "decimal": "decimal", "boolean": "true or false", "date": "date"}


def fetched(browser, url, accept="*/*"):
    """The status, the fields and the bytes of a reply to a script."""
    port = urllib.parse.urlsplit(url).port
    context = ssl.create_default_context()
    context.check_hostname, context.verify_mode = False, ssl.CERT_NONE
    direct = url.replace(browser.root, f"https://127.0.0.1:{port}/")
    request = urllib.request.Request(direct, headers={"Host": browser.root.split("/")[2], "Accept": accept})
    with urllib.request.urlopen(request, context=context, timeout=20) as reply:
        return reply.status, reply.headers, reply.read()


def counted(number, noun):
    return f"{number:,} {noun}{'' if number == 1 else 's'}"


def summary(skip, here, count):
    if here == 0:
        return "No rows"
    return counted(count, "row") if here == count else f"{skip + 1:,}–{skip + here:,} of {count:,} rows"


def shows_rows(browser, checks, name, rows, skip=0):
    """The page shows these of a list of rows, from one on, and the line below says which they are."""
    here = rows[skip:skip + PAGE]
    checks.equal(f"{name}: rows", browser.cells(), all_shown(here))
    checks.equal(f"{name}: which they are", browser.text("#summary"), summary(skip, len(here), len(rows)))


def tries_tables(browser, checks, tables):
    """The list of tables, its search, and the panel that leads from one table to another. A folder of one table begins with it."""
    browser.open()
    if len(tables) == 1:
        checks.equal("the only table", (browser.text("#switch"), browser.find("#switch").is_enabled()), (tables[0].name, False))
        return
    browser.wait("return [...document.querySelectorAll('.table-rows')].every(it => it.textContent.includes('row'))")
    wanted = [[table.name, ", ".join(it.title for it in table.columns), counted(len(table.columns), "column"), counted(len(table.rows), "row")] for table in tables]
    lines = "return [...document.querySelectorAll('#tables li')].map(it => [...it.children].map(it => it.textContent))"
    checks.equal("tables", browser.script(lines), wanted)
    browser.choose("#find-table", tables[-1].name.upper())
    checks.equal("a table is found", browser.script(lines), wanted[-1:])
    checks.equal("how many are found", browser.text("#found-tables"), f"1 of {len(tables)} tables")
    browser.click("#tables a")
    checks.equal("a table by a click", browser.text("#switch"), tables[-1].name)
    shows_rows(browser, checks, "a table by a click", tables[-1].rows)
    browser.click("#switch")
    checks.equal("the panel of tables", browser.script("return [...document.querySelectorAll('.choices a')].map(it => it.textContent)"), [table.name for table in tables])
    browser.click(".choices a")
    checks.equal("another table by the panel", browser.text("#switch"), tables[0].name)
    shows_rows(browser, checks, "another table by the panel", tables[0].rows)


def tries_rows(browser, checks, table):
    browser.open(f"#table={table.name}")
    shows_rows(browser, checks, table.name, table.rows)
    checks.equal(f"{table.name}: headers", browser.headers(), [column.title for column in table.columns])
    facts = [counted(len(table.rows), "row"), counted(len(table.columns), "column")]
    browser.wait("return !document.querySelector('#facts').textContent.includes('…')")
    checks.equal(f"{table.name}: facts", browser.script("return [...document.querySelectorAll('#facts span')].map(it => it.textContent)"), facts)
    aligned = browser.script("return [...document.querySelectorAll('#rows tbody tr:first-child td:not(.rest)')].map(it => getComputedStyle(it).textAlign)")
    checks.equal(f"{table.name}: numbers to the right", [it == "right" for it in aligned], [column.type in NUMBERS for column in table.columns])
    days = browser.script("return [...document.querySelectorAll('#rows time')].map(it => [it.dateTime, it.title])")
    wanted = [value for row in table.rows[:PAGE] for column, value in zip(table.columns, row) if column.type == "date" and value]
    checks.equal(f"{table.name}: days in words on hover", days, [[it.isoformat(), f"{it:%A}, {it:%B} {it.day}, {it.year}"] for it in wanted])
    skip = 0
    while skip + PAGE < len(table.rows):
        skip += PAGE
        browser.click("#pager button:nth-child(3)")
        shows_rows(browser, checks, f"{table.name}: next", table.rows, skip)
    for button, place in ((1, 0), (4, skip), (2, max(0, skip - PAGE))) if skip else ():
        browser.click(f"#pager button:nth-child({button})")
        shows_rows(browser, checks, f"{table.name}: button {button}", table.rows, place)


def tries_orders(browser, checks, table):
    browser.open(f"#table={table.name}")
    for place, column in enumerate(table.columns):
        header = f"#rows thead th:nth-child({place + 2})"
        name = f"{table.name} by {column.name}"
        if not nameable(column):
            checks.equal(f"{name}: no button", browser.all(f"{header} .sort"), [])
            continue
        for wanted, rows in (("ascending", in_order(table.rows, place, False)), ("descending", in_order(table.rows, place, True)), ("none", table.rows)):
            browser.script("document.querySelector(arguments[0]).click()", f"{header} .sort")
            browser.settle()
            shows_rows(browser, checks, f"{name} {wanted}", rows)
            checks.equal(f"{name} {wanted}: said to a screen reader", browser.find(header).get_attribute("aria-sort"), wanted)


def tries_columns(browser, checks, table):
    """Columns are hidden and shown by their boxes, and hidden by a menu; the panel about the table has all of them."""
    browser.open(f"#table={table.name}")
    browser.click("#about")
    came = browser.script("return [...document.querySelectorAll('.about-list:last-of-type > div')].map(it => [...it.children].map(it => it.textContent))")
    words = [[it.title, " · ".join(([it.name] if it.title != it.name else []) + [TYPES[it.type]] + (["key"] if it.is_key else []))] for it in table.columns]
    checks.equal(f"{table.name}: about its columns", came, words)
    browser.click("#choose-columns")
    for column in table.columns[::2]:
        browser.script("document.querySelector(arguments[0]).click()", f"#show-{column.name}")
        browser.settle()
    rest = range(1, len(table.columns), 2)
    checks.equal(f"{table.name}: chosen columns", browser.headers(), [table.columns[place].title for place in rest])
    shows_rows(browser, checks, f"{table.name}: chosen columns", [[row[place] for place in rest] for row in table.rows])
    tries_card(browser, checks, table, rest)
    browser.click("#choose-columns")
    browser.press("Show all")
    shows_rows(browser, checks, f"{table.name}: all columns", table.rows)


def tries_card(browser, checks, table, places):
    """A row as a card. Columns that are hidden are asked for if the table has a key."""
    browser.script("document.querySelector('#rows tbody th').click()")
    keys = [place for place, column in enumerate(table.columns) if column.is_key]
    shown_columns = list(range(len(table.columns))) if keys and all(place in places for place in keys) else list(places)
    for at in range(min(2, len(table.rows))):
        wanted = [[table.columns[place].title, shown(table.rows[at][place]).replace("[null]", "").replace("[empty text]", "")] for place in shown_columns]
        browser.wait(f"return document.querySelector('#card-heading').textContent === 'Row {at + 1}' && document.querySelectorAll('#card dt').length === {len(wanted)}")
        came = browser.script("return [...document.querySelectorAll('#card dl > div')].map(it => [...it.children].map(it => it.textContent))")
        checks.equal(f"{table.name}: card of row {at + 1}", came, wanted)
        browser.script("document.querySelector('#card [aria-label=\"The row after\"]').click()")
    browser.script("document.querySelector('#card [aria-label=Close]').click()")


def looks(browser):
    """What is shown, and under which address."""
    groups = browser.script("return [...document.querySelectorAll('.groups tbody tr')].map(it => it.textContent)")
    view = browser.script("return document.querySelector('[aria-current=true]')?.dataset.view")
    return browser.fragment(), view, browser.chips(), browser.cells() if view == "rows" else groups, browser.text("#summary") if view == "rows" else ""


def chooses_other(browser, table):
    """Groups by another column, by keys: of what no person did, a browser keeps no view."""
    chosen = browser.value("#group-by")
    other = next(column for column in table.columns if column.name != chosen and nameable(column))
    browser.find("#group-by").send_keys(other.title)
    browser.settle()


def tries_addresses(browser, checks, table):
    """Back and forward go through the views, and another window shows the same at the same address. Each is reached by a click: a browser skips views that it was not asked for."""
    last = [place for place, column in enumerate(table.columns) if nameable(column)][-1]
    browser.open(f"#table={table.name}")
    seen = []
    for click in (
        lambda: None,
        lambda: browser.click("#rows thead .sort"),
        lambda: (browser.cell(0, last), browser.click("#popup .actions button")),
        lambda: browser.click("[data-view=groups]"),
        lambda: chooses_other(browser, table),
        lambda: browser.click(".groups a"),
    ):
        click()
        seen.append(looks(browser))
    for there in seen[-2::-1]:
        browser.driver.back()
        browser.settle()
        checks.equal(f"back to {there[0]}", looks(browser), there)
    browser.driver.forward()
    browser.settle()
    checks.equal(f"forward to {seen[1][0]}", looks(browser), seen[1])
    for there in seen:
        browser.open(there[0])
        checks.equal(f"{there[0]} in another window", looks(browser), there)
