"""The page for people over a folder of 250 tables, and over tables that are wide, long or described: what only such folders show."""

import csv
import json
import os
from datetime import date, timedelta

from page_filters import address
from page_rows import groups_of, kept, tables_of, text_of
from page_stage import SIZES
from page_views import counted, shows_rows

TABLES = 250
WIDE = 60
DAYS = 20_500
LISTED = "return [...document.querySelectorAll('#tables li')].map(it => it.dataset.table)"


def writes(folder, name, columns, rows):
    with open(os.path.join(folder, f"{name}.csv"), "w", encoding="utf-8", newline="") as file:
        csv.writer(file, lineterminator="\r\n").writerows([[column["name"] for column in columns], *rows])
    return {"url": f"{name}.csv", "tableSchema": {"columns": columns}}


def small(number):
    return [{"name": "Code"}, {"name": "Value", "datatype": "integer"}], [[f"c{number}_{at}", at * number] for at in range(number % 7 + 1)]


def makes_many(folder):
    """Writes 250 tables; the first is wide, the second has many days, and the third is described."""
    tables = [writes(folder, "wide", [{"name": f"Text_{at:02}"} for at in range(WIDE)], [[f"Value {row} {at}" for at in range(WIDE)] for row in range(3)])]
    days = [[(date(1900, 1, 1) + timedelta(days=at)).isoformat(), at % 10, f"{at % 4}.5"] for at in range(DAYS)]
    tables.append(writes(folder, "days", [{"name": "Day", "datatype": "date"}, {"name": "Number", "datatype": "integer"}, {"name": "Price", "datatype": "decimal"}], days))
    described = writes(folder, "described", [{"name": "Code", "titles": {"en": "Code of the port", "de": "Kürzel"}, "dc:description": "UN/LOCODE"}, {"name": "Blank"}], [["NOOSL", "   "], ["SEGOT", "x"]])
    described.update({"dc:title": "Ports of the north", "dc:description": "Each port with its code.", "dc:license": "https://example.org/licence/", "dcterms:modified": "2026-01-31"})
    tables.append(described)
    for number in range(3, TABLES):
        tables.append(writes(folder, f"table_with_a_long_name_{number:03}", *small(number)))
    metadata = {"@context": "http://www.w3.org/ns/csvw", "dc:title": "A made folder", "dc:publisher": {"schema:name": "Harbour office"}, "tables": tables}
    with open(os.path.join(folder, "csv-metadata.json"), "w", encoding="utf-8") as file:
        json.dump(metadata, file)


def tries_many(browser, checks):
    """The list: few requests, counts of what is in sight, names on one line, and a search."""
    for width, height in SIZES:
        browser.resize(width, height)
        browser.open()
        browser.wait("return [...document.querySelectorAll('#tables li')].filter(it => it.getBoundingClientRect().top < innerHeight).every(it => it.querySelector('.table-rows').textContent.includes('row'))")
        checks.equal(f"{width}: all tables are listed", len(browser.script(LISTED)), TABLES)
        requests = browser.requests()
        checks.true(f"{width}: {len(requests)} requests", len(requests) <= 20)
        checks.true(f"{width}: as wide as the window", browser.is_as_wide_as_its_window())
        heights = browser.script("return [...document.querySelectorAll('#tables a')].map(it => it.getBoundingClientRect().height)")
        checks.true(f"{width}: names are on one line", max(heights) < 30)
    browser.choose("#find-table", "long 24")
    checks.equal("tables that are found", browser.script(LISTED), [f"table_with_a_long_name_{number:03}" for number in range(3, TABLES) if "24" in f"{number:03}"])
    browser.choose("#find-table", "unicode locode")
    checks.equal("none is found", browser.text("#found-tables"), f"0 of {TABLES} tables")
    browser.choose("#find-table", "kürzel")
    browser.goes("#table=no_such_table")
    checks.true("a name that no table has", browser.find("#unknown").is_displayed())


def tries_described(browser, checks):
    """What the publisher says of the folder, the table and its columns."""
    browser.open("#table=described")
    browser.wait("return !document.querySelector('#facts').textContent.includes('…')")
    facts = ["2 rows", "2 columns", "example.org/licence", "Harbour office", "as of 2026-01-31"]
    checks.equal("facts", browser.script("return [...document.querySelectorAll('#facts span')].map(it => it.textContent)"), facts)
    checks.equal("titles", [browser.text(selector) for selector in ("#home", "#switch", "#description")], ["A made folder", "Ports of the north", "Each port with its code."])
    checks.equal("the window's title", browser.driver.title, "Ports of the north – A made folder")
    checks.equal("a column's title", browser.headers()[0], "Code of the port")
    checks.equal("a text of spaces is marked", browser.script("return document.querySelector('.is-blank').textContent"), "   ")
    browser.click("#about")
    checks.true("what is said of a column", "UN/LOCODE" in browser.text("#popup"))


def tries_wide(browser, checks, table):
    """A search in so many columns that all spellings would be too long for one request."""
    browser.open("#table=wide&search=value%201")
    shows_rows(browser, checks, "a search in 60 columns", [])
    browser.goes("#table=wide&search=Value%201")
    shows_rows(browser, checks, "a search in 60 columns, as it is written there", table.rows[1:2])


def tries_days(browser, checks, table):
    """More days than are joined here: the page says so, and leaves out the month that is only a part."""
    browser.open("#table=days&view=groups&by=Day&step=year&method=sum&of=Price")
    day, number, price = table.columns
    first = groups_of(type(table)(table.name, table.columns, table.rows[:20_000]), [day], "sum", price, 4)[:-1]
    came = browser.script("return [...document.querySelectorAll('.groups tbody tr')].map(row => [row.cells[0].textContent, row.cells[2].textContent])")
    checks.equal("sums by year", came, [[group[0], text_of(group[2])] for group in first])
    checks.equal("what is left out", browser.text("#groups-view [role=status]"), f"{counted(len(first), 'group')}, of the first 20,000 values of Day")
    checks.true("a line", browser.script("return document.querySelector('.line-chart polyline').getAttribute('points').split(' ').length") == len(first))
    chips = [(day, "range", [date(1950, 1, 1), date(1950, 12, 31)]), (number, "is", [3])]
    browser.goes(address(table, chips))
    shows_rows(browser, checks, "a year, and one number", kept(table, chips))
    before = len(browser.requests())
    browser.goes("#table=days")
    browser.click("[data-menu=Day]")
    counts = [int(text.rsplit(": ", 1)[1].split(" ")[0].replace(",", "")) for text in browser.script("return [...document.querySelectorAll('.bin')].map(it => it.ariaLabel)")]
    checks.equal("all days are in bars", sum(counts), DAYS)
    asked = len(browser.requests()) - before
    checks.true(f"a profile of many values takes {asked} requests", asked <= 16)


def tries_folder(browser, checks, folder):
    tables = {table.name: table for table in tables_of(folder)}
    tries_many(browser, checks)
    tries_described(browser, checks)
    tries_wide(browser, checks, tables["wide"])
    tries_days(browser, checks, tables["days"])
    checks.equal("the folder of many tables: lines on the console", browser.console(), [])
