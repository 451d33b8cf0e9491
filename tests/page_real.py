"""The page for people over real files: those of python3-vega-datasets, with the metadata that csvw_draft writes for them. DATASETS and DRAFT name other places."""

import glob
import os
import shutil
import subprocess
import tempfile

from page_rows import NUMBERS, nameable, tables_of, text_of
from page_stage import SIZES, TOP, stage_of
from page_views import shows_rows

DATASETS = os.environ.get("DATASETS", "/usr/lib/python3/dist-packages/vega_datasets/_data")
DRAFT = os.environ.get("DRAFT", os.path.join(TOP, "crates/csvw_draft/out/csvw_draft"))


def tries_table(browser, checks, table):
    """The first rows at each width, and the profile of each column."""
    for width, height in SIZES:
        browser.resize(width, height)
        browser.open(f"#table={table.name}")
        shows_rows(browser, checks, f"{table.name} at {width}", table.rows)
        checks.true(f"{table.name} at {width}: as wide as the window", browser.is_as_wide_as_its_window())
    for column in filter(nameable, table.columns):
        browser.script("document.querySelector(arguments[0]).click()", f"[data-menu={column.name}]")
        browser.settle()
        values = [row[table.place(column.name)] for row in table.rows]
        some = [value for value in values if value is not None]
        facts = browser.script("return Object.fromEntries([...document.querySelectorAll('.profile-facts > div')].map(it => [...it.children].map(it => it.textContent)))")
        came = (facts.get("Different"), facts.get("No value", "").split(" ")[0], facts.get("Range"))
        limits = f"{text_of(min(some))} to {text_of(max(some))}" if column.type in (*NUMBERS, "date") else None
        checks.equal(f"{table.name}: profile of {column.name}", came, (f"{len(set(some)):,}", f"{len(values) - len(some):,}", limits))
        counts = [int(text.rsplit(": ", 1)[1].split(" ")[0].replace(",", "")) for text in browser.script("return [...document.querySelectorAll('.bin')].map(it => it.ariaLabel)")]
        checks.true(f"{table.name}: all values of {column.name} are in bars", not counts or sum(counts) == len(some))


def tries_real(checks):
    files = glob.glob(os.path.join(DATASETS, "*.csv"))
    if not files or not os.path.exists(DRAFT):
        print(f"page: real files are left out, since there is no {DRAFT if files else DATASETS}")
        return
    with tempfile.TemporaryDirectory(prefix="page-real-") as folder:
        for file in files:
            shutil.copy(file, folder)
        subprocess.run([DRAFT, folder, "--write"], check=True, capture_output=True)
        with stage_of(folder) as browser:
            for table in tables_of(folder):
                tries_table(browser, checks, table)
            checks.equal("real files: lines on the console", browser.console(), [])
