"""What the page computes of an example: the profiles of its columns, groups, and the files and programs that get the same."""

import json
import os
import shutil
import subprocess
import time
from collections import Counter
from decimal import Decimal

from page_filters import address
from page_rows import NUMBERS, all_shown, groups_of, in_order, kept, nameable, shown, text_of
from page_views import PAGE, counted, fetched, shows_rows

METHODS = {"count": (), "mean": NUMBERS, "sum": NUMBERS, "min": None, "max": None, "countdistinct": None}
WORDS = {"mean": "mean", "sum": "sum", "min": "least", "max": "greatest", "countdistinct": "different values"}
SHOWN_VALUES = 10
FEW = 8


def number(text):
    return Decimal(text.replace(",", ""))


def is_near(came, wanted):
    """True if a mean is the wanted one as far as its digits go."""
    last = Decimal(1).scaleb(-len(came.partition(".")[2]))
    return abs(number(came) - Decimal(wanted)) <= max(abs(Decimal(wanted)) * Decimal("0.002"), last * Decimal("0.51"))


def tries_profiles(browser, checks, table):
    """The profile of each column: facts, the commonest values with their boxes, and a histogram whose bars filter."""
    browser.open(f"#table={table.name}")
    for place, column in enumerate(table.columns):
        name = f"{table.name}: profile of {column.name}"
        browser.script("document.querySelector(arguments[0]).click()", f"[data-menu={column.name}]")
        browser.settle()
        if not nameable(column):
            checks.equal(f"{name}: none", browser.text("#popup .part"), "No filter and no order can name this column.")
            continue
        values = [row[place] for row in table.rows]
        some = [value for value in values if value is not None]
        facts = browser.script("return Object.fromEntries([...document.querySelectorAll('.profile-facts > div')].map(it => [...it.children].map(it => it.textContent)))")
        checks.equal(f"{name}: different values", facts["Different"], f"{len(set(some)):,}")
        checks.equal(f"{name}: no value", facts["No value"].split(" ")[0], f"{len(values) - len(some):,}")
        if column.type in (*NUMBERS, "date"):
            checks.equal(f"{name}: range", facts["Range"], f"{text_of(min(some))} to {text_of(max(some))}")
        if column.type in NUMBERS:
            checks.true(f"{name}: mean {facts['Mean']}", is_near(facts["Mean"], Decimal(sum(some)) / len(some)))
        tries_values(browser, checks, name, column, values)
        tries_histogram(browser, checks, name, table, column, some)
        browser.goes(f"#table={table.name}")


def tries_values(browser, checks, name, column, values):
    counts = Counter(values)
    some = [value for value in counts if value is not None]
    came = browser.script("return [...document.querySelectorAll('.values li')].map(it => [it.querySelector('label').textContent, it.querySelector('.rows').textContent])")
    if len(some) > 1 and len(some) == len([value for value in values if value is not None]):
        checks.equal(f"{name}: each once", (came, "Each value occurs once." in browser.text(".profile")), ([], True))
    elif came:
        words = {None: "no value", "": "empty text"}
        wanted = [[words.get(value, shown(value)), f"{count:,}"] for value, count in counts.most_common()]
        checks.equal(f"{name}: the commonest values", came, wanted[:SHOWN_VALUES])


def tries_histogram(browser, checks, name, table, column, some):
    bars = browser.script("return [...document.querySelectorAll('.bin')].map(it => it.ariaLabel)")
    has_bars = column.type in (*NUMBERS, "date") and len(set(some)) > FEW
    checks.equal(f"{name}: has a histogram", bars != [], has_bars)
    if has_bars:
        counts = [int(bar.rsplit(": ", 1)[1].split(" ")[0].replace(",", "")) for bar in bars]
        checks.equal(f"{name}: all values are in bars", sum(counts), len(some))
        at = max(range(len(counts)), key=counts.__getitem__)
        browser.script("document.querySelectorAll('.bin')[arguments[0]].dispatchEvent(new KeyboardEvent('keydown', { key: 'Enter', bubbles: true }))", at)
        browser.settle()
        low, high = [type(some[0])(limit) if column.type != "date" else type(some[0]).fromisoformat(limit) for limit in bars[at].rsplit(": ", 1)[0].split(" to below ")]
        shows_rows(browser, checks, f"{name}: the rows of a bar", kept(table, [(column, "span", [low, high])]))


def tries_boxes(browser, checks, table):
    """Boxes of values: ticked they are joined by `or`, and the panel stays open; the list is about the rows that other filters leave."""
    column = next((it for it in table.columns if it.type in ("string", "boolean") and nameable(it)
                   and 1 < len({row[table.place(it.name)] for row in table.rows}) < len(table.rows)), None)
    if column is None:
        return
    browser.open(f"#table={table.name}")
    browser.script("document.querySelector(arguments[0]).click()", f"[data-menu={column.name}]")
    browser.settle()
    common = [value for value, _ in Counter(row[table.place(column.name)] for row in table.rows).most_common()]
    for count in (1, 2):
        browser.script("document.querySelectorAll('.values input')[arguments[0]].click()", count - 1)
        browser.settle()
        shows_rows(browser, checks, f"{table.name}: {count} boxes of {column.name}", kept(table, [(column, "is", common[:count])]))
        checks.equal(f"{table.name}: {count} boxes are ticked", browser.script("return [...document.querySelectorAll('.values input')].filter(it => it.checked).length"), count)
    browser.script("document.querySelectorAll('.values input')[0].click()")
    browser.settle()
    shows_rows(browser, checks, f"{table.name}: one box is cleared", kept(table, [(column, "is", common[1:2])]))


def group_rows(browser):
    return browser.script("""return [...document.querySelectorAll('.groups tbody tr')].map(row => [...row.querySelectorAll('th, td:not(.bar-cell)')].map(cell =>
        cell.matches('td.is-null') ? '[null]' : cell.matches('td.is-empty') ? '[empty text]' : cell.textContent.replace('no value', '[null]').replace('empty text', '[empty text]')))""")


def shows_groups(browser, checks, name, groups, method):
    came = group_rows(browser)
    if method == "mean":
        checks.equal(f"{name}: groups", [row[:-1] for row in came], [row[:-1] for row in all_shown_counts(groups, 1)])
        checks.true(f"{name}: means", all(is_near(row[-1], group[-1]) for row, group in zip(came, groups)))
    else:
        checks.equal(f"{name}: groups", came, all_shown_counts(groups, 0 if method == "count" else 1))
    checks.equal(f"{name}: how many", browser.text("#groups-view [role=status]"), counted(len(groups), "group"))
    bars = browser.script("return [...document.querySelectorAll('.group-bar rect')].map(it => parseFloat(it.getAttribute('width')))")
    if bars:
        lengths = [abs(float(group[-1] or 0)) for group in groups]
        most = max(lengths) or 1
        checks.true(f"{name}: bars", len(bars) == len(lengths) and all(abs(bar - 100 * length / most) < 0.01 for bar, length in zip(bars, lengths)))


def all_shown_counts(groups, more):
    """Groups as the page shows them: the number of rows has signs between thousands if it is beside another number."""
    return [[shown(value) if at != len(row) - 2 or not more else f"{value:,}" for at, value in enumerate(row)] for row in groups]


def tries_groups(browser, checks, table):
    columns = table.columns
    cases = [([column], "count", None) for column in columns]
    for place, (method, types) in enumerate(METHODS.items()):
        fitting = [column for column in columns if method != "count" and (types is None or column.type in types) and (method != "mean" or nameable(column))]
        cases += [([columns[(place + at) % len(columns)]], method, of) for at, of in enumerate([*fitting[:1], *fitting[-1:]], 1)]
    cases += [([columns[0], columns[-1]], "count", None), ([columns[-1], columns[1 if len(columns) > 2 else 0]], "count", None)]
    browser.open(f"#table={table.name}")
    for by, method, of in cases:
        browser.goes(f"#table={table.name}&view=groups&by={','.join(it.name for it in by)}" + (f"&method={method}&of={of.name}" if of else ""))
        name = f"{table.name}: groups by {[it.name for it in by]}, {method} {of.name if of else ''}"
        shows_groups(browser, checks, name, groups_of(table, by, method, of), method)
        heads = [it.title for it in by] + (["rows", f"{WORDS[method]} of {of.title}"] if of else ["rows"])
        checks.equal(f"{name}: headers", browser.script("return [...document.querySelectorAll('.groups thead th')].map(it => it.textContent)"), heads)
    for day in [column for column in columns if column.type == "date"]:
        for step, signs in (("month", 7), ("year", 4)):
            of = next((column for column in columns if column.type == "decimal"), None)
            for method in ["count"] + (["mean", "sum", "min"] if of else []):
                browser.goes(f"#table={table.name}&view=groups&by={day.name}&step={step}" + (f"&method={method}&of={of.name}" if method != "count" else ""))
                shows_groups(browser, checks, f"{table.name}: {method} by {step}", groups_of(table, [day], method, of, signs), method)
    tries_choices(browser, checks, table)


def tries_choices(browser, checks, table):
    """Groups by the choices above them, and the rows of a group by its link."""
    first = next(column for column in table.columns if nameable(column) and not column.is_key)
    browser.goes(f"#table={table.name}")
    browser.click("[data-view=groups]")
    browser.choose("#group-by", first.name)
    browser.choose("#group-method", "max")
    browser.choose("#group-of", table.columns[-1].name)
    shows_groups(browser, checks, f"{table.name}: by choices", groups_of(table, [first], "max", table.columns[-1]), "max")
    browser.choose("#group-method", "count")
    groups = groups_of(table, [first], "count", None)
    for at, group in enumerate(groups[:4]):
        browser.script("document.querySelectorAll('.groups tbody tr')[arguments[0]].querySelector('a').click()", at)
        browser.settle()
        shows_rows(browser, checks, f"{table.name}: rows of the group {group[0]}", kept(table, [(first, "is", [group[0]])]))
        browser.driver.back()
        browser.settle()


def csv_rows(text):
    """The rows of a reply in CSV as the page would show them: null is nothing, and an empty text two quotes."""
    rows, row, at = [], [], 0
    while at < len(text):
        if text[at] == '"':
            end = at + 1
            while text[end] == '"' and text[end:end + 2] == '""' or text[end] != '"':
                end += 2 if text[end] == '"' else 1
            field, at = text[at + 1:end].replace('""', '"') or "[empty text]", end + 1
        else:
            end = min(place for place in (text.find(",", at), text.find("\r\n", at)) if place >= 0)
            field, at = text[at:end] or "[null]", end
        row.append(field)
        if text[at] == ",":
            at += 1
        else:
            rows.append(row)
            row, at = [], at + 2
    return rows


def json_rows(body):
    rows = json.loads(body, parse_int=str, parse_float=str)["value"]
    return [["[null]" if value is None else str(value).lower() if isinstance(value, bool) else value or "[empty text]" for value in row.values()] for row in rows]


def runs(browser, program, text, folder):
    """What a program prints that is run as it is shown; but curl alone goes through nginx."""
    direct = text.replace(browser.root, browser.service)
    port = browser.root.rsplit(":", 1)[1].rstrip("/")
    with open(os.path.join(folder, ".curlrc"), "w", encoding="utf-8") as file:
        file.write(f"insecure\nresolve = data.example.org:{port}:127.0.0.1\n")
    words = {"curl": ["sh", "-c", text], "JavaScript": ["node", "--input-type=module", "-e", direct], "Python": ["/usr/bin/python3", "-c", direct], "R": ["Rscript", "-e", direct]}[program]
    done = subprocess.run(words, cwd=folder, env={**os.environ, "CURL_HOME": folder}, capture_output=True, text=True, timeout=60)
    return done.stdout if done.returncode == 0 else done.stderr


def has_program(program):
    if program == "Python":
        return subprocess.run(["/usr/bin/python3", "-c", "import pandas"], capture_output=True).returncode == 0
    if program == "R":
        return shutil.which("Rscript") is not None and subprocess.run(["Rscript", "-e", "cat(1)"], capture_output=True).returncode == 0
    return shutil.which({"curl": "curl", "JavaScript": "node"}[program]) is not None


def tries_use(browser, checks, table):
    """Each file, address and program gives what the page shows; a copy is that text; a download is that file."""
    place = len(table.columns) - 1
    first, column = table.columns[0], table.columns[place]
    chips = [(first, "not", [None])]
    ordered = in_order(kept(table, chips), place, True)
    browser.open(f"{address(table, chips)}&order={column.name}%20desc")
    browser.click("[data-view=use]")
    links = browser.script("return [...document.querySelectorAll('.file')].map(it => [it.href, it.download])")
    checks.equal(f"{table.name}: the names of files", [name for _, name in links], [f"{table.name}.csv", f"{table.name}.json"])
    checks.equal(f"{table.name}: all rows as CSV", csv_rows(fetched(browser, links[0][0])[2].decode())[1:], all_shown(ordered))
    checks.equal(f"{table.name}: all rows as JSON", json_rows(fetched(browser, links[1][0])[2]), all_shown(ordered))
    code = dict(browser.script("return [...document.querySelectorAll('.code')].map(it => [it.querySelector('h3').textContent, it.querySelector('pre').textContent])"))
    checks.equal(f"{table.name}: the address", code["Address"], links[1][0])
    checks.equal(f"{table.name}: a link to the rows", code["Link"], browser.driver.current_url.replace("&view=use", "&view=rows"))
    for program in filter(has_program, ("curl", "JavaScript", "Python", "R")):
        printed = runs(browser, program, code[program], browser.downloads)
        if program == "curl":
            with open(os.path.join(browser.downloads, f"{table.name}.csv"), encoding="utf-8", newline="") as file:
                checks.equal(f"{table.name}: curl {printed}", csv_rows(file.read())[1:], all_shown(ordered))
            os.remove(file.name)
        elif program == "JavaScript":
            checks.equal(f"{table.name}: JavaScript", printed, f"{len(ordered)}\n")
        else:
            checks.true(f"{table.name}: {program}: {printed}", table.columns[0].name in printed)
    browser.click("[aria-label='Copy: curl']")
    copied = browser.driver.execute_async_script("navigator.clipboard.readText().then(arguments[0], error => arguments[0](String(error)))")
    checks.equal(f"{table.name}: copied", copied, code["curl"])
    browser.click(".file")
    path = os.path.join(browser.downloads, f"{table.name}.csv")
    for _ in range(100):
        if os.path.exists(path):
            break
        time.sleep(0.05)
    with open(path, encoding="utf-8", newline="") as file:
        checks.equal(f"{table.name}: the file that is downloaded", csv_rows(file.read())[1:], all_shown(ordered))
    browser.goes(f"#table={table.name}&view=use&by={first.name}")
    link = browser.script("return document.querySelector('.file').href")
    checks.equal(f"{table.name}: the groups as CSV", csv_rows(fetched(browser, link)[2].decode())[1:], all_shown(groups_of(table, [first], "count", None)))
