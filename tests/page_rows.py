"""The rows of an example as its files have them, and what is left of them by filters, orders and groups: what the page has to show."""

import csv
import json
import os
from datetime import date, datetime
from decimal import Decimal
from typing import NamedTuple

FORMATS = {"dd.MM.yyyy": "%d.%m.%Y", "yyyy-MM-dd": "%Y-%m-%d"}
NUMBERS = ("integer", "decimal")


class Column(NamedTuple):
    """A column, as the metadata has it."""

    name: str
    title: str
    type: str
    format: str
    nulls: list
    is_key: bool


class Table(NamedTuple):
    """A table: its name, its columns, and its rows as lists of values."""

    name: str
    columns: list
    rows: list

    def place(self, name):
        return [column.name for column in self.columns].index(name)


def value_of(column, text):
    if text in column.nulls:
        return None
    if column.type == "boolean":
        return text in ("true", "1", column.format.partition("|")[0])
    if column.type == "date":
        return datetime.strptime(text, FORMATS[column.format or "yyyy-MM-dd"]).date()
    return {"integer": int, "decimal": Decimal, "string": str}[column.type](text)


def title_of(column):
    titles = column.get("titles", column["name"])
    return titles["en"] if isinstance(titles, dict) else titles


def column_of(column, table):
    datatype = column.get("datatype", "string")
    base, form = (datatype["base"], datatype["format"]) if isinstance(datatype, dict) else (datatype, "")
    nulls = column.get("null", table.get("null", ""))
    keys = table["tableSchema"].get("primaryKey", [])
    return Column(column["name"], title_of(column), base, form, nulls if isinstance(nulls, list) else [nulls], column["name"] in ([keys] if isinstance(keys, str) else keys))


def tables_of(folder):
    with open(os.path.join(folder, "csv-metadata.json"), encoding="utf-8") as file:
        metadata = json.load(file)
    found = []
    for table in metadata["tables"]:
        columns = [column_of(column, table) for column in table["tableSchema"]["columns"]]
        with open(os.path.join(folder, table["url"]), encoding="utf-8", newline="") as file:
            rows = list(csv.reader(file))[1:]
        found.append(Table(table["url"].removesuffix(".csv"), columns, [[value_of(column, text) for column, text in zip(columns, row)] for row in rows]))
    return found


def text_of(value):
    """A value other than `null` as replies have it."""
    if isinstance(value, bool):
        return str(value).lower()
    if isinstance(value, Decimal):
        text = f"{value:f}"
        return text.rstrip("0").rstrip(".") if "." in text else text
    return value.isoformat() if isinstance(value, date) else str(value)


def shown(value):
    """A value as the page shows it; what style marks is in brackets."""
    if value is None:
        return "[null]"
    return text_of(value) or "[empty text]"


def all_shown(rows):
    return [[shown(value) for value in row] for row in rows]


def literal(column, value):
    return "'" + value.replace("'", "''") + "'" if column.type == "string" else text_of(value)


# Each test of a chip: whether a value passes with a list of values, and how $filter says it.
TESTS = {
    "is": (lambda value, others: value in others, lambda name, literals: f"{name} eq {literals[0]}" if len(literals) == 1 else f"{name} in ({','.join(literals)})"),
    "not": (lambda value, others: value not in others, lambda name, literals: f"{name} ne {literals[0]}" if len(literals) == 1 else f"not ({name} in ({','.join(literals)}))"),
    "contains": (lambda value, others: others[0] in value, lambda name, literals: f"contains({name},{literals[0]})"),
    "lacks": (lambda value, others: others[0] not in value, lambda name, literals: f"not (contains({name},{literals[0]}))"),
    "begins": (lambda value, others: value.startswith(others[0]), lambda name, literals: f"startswith({name},{literals[0]})"),
    "ends": (lambda value, others: value.endswith(others[0]), lambda name, literals: f"endswith({name},{literals[0]})"),
    "from": (lambda value, others: value >= others[0], lambda name, literals: f"{name} ge {literals[0]}"),
    "to": (lambda value, others: value <= others[0], lambda name, literals: f"{name} le {literals[0]}"),
    "range": (lambda value, others: others[0] <= value <= others[1], lambda name, literals: f"{name} ge {literals[0]} and {name} le {literals[1]}"),
    "span": (lambda value, others: others[0] <= value < others[1], lambda name, literals: f"{name} ge {literals[0]} and {name} lt {literals[1]}"),
}


def passes(test, value, others):
    """True if a value passes a test of a chip: `null` equals `null` alone, and differs from all else; of no other test it is true."""
    if test in ("is", "not"):
        return (value in others) == (test == "is")
    return value is not None and TESTS[test][0](value, others)


def kept(table, chips):
    """The rows that meet chips, each a column, a test and a list of values."""
    return [row for row in table.rows if all(passes(test, row[table.place(column.name)], others) for column, test, others in chips)]


def literal(column, value):
    """A value as $filter has it; a decimal always has a point."""
    if value is None:
        return "null"
    if column.type == "string":
        return "'" + value.replace("'", "''") + "'"
    text = text_of(value)
    return f"{text}.0" if column.type == "decimal" and "." not in text else text


def filter_text(chips):
    return " and ".join(TESTS[test][1](column.name, [literal(column, other) for other in others]) for column, test, others in chips)


def spellings(text):
    """The spellings that a search looks for."""
    return [text, text.lower(), text.upper(), text.title()]


def searched(table, text):
    """The rows that have a text in a column of texts, in any of its spellings."""
    places = [place for place, column in enumerate(table.columns) if column.type == "string" and nameable(column)]
    return [row for row in table.rows if any(row[place] is not None and spelling in row[place] for place in places for spelling in spellings(text))]


def nameable(column):
    """True if an expression can name a column: `not` and the like are words of expressions."""
    return column.name not in ("true", "false", "null", "not")


def in_order(rows, place, descending):
    """`null` is the least; rows that are equal stay as they were."""
    ordered = sorted((row for row in rows if row[place] is not None), key=lambda row: row[place], reverse=descending)
    none = [row for row in rows if row[place] is None]
    return ordered + none if descending else none + ordered


def computed(method, values):
    """What a method makes of the values of a group."""
    some = [value for value in values if value is not None]
    if method == "countdistinct":
        return len(set(some))
    if method == "mean":
        return Decimal(sum(some)) / len(some)
    return {"sum": sum, "min": min, "max": max}[method](some) if some else None


def fronts_of(values, signs):
    return tuple(value.isoformat()[:signs] if value is not None else None for value in values)


def groups_of(table, by, method, of, signs=0):
    """The groups as the page shows them: their values, their numbers of rows, and what a method makes of a column. Days are in their order and may be cut to their first
    signs; other groups have the greatest first. A mean is that of the rows with a value."""
    places = [table.place(column.name) for column in by]
    groups = {}
    for row in table.rows:
        if method == "mean" and row[table.place(of.name)] is None:
            continue
        values = tuple(row[place] for place in places)
        groups.setdefault(fronts_of(values, signs) if signs else values, []).append(row)
    found = []
    for values, rows in groups.items():
        more = [] if method == "count" else [computed(method, [row[table.place(of.name)] for row in rows])]
        found.append([*values, len(rows), *more])
    if by[0].type == "date":
        return in_order(found, 0, False)
    return in_order(in_order(found, len(by), True), len(by) + 1, True) if method == "mean" else in_order(found, -1 % len(found[0]) if found else 0, True)
