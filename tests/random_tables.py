"""Random tables, and how a value is written in a file, in JSON and in CSV.

Null is None, a decimal is a fraction, a date is a date. A row is a mapping from the names of columns to values.
"""

import json
import os
from datetime import date, timedelta
from fractions import Fraction

DATATYPES = {"Integer": "integer", "Boolean": "boolean", "Date": "date", "Decimal": "decimal", "Text": "string"}
# What stands for null where the empty text is a text.
NOT_GIVEN = "NA"
# Names of columns: many are words of the language of queries too, some differ in case alone.
NAMES = ["A", "a", "b_2", "Name", "Kind", "Price", "Open", "Since", "Pop", "and", "Or", "asc", "DESC", "eq", "in", "contains", "length", "with", "as", "sum", "aggregate", "filter", "count",
         "true", "not", "null", "value", "select", "E1", "N"]


class Table:
    """A table: the types of its columns by their names, the names of its key's columns, its rows."""

    def __init__(self, columns, key, rows, empty_texts=()):
        self.columns = columns
        self.key = key
        self.rows = rows
        # the columns of texts in which the empty text is a text
        self.empty_texts = empty_texts


def random_value(draw, kind, nulls):
    if draw.random() < nulls:
        return None
    if kind == "Integer":
        return draw.choice([0, 1, 2, 3, 7, -1, -5, 10, draw.randrange(-100, 100), draw.randrange(-2**31, 2**31), draw.randrange(-2**63, 2**63), 2**63 - 1, -2**63])
    if kind == "Boolean":
        return draw.random() < 0.5
    if kind == "Date":
        return draw.choice([date(1, 1, 1), date(9999, 12, 31), date(2024, 2, 29), date(2000, 1, 1) + timedelta(days=draw.randrange(9000))])
    if kind == "Decimal":
        return Fraction(draw.choice([0, 1, 1_000_000, 2_500_000, -1, draw.randrange(-10**8, 10**8), draw.randrange(-2**63, 2**63)]), 10**6)
    return "".join(draw.choices("abO'é😀 ,\"\n", k=draw.randrange(1, 5)))


def column_of_values(draw, kind, count, nulls, empty):
    """The values of a column: a few that come again and again, or as many as there are rows, or small whole numbers."""
    if kind == "Integer" and draw.random() < 0.3:
        return [None if draw.random() < nulls else draw.randrange(-50, 50) for _ in range(count)]
    pool = draw.choice([1, 2, 4, count, count])
    values = [random_value(draw, kind, 0) for _ in range(pool)] + ([""] if empty else [])
    if kind == "Text" and draw.random() < 0.3:
        values += ["city", "City", "O'Hara", "x\r\ny", "\\\t\x01"]
    return [None if draw.random() < nulls else draw.choice(values) for _ in range(count)]


def with_distinct_keys(rows, key):
    """The rows whose values in some columns are no null and were not there before."""
    seen = set()
    for row in rows:
        values = tuple(row[name] for name in key)
        if None not in values and values not in seen:
            seen.add(values)
            yield row


def random_table(draw, count, most_columns=8):
    """A table of so many rows, or fewer where keys come twice; a column Id counts its rows, from 1."""
    names = draw.sample(NAMES, draw.randrange(1, most_columns))
    columns = {"Id": "Integer"} | {name: draw.choice(["Integer", "Integer", "Decimal", "Text", "Text", "Boolean", "Date"]) for name in names}
    texts = [name for name, kind in columns.items() if kind == "Text"]
    empty_texts = {name for name in texts if draw.random() < 0.5}
    values = {name: column_of_values(draw, kind, count, draw.choice([0, 0.1, 0.3, 0.3, 1]), name in empty_texts) for name, kind in columns.items()}
    values["Id"] = list(range(1, count + 1))
    rows = [dict(zip(columns, row)) for row in zip(*(values[name] for name in columns))]
    key = draw.choice([[], ["Id"], ["Id"], ["Id", names[0]], names[:2], names[-1:], [names[0], "Id"]])
    if key and len(set(key)) == len(key):
        rows = list(with_distinct_keys(rows, key))
    else:
        key = []
    return Table(columns, key, rows, empty_texts)


# ---- how a value is written


def millionths_text(value):
    whole, part = divmod(abs(int(value * 10**6)), 10**6)
    return ("-" if value < 0 else "") + str(whole) + (f".{part:06}".rstrip("0") if part else "")


def field(draw, kind, value, null=""):
    if value is None:
        return null
    if kind == "Text":
        return '"' + value.replace('"', '""') + '"' if draw.random() < 0.3 or any(sign in value for sign in '",\r\n') else value
    if kind == "Boolean":
        return draw.choice(["true", "1"]) if value else draw.choice(["false", "0"])
    return millionths_text(value) if kind == "Decimal" else str(value)


def json_value(value):
    if value is None or isinstance(value, (bool, int)):
        return json.dumps(value)
    if isinstance(value, Fraction):
        return millionths_text(value)
    if isinstance(value, date):
        return f'"{value.isoformat()}"'
    return json.dumps(value, ensure_ascii=False)


def csv_value(value):
    if value is None:
        return ""
    if isinstance(value, str):
        return '"' + value.replace('"', '""') + '"' if value == "" or any(sign in value for sign in '",\r\n') else value
    return json_value(value).strip('"')


def column_text(table, name):
    """What the metadata says of a column."""
    said = {"name": name, "datatype": DATATYPES[table.columns[name]]}
    return said | ({"null": NOT_GIVEN} if name in table.empty_texts else {})


def write_tables(draw, folder, tables):
    """Writes a folder of tables by their names."""
    said = []
    for name, table in tables.items():
        with open(os.path.join(folder, name + ".csv"), "w", encoding="utf-8", newline="") as file:
            file.write(",".join(table.columns) + "\n")
            for row in table.rows:
                fields = (field(draw, kind, row[column], NOT_GIVEN if column in table.empty_texts else "") for column, kind in table.columns.items())
                file.write(",".join(fields) + draw.choice(["\n", "\r\n"]))
        schema = {"columns": [column_text(table, column) for column in table.columns]} | ({"primaryKey": table.key} if table.key else {})
        said.append({"url": name + ".csv", "tableSchema": schema})
    with open(os.path.join(folder, "csv-metadata.json"), "w", encoding="utf-8") as file:
        json.dump({"tables": said}, file)
