"""Writes a folder with one typed table, the same bytes at each run: typed.csv, of so many bytes or up to 1,000 records more, and its metadata.

Ten columns: four of integers, of which the first counts the rows and is the key, one of truth values, one of dates, one of decimals and three of texts, of which
a quarter is quoted. A tenth of the fields of one integer column, of the dates and of the decimals is null. By a fixed seed.
"""

import json
import random
import sys

POOL = 20_000
LETTERS = "abcdefghijklmnopqrstuvwxyzABCDEFGHIJKLMNOPQRSTUVWXYZ0123456789 .-/éß"
COLUMNS = [
    ("Id", "integer"), ("A", "integer"), ("B", "integer"), ("Pop", "integer"), ("Open", "boolean"),
    ("Since", "date"), ("Price", "decimal"), ("Name", "string"), ("Place", "string"), ("Kind", "string"),
]


def text(draw):
    letters = "".join(draw.choices(LETTERS, k=draw.randrange(1, 16)))
    if draw.randrange(4) != 0:
        return letters
    return '"' + letters + draw.choice(['""', ",", "", ""]) + '"'


def or_null(draw, field):
    return "" if draw.randrange(10) == 0 else field


def rest_of_record(draw):
    date = f"{draw.randrange(1900, 2030)}-{draw.randrange(1, 13):02}-{draw.randrange(1, 29):02}"
    return ",".join([
        str(draw.randrange(-1_000_000, 1_000_000)), str(draw.randrange(100)), or_null(draw, str(draw.randrange(1_000_000))),
        draw.choice(["true", "false"]), or_null(draw, date), or_null(draw, f"{draw.randrange(-99_999, 99_999)}.{draw.randrange(100):02}"),
        text(draw), text(draw), draw.choice(["city", "town", "village"]),
    ]) + "\n"


def main():
    folder, size = sys.argv[1], int(sys.argv[2])
    rows = int(sys.argv[3]) if len(sys.argv) > 3 else None
    draw = random.Random(4180)
    pool = [rest_of_record(draw) for _ in range(POOL)]
    number = 0
    with open(f"{folder}/typed.csv", "wb") as file:
        written = file.write((",".join(name for name, _ in COLUMNS) + "\n").encode())
        while number < rows if rows is not None else written < size:
            count = 1_000 if rows is None else min(1_000, rows - number)
            records = draw.choices(pool, k=count)
            written += file.write("".join(f"{number + at},{record}" for at, record in enumerate(records, 1)).encode())
            number += count
    columns = [{"name": name, "datatype": datatype} for name, datatype in COLUMNS]
    with open(f"{folder}/csv-metadata.json", "w") as file:
        json.dump({"url": "typed.csv", "tableSchema": {"columns": columns, "primaryKey": "Id"}}, file)


main()
