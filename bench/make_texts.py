"""Writes a folder with one table of texts, the same bytes at each run: texts.csv, of so many bytes or up to 1,000 records more, and its metadata.

Ten columns; a quarter of the fields is quoted, and half of these have a doubled quote, a comma or a line break inside. Records are drawn at
random from a pool of 20,000, by a fixed seed.
"""

import json
import random
import sys

COLUMNS = 10
POOL = 20_000
LETTERS = "abcdefghijklmnopqrstuvwxyzABCDEFGHIJKLMNOPQRSTUVWXYZ0123456789 .-/éß"
TELLING = ['""', ",", "\n"]


def field(draw):
    text = "".join(draw.choices(LETTERS, k=draw.randrange(1, 16)))
    if draw.randrange(4) != 0:
        return text
    if draw.randrange(2) == 0:
        cut = draw.randrange(len(text) + 1)
        text = text[:cut] + draw.choice(TELLING) + text[cut:]
    return f'"{text}"'


def main():
    folder, size = sys.argv[1], int(sys.argv[2])
    draw = random.Random(4180)
    names = [f"c{number}" for number in range(COLUMNS)]
    pool = [(",".join(field(draw) for _ in names) + "\n").encode() for _ in range(POOL)]
    with open(f"{folder}/texts.csv", "wb") as file:
        written = file.write((",".join(names) + "\n").encode())
        while written < size:
            written += file.write(b"".join(draw.choices(pool, k=1_000)))
    columns = [{"name": name} for name in names]
    with open(f"{folder}/csv-metadata.json", "w") as file:
        json.dump({"url": "texts.csv", "tableSchema": {"columns": columns}}, file)


main()
