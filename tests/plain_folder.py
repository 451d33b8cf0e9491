"""Files of a table read plainly: the records of a text (RFC 4180, section 2), the annotated table of typed columns (Tabular Data on the Web), or the first fault.

It works on whole texts: a text is in the grammar or not, and the place of a fault is the length of the longest front that some text in the grammar begins with. It has
no states and no steps, and shares nothing with the program.
"""

import bisect
import re
from datetime import date

MARK = b"\xef\xbb\xbf"
FIELD = rb'"(?:[^"]|"")*"|[^",\r\n]*'
RECORD = rb"(?:" + FIELD + rb")(?:,(?:" + FIELD + rb"))*"
TEXT = re.compile(rb"(?:" + RECORD + rb"\r?\n)*(?:" + RECORD + rb")?")
ENDED_RECORD = re.compile(rb"(" + RECORD + rb")(?:\r?\n|\Z)")
FIELD_BEHIND_A_COMMA = re.compile(rb",(" + FIELD + rb")")


class Refused(Exception):
    """The cause by which a file is refused."""


def is_viable(front):
    """Whether a text in the grammar begins so: if any does, then this one, or with a double quote or an LF more."""
    return any(TEXT.fullmatch(front + more) for more in (b"", b'"', b"\n"))


def text_fault(text):
    """The cause and the place of the fault of a text that is not in the grammar."""
    at = bisect.bisect_left(range(len(text) + 1), True, key=lambda length: not is_viable(text[:length])) - 1
    if at == len(text):
        return "Unfinished", at
    if text[:at].endswith(b"\r"):
        return "BareCr", at
    return ("StrayQuote" if text[at:].startswith(b'"') else "AfterQuote"), at


def content(field):
    """What a field says: one in double quotes without them, each pair inside made one."""
    if field.startswith(b'"'):
        return field[1:-1].replace(b'""', b'"').decode()
    return field.decode()


def records(file):
    """The records of a file, the header first, each as what its fields say."""
    try:
        file.decode()
    except UnicodeDecodeError as error:
        raise Refused(f"NotUtf8 at {error.start}") from None
    text = file.removeprefix(MARK)
    if not TEXT.fullmatch(text):
        cause, at = text_fault(text)
        raise Refused(f"{cause} at {at + len(file) - len(text)}")
    found = [[content(field) for field in FIELD_BEHIND_A_COMMA.findall(b"," + record[1])] for record in ENDED_RECORD.finditer(text) if record[0]]
    if not found:
        raise Refused("NoHeader")
    for row, fields in enumerate(found[1:]):
        if len(fields) != len(found[0]):
            raise Refused(f"Width row {row}")
    return found


def whole_number(text):
    if not re.fullmatch(r"[+-]?[0-9]+", text):
        raise Refused("NotInteger")
    if not -2**63 <= int(text) < 2**63:
        raise Refused("OutOfRange")
    return int(text)


def truth(text):
    if text not in ("true", "1", "false", "0"):
        raise Refused("NotBoolean")
    return text in ("true", "1")


def day(text):
    if not re.fullmatch(r"[0-9]{4}-[0-9]{2}-[0-9]{2}", text):
        raise Refused("NotDate")
    try:
        return date(*map(int, text.split("-"))).isoformat()
    except ValueError:
        raise Refused("NotDate") from None


READERS = {"integer": whole_number, "boolean": truth, "date": day}


def value(datatype, null, text):
    """The value of a cell: white space is made even, but in a text."""
    if datatype == "string":
        return None if text == null else text
    even = " ".join(re.split(r"[ \t\r\n]+", text)).strip(" ")
    return None if even == null else READERS[datatype](even)


def table(columns, key, file, null=""):
    """The rows of a file: of columns by their names and datatypes, with the places of its key's columns."""
    header, *rows = records(file)
    for col in range(max(len(header), len(columns))):
        if header[col:col + 1] != [name for name, _ in columns[col:col + 1]]:
            raise Refused(f"Header col {col}")
    values = []
    for row, fields in enumerate(rows):
        values.append([])
        for col, ((_, datatype), text) in enumerate(zip(columns, fields)):
            try:
                values[-1].append(value(datatype, null, text))
            except Refused as cause:
                raise Refused(f"Cell row {row} col {col} {cause}") from None
    keys = [tuple(row[col] for col in key) for row in values]
    for row, parts in enumerate(keys):
        if None in parts:
            raise Refused(f"KeyNull row {row}")
    for row, parts in enumerate(keys):
        if key and parts in keys[:row]:
            raise Refused(f"KeyTwice row {row}")
    return values
