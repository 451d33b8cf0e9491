"""Queries read plainly: the whole reply to a request, as the standards have it (OData 4.01 Part 2, URL Conventions; OData Data Aggregation 4.0, section 3).

It works on whole texts, whole trees and whole lists, and shares nothing with the program: the grammar stands below as a text, and every way in which tokens can be
of it is tried. Conditions are typed and evaluated by plain_filter.py, whose trees these are.
"""

import re
from datetime import date
from fractions import Fraction

import replies
from plain_filter import Fault, Refused, bounded, check_condition, kept, outcome, small, type_of
from random_tables import csv_value, json_value
from replies import CSV, JSON, PLAIN

SERVED = ["apply", "filter", "count", "orderby", "skip", "top", "select", "format"]
NOT_SERVED = ["expand", "search", "compute", "levels", "skiptoken", "deltatoken", "schemaversion", "id", "index"]
MOST_TRANSFORMATIONS = 8

# The grammar: {..} any number of times, [..] once or not at all. Words are read in any case.
GRAMMAR = """
or      = and { "or" and }
and     = eq { "and" eq }
eq      = rel { ( "eq" | "ne" ) rel }
rel     = add { ( "gt" | "ge" | "lt" | "le" ) add }
add     = mul { ( "add" | "sub" ) mul }
mul     = unary { ( "mul" | "div" | "mod" ) unary }
unary   = ( "-" | "not" ) unary | member
member  = primary [ "in" "(" literal { "," literal } ")" ]
primary = "(" or ")" | call | plain | Name
call    = fun2 "(" or "," or ")" | fun1 "(" or ")"
fun2    = "contains" | "startswith" | "endswith" | "indexof" | "concat"
fun1    = "length" | "year" | "month" | "day"
plain   = Number | Decimal | Text | Date | "true" | "false" | "null"
literal = plain | "-" Number | "-" Decimal
orderby = order { "," order }
order   = or [ "asc" | "desc" ]
select  = ( Word | "*" ) { "," ( Word | "*" ) }
apply   = trans { "/" trans }
trans   = "filter" "(" or ")" | aggr | "groupby" "(" "(" Word { "," Word } ")" [ "," aggr ] ")"
aggr    = "aggregate" "(" item { "," item } ")"
item    = Word "with" method "as" Word | "$count" "as" Word
method  = "sum" | "min" | "max" | "countdistinct"
key     = literal | named { "," named }
named   = Word "=" literal
"""
BINARY = ("or", "and", "eq", "rel", "add", "mul")


# ---- the target


def decoded(text):
    if re.search("%(?![0-9A-Fa-f]{2})", text):
        raise Refused("BadEscape")
    try:
        return re.sub(b"%(..)", lambda found: bytes([int(found[1], 16)]), text.encode()).decode()
    except UnicodeDecodeError:
        raise Refused("BadUtf8") from None


def in_small_letters(text):
    return "".join(sign.lower() if sign.isascii() else sign for sign in text)


def option_of(part, options):
    """Adds one option of the query to those before it."""
    name, _, value = part.partition("=")
    name = decoded(name)
    plain = in_small_letters(name).removeprefix("$")
    if plain in NOT_SERVED or name.startswith("@"):
        raise Refused("NotServed")
    if plain not in SERVED:
        if name.startswith("$"):
            raise Refused("UnknownOption")
        return
    value = decoded(value)
    if plain in options:
        raise Refused("OptionTwice")
    options[plain] = value


def read_target(target):
    """The segments of the path, and the options."""
    if target[:7].lower() == "http://":
        target = re.sub("^[^/?]*", "", target[7:])
        target = target if target.startswith("/") else "/" + target
    if not target.startswith("/"):
        raise Refused("BadTarget")
    path, _, query = target.partition("?")
    segments = [decoded(segment) for segment in path[1:].split("/")]
    options = {}
    for part in query.split("&"):
        if part:
            option_of(part, options)
    return segments, options


def resource(segments, tables):
    """The table, the text of the key if there is one, and whether the rows are counted; no table for the service document."""
    if segments == [""]:
        return None, None, False
    for place, segment in enumerate(segments):
        if segment.startswith("$") and not (segment == "$count" and place == 1 and len(segments) == 2 and "(" not in segments[0]):
            raise Refused("NotServed")
    counting = segments[-1] == "$count"
    if len(segments) != 1 + counting:
        raise Refused("NotFound")
    name, opened, key = segments[0].partition("(")
    if opened and not key.endswith(")"):
        raise Refused("NotFound")
    if name not in tables:
        raise Refused("UnknownSet")
    return tables[name], key[:-1] if opened else None, counting


# ---- tokens


KINDS = [
    ("Text", re.compile(r"'(?:[^']|'')*'(?!')")),
    ("Date", re.compile(r"[0-9]{4}-[0-9]{2}-[0-9]{2}(?![A-Za-z0-9_])")),
    ("Decimal", re.compile(r"[0-9]+\.[0-9]+")),
    ("Number", re.compile(r"[0-9]+")),
    ("Word", re.compile(r"[A-Za-z_][A-Za-z0-9_]*")),
    ("Dollar", re.compile(r"\$[A-Za-z_][A-Za-z0-9_]*")),
    ("Sign", re.compile(r"[(),/*=-]")),
]


def is_bad(kind, text, behind):
    if kind == "Date":
        try:
            date.fromisoformat(text)
        except ValueError:
            return True
    if kind not in ("Number", "Decimal"):
        return False
    whole, _, part = text.partition(".")
    return len(whole) > (32 if part else 38) or len(part) > 6 or re.match("[A-Za-z_]", behind) is not None


def tokens_of(text):
    """The tokens of a text, each a kind and a text."""
    tokens, at, bad = [], 0, False
    while not bad:
        at += len(text[at:]) - len(text[at:].lstrip(" \t"))
        if at == len(text):
            break
        kind, found = next(((kind, found) for kind, form in KINDS if (found := form.match(text, at))), ("", None))
        bad = found is None or is_bad(kind, found[0], text[found.end():found.end() + 1])
        if not bad:
            tokens.append((kind, found[0]))
            at = found.end()
    if len(tokens) > 1024:
        raise Refused("TooMany")
    if bad:
        raise Refused("BadToken")
    return tokens


def check_depth(tokens, most_slashes):
    is_open = prefixes = slashes = 0
    for kind, text in tokens:
        is_open = max(0, is_open + (text == "(") - (text == ")"))
        prefixes = prefixes + 1 if text == "-" or kind == "Word" and text.lower() == "not" else 0
        slashes += text == "/"
        if is_open > 32 or prefixes > 8 or slashes > most_slashes:
            raise Refused("TooDeep")


# ---- the grammar


def read_rules():
    rules = {}
    for line in GRAMMAR.strip().splitlines():
        name, _, right = line.partition("=")
        signs = re.findall(r'"[^"]*"|\w+|[][{}()|]', right)
        rules[name.strip()] = choice_of(signs)
    return rules


def choice_of(signs):
    """The alternatives of a right side, up to its end or to what closes it."""
    ways = [[]]
    while signs and signs[0] not in ("]", "}", ")"):
        sign = signs.pop(0)
        if sign == "|":
            ways.append([])
        elif sign in ("[", "{", "("):
            ways[-1].append((sign, choice_of(signs)))
            signs.pop(0)
        else:
            ways[-1].append(("word", sign.strip('"')) if sign[0] == '"' else ("rule", sign))
    return "choice", ways


RULES = read_rules()


class Reader:
    """The trees of tokens under the grammar: each of these gives the places where something may end, with its parts."""

    def __init__(self, tokens):
        self.tokens = tokens

    def match(self, form, at):
        return getattr(self, {"[": "maybe", "{": "many", "(": "group"}.get(form[0], form[0]))(form[1], at)

    def choice(self, ways, at):
        for way in ways:
            yield from self.series(way, at)

    def series(self, forms, at):
        if not forms:
            yield at, []
            return
        for end, parts in self.match(forms[0], at):
            for last, others in self.series(forms[1:], end):
                yield last, parts + others

    def group(self, form, at):
        return self.match(form, at)

    def maybe(self, form, at):
        yield at, []
        yield from self.match(form, at)

    def many(self, form, at):
        reached = [(at, [])]
        while reached:
            yield from reached
            reached = [(last, parts + others) for end, parts in reached for last, others in self.match(form, end)]

    def word(self, word, at):
        if at < len(self.tokens) and self.tokens[at][1].lower() == word:
            yield at + 1, [self.tokens[at]]

    def rule(self, name, at):
        if name in RULES:
            for end, parts in self.match(RULES[name], at):
                yield end, [tree_of(name, parts)]
        elif at < len(self.tokens):
            kind, text = self.tokens[at]
            if kind == ("Word" if name == "Name" else name) and not (name == "Name" and text.lower() in ("true", "false", "null", "not")):
                yield at + 1, [("name", text) if name == "Name" else self.tokens[at]]


def literal_of(token):
    kind, text = token
    if kind == "Word":
        value = {"true": True, "false": False, "null": None}[text.lower()]
        return "literal", "Null" if value is None else "Boolean", value, text
    if kind == "Text":
        return "literal", kind, text[1:-1].replace("''", "'"), text
    if kind == "Date":
        return "literal", kind, date.fromisoformat(text), text
    return "literal", "Integer" if kind == "Number" else kind, int(text) if kind == "Number" else Fraction(text), text


def tree_of(name, parts):
    """What the parts of a rule make, in the form of plain_filter.py."""
    if name in BINARY:
        tree = parts[0]
        for operator, right in zip(parts[1::2], parts[2::2]):
            tree = (operator[1].lower(), tree, right)
        return tree
    if name == "unary":
        return parts[0] if len(parts) == 1 else (parts[0][1].lower(), parts[1])
    if name == "member":
        return parts[0] if len(parts) == 1 else ("in", parts[0], parts[3::2])
    if name == "primary":
        return parts[len(parts) // 2]
    if name == "call":
        return "call", parts[0], parts[2::2]
    if name in ("fun1", "fun2", "method"):
        return parts[0][1].lower()
    if name == "plain":
        return literal_of(parts[0])
    if name == "literal":
        return parts[0] if len(parts) == 1 else negative(literal_of(parts[1]))
    return query_tree(name, parts)


def negative(literal):
    return (*literal[:2], -literal[2], "-" + literal[3])


def query_tree(name, parts):
    """What the parts of a rule make that stands above conditions."""
    if name == "order":
        return parts[0], len(parts) == 2 and parts[1][1].lower() == "desc"
    if name in ("orderby", "apply"):
        return parts[0::2]
    if name == "select":
        return [text for _, text in parts[0::2]]
    if name == "item":
        return (None, "$count", parts[2][1]) if len(parts) == 3 else (parts[0][1], parts[2], parts[4][1])
    if name == "aggr":
        return "aggregate", parts[2:-1:2]
    if name == "trans":
        return trans_tree(parts)
    if name == "named":
        return parts[0][1], parts[2]
    return [(None, parts[0])] if len(parts[0]) == 4 else parts[0::2]


def trans_tree(parts):
    if len(parts) == 1:
        return parts[0]
    if parts[0][1].lower() == "filter":
        return "filter", parts[2]
    closed = parts.index(("Sign", ")"))
    return "groupby", [text for _, text in parts[3:closed:2]], parts[closed + 2][1] if parts[closed + 1] == ("Sign", ",") else []


def parsed(rule, text, most_slashes=1025):
    """The tree of a text; the grammar gives no text two."""
    tokens = tokens_of(text)
    check_depth(tokens, most_slashes)
    trees = [parts[0] for end, parts in Reader(tokens).rule(rule, 0) if end == len(tokens)]
    if not trees:
        raise Refused("Syntax")
    assert len(trees) == 1, text
    return trees[0]


def number_of(text):
    if not re.fullmatch("[0-9]{1,19}", text) or int(text) >= 2**63:
        raise Refused("Syntax")
    return int(text)


def flag_of(text):
    if in_small_letters(text) not in ("true", "false"):
        raise Refused("Syntax")
    return in_small_letters(text) == "true"


def format_of(text):
    formats = {"json": JSON, "application/json": JSON, "text/csv": CSV}
    if in_small_letters(text) not in formats:
        raise Refused("NotAcceptable")
    return formats[in_small_letters(text)]


# ---- names and types


def known(name, columns):
    if name not in columns:
        raise Refused("UnknownName")
    return columns[name]


def item_type(item, columns, taken):
    """The type and the bound of an aggregate under its alias."""
    column, method, alias = item
    kind, bound = ("Integer", 2**31) if method == "$count" else known(column, columns)
    if method == "sum":
        if kind not in ("Integer", "Decimal"):
            raise Refused("Mismatch")
        bound = small(bound * 2**30)
    if method == "countdistinct":
        kind, bound = "Integer", 2**31
    if alias in columns or alias in taken:
        raise Refused("AliasTaken")
    return kind, bound


def result_columns(transformation, columns):
    """The columns that a transformation gives, in their order."""
    if transformation[0] == "filter":
        check_condition(transformation[1], columns)
        return columns
    made = {name: known(name, columns) for name in transformation[1]} if transformation[0] == "groupby" else {}
    aliases = {}
    for item in transformation[-1]:
        aliases[item[2]] = item_type(item, columns, aliases)
    return made | aliases


def check_key(key, table):
    """The values of a key in the order of the table's key."""
    if [name for name, _ in key] == [None]:
        key = [(table.key[0] if len(table.key) == 1 else None, key[0][1])]
    if not table.key or sorted(str(name) for name, _ in key) != sorted(table.key):
        raise Refused("BadKey")
    for name, (_, kind, value, _) in key:
        wanted = table.columns[name]
        scaled = kind == "Integer" and wanted == "Decimal" and abs(value) * 10**6 <= 2**126
        if kind != wanted and not scaled:
            raise Refused("BadKey")
    values = {name: literal[2] for name, literal in key}
    return [values[name] for name in table.key]


# ---- what it means


def aggregated(item, rows):
    column, method, _ = item
    if method == "$count":
        return len(rows)
    values = [row[column] for row in rows if row[column] is not None]
    if method == "countdistinct":
        return len(set(values))
    return {"sum": sum, "min": min, "max": max}[method](values) if values else None


def aggregates(items, rows):
    return {item[2]: aggregated(item, rows) for item in items}


def transformed(transformation, rows):
    if transformation[0] == "filter":
        return kept(transformation[1], rows)
    if transformation[0] == "aggregate":
        return [aggregates(transformation[1], rows)]
    _, names, items = transformation
    groups = {}
    for row in rows:
        groups.setdefault(tuple(row[name] for name in names), []).append(row)
    return [dict(zip(names, values)) | aggregates(items, group) for values, group in groups.items()]


def in_order(items, rows):
    """Rows by the items in turn: null first, or last where an item descends; ties as they stood."""
    keys = [[outcome(tree, row) for tree, _ in items] for row in rows]
    numbers = list(range(len(rows)))
    for place in reversed(range(len(items))):
        numbers.sort(key=lambda number: (keys[number][place] is not None, keys[number][place]), reverse=items[place][1])
    return [rows[number] for number in numbers]


def texts_of(key, options):
    """The options with their values read, in the order in which they are looked at."""
    read = {"key": parsed("key", key)} if key is not None else {}
    ways = {
        "apply": lambda text: parsed("apply", text, MOST_TRANSFORMATIONS - 1), "filter": lambda text: parsed("or", text), "count": flag_of,
        "orderby": lambda text: parsed("orderby", text), "skip": number_of, "top": number_of, "select": lambda text: parsed("select", text),
    }
    for name, way in ways.items():
        if name in options:
            read[name] = way(options[name])
    return read


def selected(names, columns):
    """The columns that are asked for, in their own order."""
    for name in names:
        if name != "*":
            known(name, columns)
    return [name for name in columns if "*" in names or name in names]


def typed(query, table):
    """The values of the key, and the names of the result's columns."""
    values = check_key(query["key"], table) if "key" in query else None
    columns = bounded(table.columns)
    for transformation in query.get("apply", []):
        columns = result_columns(transformation, columns)
    if "filter" in query:
        check_condition(query["filter"], columns)
    for tree, _ in query.get("orderby", []):
        type_of(tree, columns)
    return values, selected(query.get("select", ["*"]), columns)


def result_rows(query, table):
    """The rows behind `$apply` and `$filter`."""
    rows = table.rows
    for transformation in query.get("apply", []):
        rows = transformed(transformation, rows)
    return kept(query["filter"], rows) if "filter" in query else rows


# ---- the reply


def object_text(names, row):
    return "{" + ",".join(f'"{name}":{json_value(row[name])}' for name in names) + "}"


def json_text(names, rows, count=""):
    return "{" + count + '"value":[' + ",".join(object_text(names, row) for row in rows) + "]}"


def csv_text(names, rows):
    lines = [",".join(names)] + [",".join(csv_value(row[name]) for name in names) for row in rows]
    return "".join(line + "\r\n" for line in lines)


def service_text(tables):
    return '{"value":[' + ",".join(f'{{"name":"{name}","kind":"EntitySet","url":"{name}"}}' for name in tables) + "]}"


def keyed_body(values, names, table, media_type):
    for row in table.rows:
        if [row[name] for name in table.key] == values:
            return object_text(names, row) if media_type == JSON else csv_text(names, [row])
    raise Refused("NoSuchRow")


def query_body(query, table, counting, media_type):
    """The body, and its media type."""
    values, names = typed(query, table)
    if values is not None:
        return keyed_body(values, names, table, media_type), media_type
    rows = result_rows(query, table)
    if counting:
        return str(len(rows)), PLAIN
    count = f'"@odata.count":{len(rows)},' if query.get("count") else ""
    rows = in_order(query.get("orderby", []), rows)[query.get("skip", 0):]
    rows = rows[:query.get("top", len(rows))]
    if media_type == CSV:
        return csv_text(names, rows), CSV
    return json_text(names, rows, count), JSON


def body_of(target, tables):
    segments, options = read_target(target)
    table, key, counting = resource(segments, tables)
    allowed = ["format"] if table is None else ["select", "format"] if key is not None else SERVED
    if any(name not in allowed for name in options):
        raise Refused("OptionNotAllowed")
    media_type = format_of(options.get("format", "json"))
    if table is None:
        if media_type == CSV:
            raise Refused("NotAcceptable")
        return service_text(tables), JSON
    return query_body(texts_of(key, options), table, counting, media_type)


def answer(target, tables):
    """The status with its reason, the media type and the body of a GET of a target over tables by their names, and the code of a refusal."""
    try:
        body, media_type = body_of(target, tables)
        return "200 OK", media_type, body, None
    except Refused as refused:
        code = refused.args[0]
    except Fault:
        code = "DivisionByZero"
    return replies.CODES[code][0], JSON, replies.error_body(code), code


def reply(method, answered):
    """The bytes of the reply to a GET or a HEAD."""
    status, media_type, body, _ = answered
    return replies.reply(body if method == "GET" else "", media_type, status, length=len(body.encode()))
