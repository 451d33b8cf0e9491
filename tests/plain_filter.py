"""`$filter` read plainly: random conditions over random tables, and what OData says of each row (OData 4.01 Part 2, URL Conventions, section 5.1.1).

It works on whole trees and whole lists and shares nothing with the program. Null is None, a decimal is a fraction, a date is a date, and a division by zero is
an exception. A condition is a tuple: ("literal", type, value, text), ("name", text), ("not" or "-", operand), (operator, left, right),
("in", operand, literals) or ("call", function, arguments).
"""

from datetime import date
from fractions import Fraction

MOST = 2**126
BINARY = [("or",), ("and",), ("eq", "ne"), ("gt", "ge", "lt", "le"), ("add", "sub"), ("mul", "div", "mod")]
LEVEL = {word: level for level, words in enumerate(BINARY) for word in words}
UNARY, MEMBER, PRIMARY = 6, 7, 8
COMPARISONS = ("eq", "ne", "gt", "ge", "lt", "le")


class Fault(Exception):
    """A division by zero."""


class Refused(Exception):
    """The code of the first thing that is wrong with a condition."""


# ---- types and bounds: the operands first, from left to right; at each node Mismatch before TooLarge


def one_type(*types):
    """The one type of operands, where null goes with any and an integer with a decimal."""
    known = {kind for kind, _ in types if kind != "Null"}
    if known == {"Integer", "Decimal"}:
        return "Decimal"
    if len(known) > 1:
        raise Refused("Mismatch")
    return known.pop() if known else "Null"


def fits(kind, *types):
    if any(each not in (kind, "Null") for each, _ in types):
        raise Refused("Mismatch")


def small(bound):
    if bound > MOST:
        raise Refused("TooLarge")
    return bound


def scaled(kind, operand):
    """The bound of an operand, as a decimal's where the node is one: in millionths."""
    return operand[1] * 10**6 if kind == "Decimal" and operand[0] == "Integer" else operand[1]


def bounded(columns):
    """The types of a table's columns with the bounds of their numbers."""
    return {name: (kind, 2**63 if kind in ("Integer", "Decimal") else 0) for name, kind in columns.items()}


def type_of(tree, columns):
    """The type of a tree and the bound of its numbers, 0 where it has none, over columns of such types and bounds."""
    head = tree[0]
    if head == "literal":
        _, kind, value, _ = tree
        if kind == "Integer":
            return kind, small(abs(value))
        return kind, small(int(abs(value) * 10**6)) if kind == "Decimal" else 0
    if head == "name":
        if tree[1] not in columns:
            raise Refused("UnknownName")
        return columns[tree[1]]
    if head == "call":
        return call_type(tree, [type_of(argument, columns) for argument in tree[2]])
    if head == "in":
        operands = [type_of(part, columns) for part in (tree[1], *tree[2])]
        kind = one_type(*operands)
        for operand in operands:
            small(scaled(kind, operand))
        return "Boolean", 0
    operands = [type_of(part, columns) for part in tree[1:]]
    if head == "not":
        fits("Boolean", *operands)
        return "Boolean", 0
    if head == "-":
        return negated_type(operands[0])
    return binary_type(head, operands)


def negated_type(operand):
    if operand[0] == "Decimal":
        return operand
    fits("Integer", operand)
    return "Integer", operand[1]


def binary_type(operator, operands):
    if operator in ("and", "or"):
        fits("Boolean", *operands)
        return "Boolean", 0
    if operator in COMPARISONS:
        kind = one_type(*operands)
        for operand in operands:
            small(scaled(kind, operand))
        return "Boolean", 0
    left, right = operands
    if operator in ("add", "sub"):
        kind = one_type(left, right)
        if kind not in ("Integer", "Decimal", "Null"):
            raise Refused("Mismatch")
        kind = "Integer" if kind == "Null" else kind
        return kind, small(scaled(kind, left) + scaled(kind, right))
    fits("Integer", left, right)
    return "Integer", small(left[1] * right[1] if operator == "mul" else left[1])


def call_type(tree, arguments):
    function = tree[1]
    fits("Date" if function in ("year", "month", "day") else "Text", *arguments)
    if function in ("contains", "startswith", "endswith"):
        return "Boolean", 0
    return ("Text", 0) if function == "concat" else ("Integer", 2**40)


# ---- the outcome on a row: each operand is evaluated, but for the right side of `and` behind false and of `or` behind true


def outcome(tree, row):
    head = tree[0]
    if head == "literal":
        return tree[2]
    if head == "name":
        return row[tree[1]]
    if head == "and" or head == "or":
        return logic(head, tree[1], tree[2], row)
    if head == "in":
        value = outcome(tree[1], row)
        return any(equals(value, item[2]) for item in tree[2])
    if head == "call":
        arguments = [outcome(argument, row) for argument in tree[2]]
        return None if None in arguments else call(tree[1], arguments)
    operands = [outcome(part, row) for part in tree[1:]]
    if head in COMPARISONS:
        return compare(head, *operands)
    if head in ("div", "mod") and operands[0] is not None and operands[1] == 0:
        raise Fault
    if None in operands:
        return None
    return {"not": lambda a: not a, "-": lambda a: -a, "add": lambda a, b: a + b, "sub": lambda a, b: a - b, "mul": lambda a, b: a * b,
            "div": quotient, "mod": lambda a, b: a - b * quotient(a, b)}[head](*operands)


def logic(head, left, right, row):
    """False, null and true in this order: `and` is the least, `or` the greatest."""
    rank = {False: 0, None: 1, True: 2}
    first = outcome(left, row)
    if first is (head == "or"):
        return first
    second = outcome(right, row)
    return (min if head == "and" else max)(first, second, key=rank.get)


def equals(left, right):
    return left is None and right is None if left is None or right is None else left == right


def compare(operator, left, right):
    if operator == "eq":
        return equals(left, right)
    if operator == "ne":
        return not equals(left, right)
    known = left is not None and right is not None
    if operator in ("gt", "ge"):
        return known and left > right or operator == "ge" and equals(left, right)
    return known and left < right or operator == "le" and equals(left, right)


def quotient(left, right):
    size = abs(left) // abs(right)
    return size if (left < 0) == (right < 0) else -size


def call(function, arguments):
    first = arguments[0]
    if function in ("year", "month", "day"):
        return getattr(first, function)
    if function == "length":
        return len(first)
    second = arguments[1]
    return {"contains": lambda: second in first, "startswith": lambda: first.startswith(second), "endswith": lambda: first.endswith(second),
            "indexof": lambda: first.find(second), "concat": lambda: first + second}[function]()


def answer(tree, columns, rows):
    """The rows for which a condition is true, or the code under which it is refused."""
    try:
        check_condition(tree, bounded(columns))
        return kept(tree, rows), None
    except Refused as refused:
        return None, refused.args[0]
    except Fault:
        return None, "DivisionByZero"


def check_condition(tree, columns):
    if type_of(tree, columns)[0] not in ("Boolean", "Null"):
        raise Refused("Mismatch")


def kept(tree, rows):
    """The rows for which a condition is true; a fault on any row is a fault."""
    outcomes = [outcome(tree, row) for row in rows]
    return [row for row, said in zip(rows, outcomes) if said is True]


# ---- random conditions


class Writer:
    """Draws conditions over columns, and writes them."""

    def __init__(self, draw, columns):
        self.draw = draw
        self.columns = columns

    def names(self, kind):
        return [name for name, other in self.columns.items() if other == kind]

    def literal(self, kind):
        draw = self.draw
        if draw.random() < 0.08:
            return ("literal", "Null", None, self.word("null"))
        if kind == "Boolean":
            value = draw.random() < 0.5
            return ("literal", kind, value, self.word("true" if value else "false"))
        if kind == "Integer":
            value = draw.choice([0, 1, 2, 3, 5, 7, 10, 100, draw.randrange(1000), draw.randrange(2**63), 2**63 - 1, 2**63, draw.randrange(10**38)])
            return ("literal", kind, value, "0" * draw.choice([0, 0, 0, 2] if value < 10**30 else [0]) + str(value))
        if kind == "Decimal":
            whole, part = draw.choice([0, 1, 2, 10, draw.randrange(10**9)]), draw.randrange(10**6)
            places = draw.randrange(1, 7)
            digits = f"{part:06}"[:places]
            return ("literal", kind, Fraction(int(str(whole) + digits), 10**places), f"{whole}.{digits}")
        if kind == "Date":
            value = draw.choice([date(1, 1, 1), date(9999, 12, 31), date(2024, 2, 29), date(draw.randrange(1990, 2030), draw.randrange(1, 13), draw.randrange(1, 29))])
            return ("literal", kind, value, value.isoformat())
        value = "".join(draw.choices("abO'é😀 ,%&", k=draw.randrange(0, 4)))
        return ("literal", kind, value, "'" + value.replace("'", "''") + "'")

    def word(self, text):
        return self.draw.choice([text, text, text.upper(), text.title()])

    def tree(self, kind, depth):
        draw = self.draw
        if draw.random() < 0.01:
            kind = draw.choice(["Boolean", "Integer", "Decimal", "Date", "Text"])
        if depth <= 0 or draw.random() < 0.1:
            return self.leaf(kind)
        return getattr(self, kind.lower())(depth - 1)

    def leaf(self, kind):
        names = self.names(kind)
        if names and self.draw.random() < 0.7:
            return ("name", self.draw.choice(names))
        if self.draw.random() < 0.01:
            return ("name", "Nope")
        return self.literal(kind)

    def boolean(self, depth):
        draw = self.draw
        what = draw.randrange(10)
        if what < 3:
            return (draw.choice(["and", "or"]), self.tree("Boolean", depth), self.tree("Boolean", depth))
        if what == 3:
            return ("not", self.tree("Boolean", depth))
        if what == 4:
            return ("call", draw.choice(["contains", "startswith", "endswith"]), [self.tree("Text", depth), self.tree("Text", depth)])
        kind = draw.choice(["Integer", "Integer", "Decimal", "Date", "Text", "Boolean"])
        other = draw.choice(["Integer", "Decimal"]) if kind in ("Integer", "Decimal") and draw.random() < 0.3 else kind
        if what < 9 and draw.random() < 0.1:
            return self.near()
        if what < 9:
            return (draw.choice(COMPARISONS), self.tree(kind, depth), self.tree(other, depth))
        count = draw.randrange(5, draw.choice([20, 60, 501])) if draw.random() < 0.2 else draw.randrange(1, 5)
        return ("in", self.tree(kind, depth), [self.item(draw.choice([kind, other])) for _ in range(count)])

    def near(self):
        """The year of a date, the length of a text or the place of a part in it, compared with a literal near it."""
        draw = self.draw
        function = draw.choice(["year", "year", "length", "indexof"])
        arguments = [self.leaf("Date" if function == "year" else "Text")] + ([self.leaf("Text")] if function == "indexof" else [])
        value = draw.choice([0, 1, 9999, 10000, 2**54, draw.randrange(1990, 2030)] if function == "year" else [-1, 0, 1, 2, 3])
        text = str(value)
        return (draw.choice(COMPARISONS), ("call", function, arguments), ("literal", "Integer", value, text))

    def item(self, kind):
        """A literal of a list, a number perhaps with `-` before it."""
        item = self.literal(kind)
        if item[1] in ("Integer", "Decimal") and self.draw.random() < 0.3:
            return ("literal", item[1], -item[2], "-" + item[3])
        return item

    def integer(self, depth):
        draw = self.draw
        what = draw.randrange(12)
        if what == 0:
            return ("-", self.tree("Integer", depth))
        if what < 4:
            return (draw.choice(["add", "sub"]), self.tree("Integer", depth), self.tree("Integer", depth))
        if what < 6:
            return ("mul", self.tree("Integer", depth), self.tree("Integer", min(depth, 1)))
        if what < 9:
            right = self.tree("Integer", depth) if draw.random() < 0.3 else ("literal", "Integer", value := draw.randrange(1, 20), str(value))
            return (draw.choice(["div", "mod"]), self.tree("Integer", depth), right)
        if what == 9:
            return ("call", "length", [self.tree("Text", depth)])
        if what == 10:
            return ("call", "indexof", [self.tree("Text", depth), self.tree("Text", depth)])
        return ("call", draw.choice(["year", "month", "day"]), [self.tree("Date", depth)])

    def decimal(self, depth):
        draw = self.draw
        what = draw.randrange(6)
        if what == 0:
            return ("-", self.tree("Decimal", depth))
        if what < 4:
            kinds = draw.choice([("Decimal", "Decimal"), ("Integer", "Decimal"), ("Decimal", "Integer")])
            return (draw.choice(["add", "sub"]), self.tree(kinds[0], depth), self.tree(kinds[1], depth))
        return self.leaf("Decimal")

    def date(self, _depth):
        return self.leaf("Date")

    def text(self, depth):
        if self.draw.random() < 0.3:
            return ("call", "concat", [self.tree("Text", depth), self.tree("Text", depth)])
        return self.leaf("Text")

    def tokens(self, tree, level=0):
        """The tokens of a tree where the grammar asks for this level or a tighter one."""
        made, own = self.plain_tokens(tree)
        if own < level or self.draw.random() < 0.05:
            return ["(", *made, ")"]
        return made

    def plain_tokens(self, tree):
        head = tree[0]
        if head == "literal":
            text = tree[3]
            return (["-", text[1:]], UNARY) if text.startswith("-") else ([text], PRIMARY)
        if head == "name":
            return [tree[1]], PRIMARY
        if head in ("not", "-"):
            return [self.word(head), *self.tokens(tree[1], UNARY)], UNARY
        if head == "in":
            items = self.listed([self.plain_tokens(item)[0] for item in tree[2]])
            return [*self.tokens(tree[1], PRIMARY), self.word("in"), "(", *items, ")"], MEMBER
        if head == "call":
            return [self.word(tree[1]), "(", *self.listed([self.tokens(argument) for argument in tree[2]]), ")"], PRIMARY
        level = LEVEL[head]
        return [*self.tokens(tree[1], level), self.word(head), *self.tokens(tree[2], level + 1)], level

    @staticmethod
    def listed(lists):
        return [token for place, tokens in enumerate(lists) for token in ([","] if place else []) + tokens]

    def text_of(self, tree):
        """The text of a condition, and the code of its form where that is refused: too many tokens, or too deep."""
        tokens = self.tokens(tree)
        text = ""
        for token in tokens:
            apart = text and (text[-1].isalnum() or text[-1] in "_'") and (token[0].isalnum() or token[0] in "_'")
            text += self.draw.choice([" ", " ", "  ", "\t"]) if apart else self.draw.choice(["", "", " "])
            text += token
        return text, form_fault(tokens)


def form_fault(tokens):
    if len(tokens) > 1024:
        return "TooMany"
    most_open = is_open = prefixes = most_prefixes = 0
    for token in tokens:
        is_open += (token == "(") - (token == ")")
        most_open = max(most_open, is_open)
        prefixes = prefixes + 1 if token.lower() in ("-", "not") else 0
        most_prefixes = max(most_prefixes, prefixes)
    return "TooDeep" if most_open > 32 or most_prefixes > 8 else None
