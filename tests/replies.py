"""Replies as they stand on the wire, for the scripts that compare whole bytes: the status line and the fields (RFC 9112, sections 4 and 6; OData 4.01 Part 1,
section 8), and the bodies of errors (OData 4.01 JSON Format, section 21.1).

All of it is written by hand, and shares nothing with the program.
"""

JSON, CSV, PLAIN = "application/json;odata.metadata=none", "text/csv;charset=utf-8", "text/plain;charset=utf-8"

# The status and the message of each code.
CODES = {
    "BadRequest": ("400 Bad Request", "the request cannot be read"),
    "BadHost": ("400 Bad Request", "the Host field is missing or repeated"),
    "BadLength": ("400 Bad Request", "a request body is not accepted"),
    "NotServed": ("501 Not Implemented", "not served by this profile"),
    "MethodNotAllowed": ("405 Method Not Allowed", "only GET and HEAD are served"),
    "BadTarget": ("400 Bad Request", "the target is not a path"),
    "BadEscape": ("400 Bad Request", "a percent escape is broken"),
    "BadUtf8": ("400 Bad Request", "the target is not UTF-8"),
    "UnknownOption": ("400 Bad Request", "unknown system option"),
    "OptionTwice": ("400 Bad Request", "a system option stands twice"),
    "NotFound": ("404 Not Found", "no such resource"),
    "UnknownSet": ("404 Not Found", "no such table"),
    "OptionNotAllowed": ("400 Bad Request", "the option does not fit the path"),
    "NotAcceptable": ("406 Not Acceptable", "the format is not served"),
    "BadToken": ("400 Bad Request", "an unknown token"),
    "TooMany": ("400 Bad Request", "more than 1024 tokens"),
    "TooDeep": ("400 Bad Request", "nested too deep"),
    "Syntax": ("400 Bad Request", "a syntax fault"),
    "UnknownName": ("400 Bad Request", "no such column"),
    "Mismatch": ("400 Bad Request", "the types do not fit"),
    "TooLarge": ("400 Bad Request", "a number may grow too large"),
    "AliasTaken": ("400 Bad Request", "the alias is taken"),
    "BadKey": ("400 Bad Request", "the key does not fit the table"),
    "NoSuchRow": ("404 Not Found", "no row has this key"),
    "DivisionByZero": ("400 Bad Request", "division by zero"),
}


def reply(body, media_type=JSON, status="200 OK", closes=False, length=None):
    """The bytes of a reply to a GET; one to a HEAD has no body, and the length that the body of the GET has."""
    body = body.encode()
    allow = "Allow: GET, HEAD\r\n" if status.startswith("405 ") else ""
    closing = "Connection: close\r\n" if closes else ""
    length = len(body) if length is None else length
    head = f"HTTP/1.1 {status}\r\nContent-Type: {media_type}\r\nOData-Version: 4.0\r\n{allow}Content-Length: {length}\r\n{closing}\r\n"
    return head.encode() + body


def error_body(code):
    """The body that tells a code."""
    return f'{{"error":{{"code":"{code}","message":"{CODES[code][1]}"}}}}'


def refusal(code, closes=False):
    """The bytes of the reply that tells a code."""
    return reply(error_body(code), JSON, CODES[code][0], closes)
