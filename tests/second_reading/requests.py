"""The requests on a connection (RFC 9112), out of the bytes that come."""

import re

MOST_HEAD, MOST_FIELDS, MOST_BODY, MOST_REQUESTS = 16384, 64, 114688, 1000000
FIRST_LINE = re.compile(rb"([^\x00-\x20\x7f]+) ([^\x00-\x20\x7f]+) HTTP/(\d)\.(\d)\r?\n")
METHOD = re.compile(rb"[!#$%&'*+.^_`|~0-9A-Za-z-]+")
FIELD = re.compile(rb"([!#$%&'*+.^_`|~0-9A-Za-z-]+):[ \t]*([\t\x20-\x7e\x80-\xff]*?)[ \t]*\r?\n")
END = re.compile(rb"\r?\n")


class Bad(Exception):
    """Bytes that are no request: the status with which they are refused."""


class Request:
    """A request: its method, the path, the query, the fields as texts, the body, and whether the connection ends with it."""

    def __init__(self, method, target, version, fields, body):
        path, _, query = target.partition(b"?")
        self.method, self.path, self.query = method.decode(), path.decode(), query.decode("utf-8", "replace")
        self.headers = [(name.decode(), value.decode("latin-1")) for name, value in fields]
        self.body, self.closes = body, closes(version, fields)


def options(fields):
    """The options of the fields named `Connection`."""
    values = [value for name, value in fields if name.lower() == b"connection"]
    return [option.strip(b" \t").lower() for value in values for option in value.split(b",")]


def closes(version, fields):
    """Whether the connection ends with a request of this version and these fields."""
    given = options(fields)
    return b"close" in given or version == b"0" and b"keep-alive" not in given


def one_value(fields, name):
    """The value of a field that may come once, or None."""
    values = [value for other, value in fields if other.lower() == name]
    if len(values) > 1:
        raise Bad(400)
    return values[0] if values else None


def head_of(data):
    """The parts of the first line and the fields of a head, and the place behind it; what is short of one is refused."""
    start = re.match(rb"(?:\r?\n)*", data).end()
    line = FIRST_LINE.match(data, start)
    if line and (line[3] != b"1" or line[4] not in (b"0", b"1")):
        raise Bad(505)
    is_short = 431 if len(data) >= MOST_HEAD else 400
    if not line:
        raise Bad(400 if b"\n" in data[start:] else is_short)
    if not METHOD.fullmatch(line[1]) or not line[2].startswith(b"/"):
        raise Bad(400)
    place, fields = line.end(), []
    while True:
        end, field = END.match(data, place), FIELD.match(data, place)
        if end:
            break
        if not field:
            raise Bad(400 if b"\n" in data[place:] else is_short)
        if len(fields) == MOST_FIELDS:
            raise Bad(431)
        fields.append((field[1], field[2]))
        place = field.end()
    if end.end() > MOST_HEAD:
        raise Bad(431)
    return line[1], line[2], line[4], fields, end.end()


def body_of(fields, data):
    """The body behind a head, by its length."""
    given = one_value(fields, b"content-length")
    for name in (b"x-auth-token", b"x-subject-token"):
        (one_value(fields, name) or b"").decode()
    if given is not None and not re.fullmatch(rb"[0-9]+", given):
        raise Bad(400)
    if any(name.lower() == b"transfer-encoding" for name, _ in fields):
        raise Bad(411)
    if int(given or b"0") > MOST_BODY:
        raise Bad(413)
    if len(data) < int(given or b"0"):
        raise Bad(400)
    return data[:int(given or b"0")]


def requests(data):
    """The requests from the front, up to the one that ends the connection; where bytes are none, `Bad` is raised."""
    for _ in range(MOST_REQUESTS):
        if not data:
            return
        try:
            method, target, version, fields, place = head_of(data)
            body = body_of(fields, data[place:])
            request = Request(method, target, version, fields, body)
        except UnicodeDecodeError:
            raise Bad(400) from None
        yield request
        if request.closes:
            return
        data = data[place + len(body):]
