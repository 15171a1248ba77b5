"""Tables of cases, as the programs of cases read them (crates/ks_tables): the cells of a line and the bytes that each stands for."""

import re

ESCAPE = re.compile(r"\\(?:r|n|(\d*)(x?)\{([^}]*)\})")
# So many of one character are told by their number.
RUN = re.compile(r"([^\\{}\r\n])\1{63,}")
# What stands in brackets for the usual head of a response, and such a head.
SHORT_HEAD = re.compile(r"<([0-9][^>]*)>")
USUAL_HEAD = re.compile(
    r"HTTP/1\.1 (?P<status>[\w ]+)\r\n(?:Content-Length: \d+\r\nContent-Type: application/json\r\n)?Vary: X-Auth-Token\r\n"
    r"(?P<fields>(?:[^\r\n;>|\\]+\r\n)*)\r\n".encode())


def usual_response(own, body):
    """The bytes of a response with this body and the usual head, of which its status and its own fields are given."""
    status, *fields = own.split("; ")
    of_body = [f"Content-Length: {len(body)}", "Content-Type: application/json"] if body else []
    return "\r\n".join(["HTTP/1.1 " + status, *of_body, "Vary: X-Auth-Token", *fields, "", ""]).encode() + body


def cell(text):
    """The bytes that a cell of a table stands for."""
    text = text.strip(" ")
    head = SHORT_HEAD.match(text)
    return usual_response(head[1], unescaped(text[head.end():])) if head else unescaped(text)


def unescaped(text):
    """The bytes that a text stands for."""

    def one(match):
        if match[0] in ("\\r", "\\n"):
            return {"\\r": "\r", "\\n": "\n"}[match[0]]
        times, is_hex, body = match.groups()
        if is_hex:
            body = bytes.fromhex(body).decode("utf-8", "surrogateescape")
        return body * int(times or 1)

    return ESCAPE.sub(one, text).encode("utf-8", "surrogateescape")


def spelled(data):
    """The text of a cell that stands for some bytes; a response's usual head is not spelled."""
    head = USUAL_HEAD.match(data)
    if head:
        own = "; ".join([head["status"].decode(), *head["fields"].decode().split("\r\n")[:-1]])
        body = data[head.end():]
        if usual_response(own, body) == data:
            return f"<{own}>" + escaped(body)
    return escaped(data)


def escaped(data):
    """The text that stands for some bytes, each of which it spells."""
    text = data.decode("utf-8", "surrogateescape")
    text = re.sub(r"[\\|]|[^\r\n -~\u00a0-\uffff]", lambda match: "\\x{%s}" % match[0].encode("utf-8", "surrogateescape").hex(), text)
    text = RUN.sub(lambda match: "\\%d{%s}" % (len(match[0]), match[1]), text)
    return text.replace("\r", "\\r").replace("\n", "\\n")


def is_case(line):
    """Whether a line of a table is its heading or a case."""
    return line.strip("\n") != "" and not line.startswith("#")


def rows(path):
    """The cells of each case of a table behind its heading."""
    with open(path, encoding="utf-8") as file:
        lines = [line.rstrip("\n") for line in file if is_case(line)]
    table = [[cell(part) for part in line.split("|")] for line in lines]
    for line in table:
        if len(line) != len(table[0]):
            raise ValueError(f"{path}: {len(line)} cells in {line}")
    return table[1:]


def expanded(data, names):
    """The bytes with what each name in angle brackets stands for; `<length>` stays."""

    def one(match):
        name = match[1].decode()
        if name != "length" and name not in names:
            raise ValueError(f"{name} stands for nothing in {data}")
        return match[0] if name == "length" else names[name]

    return re.sub(rb"<([a-z0-9 ]+)>", one, data)


def with_length(data):
    """The bytes of a request with the length of its body for `<length>`."""
    body = data.partition(b"\r\n\r\n")[2]
    return data.replace(b"<length>", str(len(body)).encode(), 1)
