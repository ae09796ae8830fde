"""Cuts what a client sent into requests, and what it heard into replies, by RFC 7230 alone.

It knows nothing of the proxy: how long a message is, is said by its head (section 3.3.3), and a reply answers the first request
that has none yet (section 5.6).
"""

import re
from dataclasses import dataclass, field

TOKEN = rb"[!#$%&'*+.^_`|~0-9A-Za-z-]+"
REQUEST_LINE = re.compile(rb"(" + TOKEN + rb") ([^ \r\n]+) HTTP/1\.([0-9])")
STATUS_LINE = re.compile(rb"HTTP/1\.([0-9]) ([1-9][0-9][0-9]) ([^\r\n]*)")
FIELD = re.compile(rb"(" + TOKEN + rb"):[ \t]*(.*?)[ \t]*", re.S)
CHUNK = re.compile(rb"([0-9A-Fa-f]+)(;[^\r\n]*)?\r\n")


class Malformed(Exception):
    """These bytes are no message."""


@dataclass
class Request:
    method: str
    target: bytes
    minor: int
    fields: list
    length: int  # of its body
    is_told: bool  # its body's length can be told: else nothing behind its head can be read
    start: int
    end: int  # of what came of it
    is_whole: bool

    def goes_on(self):
        """The client may ask more behind it (section 6.3)."""
        options = members(self.fields, b"connection")
        return b"close" not in options and (self.minor >= 1 or b"keep-alive" in options)


@dataclass
class Reply:
    status: int
    minor: int
    fields: list
    framing: str  # none, length, chunked, end
    length: int | None  # that its head tells
    start: int
    body_start: int
    end: int  # of what came of it
    is_whole: bool  # for one that goes to the connection's end: it is told by the end
    body: bytes = field(repr=False, default=b"")
    interims: int = 0  # interim replies before it

    def closes(self):
        """Nothing may come behind it (section 6.6)."""
        options = members(self.fields, b"connection")
        return self.framing == "end" or b"close" in options or (self.minor == 0 and b"keep-alive" not in options)

    def value(self, name):
        return value(self.fields, name)


def values(fields, name):
    return [text for label, text in fields if label == name]


def value(fields, name):
    """The first value of this name; None without one."""
    return next(iter(values(fields, name)), None)


def members(fields, name):
    """The members of a list, in lower case (section 7)."""
    return [item.strip(b" \t").lower() for text in values(fields, name) for item in text.split(b",") if item.strip(b" \t")]


def head_at(text, at):
    """A head's first line, its fields, and where it ends; None where it is not there whole."""
    end = text.find(b"\r\n\r\n", at)
    if end < 0:
        return None
    first, *rest = text[at:end].split(b"\r\n")
    fields = []
    for line in rest:
        found = FIELD.fullmatch(line)
        if not found:
            raise Malformed(f"no field: {line!r}")
        fields.append((found[1].lower(), found[2]))
    return first, fields, end + 4


def length_of(fields):
    """The length that Content-Length tells; None without one."""
    told = set(values(fields, b"content-length"))
    if not told:
        return None
    if len(told) > 1 or not re.fullmatch(rb"[0-9]+", next(iter(told))):
        raise Malformed(f"lengths {told}")
    return int(told.pop())


def requests_of(text):
    """The requests, each as far as it came, and whether more than blank lines is left that is no whole head.

    What cannot be read as a request ends them: it is one, whose body cannot be told.
    """
    out, at = [], 0
    while True:
        while text.startswith(b"\r\n", at):
            at += 2
        start = at
        try:
            head = head_at(text, at)
            if head is None:
                return out, at < len(text)
            line, fields, at = head
            found = REQUEST_LINE.fullmatch(line)
            if not found:
                raise Malformed(f"no request line: {line!r}")
            length = length_of(fields) or 0
            method, target, minor = found[1].decode(), found[2], int(found[3])
            is_told = not values(fields, b"transfer-encoding")
        except Malformed:
            out.append(Request("", b"", 1, [], 0, False, start, len(text), True))
            return out, False
        end = min(len(text), at + length)
        out.append(Request(method, target, minor, fields, length, is_told, start, end, end == at + length))
        if not is_told or not out[-1].goes_on() or end == len(text):
            return out, False
        at = end


def chunks_at(text, at):
    """The data of chunks, where they end, and whether the last one came (section 4.1)."""
    data = []
    while True:
        found = CHUNK.match(text, at)
        if not found:
            if b"\r\n" in text[at : at + 100] or len(text) - at > 100:
                raise Malformed(f"no chunk: {text[at : at + 40]!r}")
            return b"".join(data), len(text), False
        size, behind = int(found[1], 16), found.end()
        if size == 0:
            end = text.find(b"\r\n", behind)
            if end != behind:
                if text[behind:] in (b"", b"\r"):
                    return b"".join(data), len(text), False
                raise Malformed(f"behind the last chunk: {text[behind : behind + 40]!r}")
            return b"".join(data), end + 2, True
        data.append(text[behind : behind + size])
        if len(text) < behind + size + 2:
            return b"".join(data), len(text), False
        if text[behind + size : behind + size + 2] != b"\r\n":
            raise Malformed(f"behind a chunk: {text[behind + size : behind + size + 40]!r}")
        at = behind + size + 2


def reply_at(text, at, method):
    """The reply that begins there to a request of this method; None where not even its head is there whole."""
    start, interims = at, 0
    while True:
        head = head_at(text, at)
        if head is None:
            return None
        line, fields, at = head
        found = STATUS_LINE.fullmatch(line)
        if not found:
            raise Malformed(f"no status line: {line!r}")
        status = int(found[2])
        if status >= 200 or status == 101:
            break
        interims += 1
    reply = Reply(status, int(found[1]), fields, "none", length_of(fields), start, at, at, True, interims=interims)
    codings = members(fields, b"transfer-encoding")
    if codings and values(fields, b"content-length"):
        raise Malformed("two framings")
    if method == "HEAD" or status in (204, 304):
        return reply
    if codings:
        if codings != [b"chunked"]:
            raise Malformed(f"codings {codings}")
        reply.framing = "chunked"
        reply.body, reply.end, reply.is_whole = chunks_at(text, at)
    elif reply.length is not None:
        reply.framing = "length"
        reply.end = min(len(text), at + reply.length)
        reply.is_whole = at + reply.length <= len(text)
        reply.body = text[at : reply.end]
    else:
        reply.framing = "end"
        reply.end = len(text)
        reply.body = text[at:]
    return reply


def replies_of(text, methods):
    """The replies to requests of these methods, in their order, and where they end."""
    out, at = [], 0
    for method in methods:
        if at == len(text):
            break
        reply = reply_at(text, at, method)
        if reply is None:
            break
        out.append(reply)
        at = reply.end
        if reply.closes() or not reply.is_whole:
            break
    return out, at
