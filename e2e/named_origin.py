"""A hostile origin at random. Each response that it gives has a name, and each byte of its body is one of that name's alone.

A version has a name, which is its tag, and all responses of the version have it; any other response has one of its own. So a
client that is told a name can say of every byte whether it belongs there.
"""

import contextlib
import functools
import random
import socket
import threading
import time

from origin import abort, accepted, chunked, linger, read_head, span_of

FRESH = [b"max-age=60"] * 5 + [b"max-age=0", b"no-cache", b"max-age=1", b"private", b"no-store"]
LENGTHS = [0, 1, 100, 4_095, 4_096, 4_100, 4_100, 8_192, 9_000, 9_000, 20_000, 70_000]
MOST = max(LENGTHS)


@functools.lru_cache(maxsize=4_096)
def body_of(name):
    """The bytes of this name, of which a response has some from the front, or a part."""
    return random.Random(name).randbytes(MOST)


class Names:
    """What was given: to each name the path, how long its body is, whether it is a version's, and what becomes of it."""

    def __init__(self):
        self._lock = threading.Lock()
        self._given = {}

    def new(self, path, length, is_version):
        with self._lock:
            name = len(self._given) + 1
            self._given[name] = (path, length, is_version)
            return name

    def find(self, name):
        """The path, the length, and whether it is a version's; None where no response had that name."""
        return self._given.get(name)


class Path:
    """What an origin has on a path. `is_kind`: it answers as it should, if late, so that nobody has cause for a 502 or a cut."""

    def __init__(self, is_kind):
        self.is_kind = is_kind
        self.version = None
        self.harmed = 0.0  # when something was last done to it that may cost a reply


class NamedOrigin:
    """It listens on 127.0.0.1, and answers what is asked at random, from this seed on."""

    def __init__(self, names, seed, paths):
        self._names = names
        self._random = random.Random(seed)
        self._lock = threading.Lock()
        self.paths = {f"/{at}": Path(is_kind=at % 2 == 0) for at in range(paths)}
        self.asks = []
        self.log = []
        self._listener = socket.create_server(("127.0.0.1", 0), backlog=512)
        self.authority = f"127.0.0.1:{self._listener.getsockname()[1]}"
        threading.Thread(target=self._accept, daemon=True).start()

    def close(self):
        self._listener.shutdown(socket.SHUT_RDWR)
        self._listener.close()

    def _accept(self):
        for connection in accepted(self._listener):
            connection.settimeout(30)
            threading.Thread(target=self._serve, args=(connection,), daemon=True).start()

    def _serve(self, connection):
        waiting = b""
        with contextlib.suppress(OSError), connection:
            while True:
                head, waiting = read_head(connection, waiting)
                if not head:
                    return
                with self._lock:
                    seed = self._random.random()
                if not self._answer(random.Random(seed), connection, head):
                    return

    def _answer(self, generator, connection, head):
        """Answers an ask. False where the connection ends with it."""
        line, *fields = head.removesuffix(b"\r\n\r\n").split(b"\r\n")
        method, path = line.split(b" ")[:2]
        asked = dict(field.split(b": ", 1) for field in fields)
        place = self.paths[path.decode()]
        with self._lock:
            text, then, cuts, kind = self._some_answer(generator, method, path.decode(), place, asked)
        self.log.append((time.monotonic(), id(connection) % 9973, head, text[:200], kind))
        # what completes a body comes late, so that it may be another body's by then
        late = [0.05, 0.1, 0.3] if b"if-range" in asked else [0, 0, 0, 0.01, 0.1]
        time.sleep(generator.choice(late))
        for start, end in zip([0] + cuts, cuts + [len(text)]):
            connection.sendall(text[start:end])
            if end < len(text):
                time.sleep(generator.choice([0, 0.001, 0.02]))
        if then == "break":
            abort(connection)
        elif then == "end":
            linger(connection)
        return then == "keep"

    # ---- what it answers

    def _some_answer(self, generator, method, path, place, asked):
        """A text, how the connection goes on, where it is cut, and what kind of answer it is."""
        kind = self._some_kind(generator, place, asked)
        if kind in ("version", "check", "part") and (place.version is None or generator.random() < 0.15):
            place.version = self._names.new(path, generator.choice(LENGTHS), True)
        then = "end" if generator.random() < 0.1 else "keep"
        if kind == "garbage":
            text = generator.choice([b"SSH-2.0-OpenSSH_9.6\r\n\r\n", b"\0\1\2\3\r\n\r\n", b"HTTP/1.1 20\r\n\r\n", b"zz\r\n\r\n"])
        elif kind == "nothing":
            text, then = b"", generator.choice(["end", "break"])
        else:
            text, ends = self._spell(generator, kind, method, path, place, asked)
            then = "end" if ends else then
        if kind == "short" and len(text) > 1:
            text, then = text[: generator.randrange(1, len(text))], generator.choice(["end", "break"])
        if kind == "goodbye":
            text += b"HTTP/1.1 408 Request Timeout\r\nConnection: close\r\nContent-Length: 0\r\n\r\n"
            then = "end"
        if not place.is_kind or kind in ("garbage", "nothing", "short", "goodbye"):
            place.harmed = time.monotonic()
        cuts = sorted({generator.randrange(1, len(text)) for _ in range(generator.choice([0, 0, 1, 3]))}) if len(text) > 1 else []
        return text, then, cuts, kind

    def _some_kind(self, generator, place, asked):
        if b"if-none-match" in asked and generator.random() < 0.4:
            return "same"
        if b"range" in asked and generator.random() < 0.6:
            return "part"
        kinds = ["version", "version", "other", "other", "missing", "fault"]
        if not place.is_kind:
            kinds += ["garbage", "nothing", "short", "short", "goodbye", "nothing new"]
            kinds += ["stray part"] if b"range" in asked else []
        return generator.choice(kinds)

    def _spell(self, generator, kind, method, path, place, asked):
        """The text of a response, and whether its body goes to the end of the connection."""
        if kind in ("same", "nothing new"):
            tag = [b'ETag: "%d"' % place.version] if place.version and generator.random() < 0.5 else []
            if kind == "same" and place.version and asked[b"if-none-match"] != b'"%d"' % place.version:
                return self._whole(generator, method, place.version, [b'ETag: "%d"' % place.version], b"200 OK", False)
            fresh = generator.choice(FRESH)
            return b"\r\n".join([b"HTTP/1.1 304 Not Modified", *tag, b"Cache-Control: " + fresh]) + b"\r\n\r\n", False
        if kind in ("part", "stray part"):
            return self._part(generator, kind, method, path, place, asked)
        if kind in ("version", "check", "short", "goodbye") and place.version:
            fields = [b'ETag: "%d"' % place.version, b"Cache-Control: " + generator.choice(FRESH)]
            return self._whole(generator, method, place.version, fields, b"200 OK", kind != "goodbye" and generator.random() < 0.2)
        status = {"missing": b"404 Not Found", "fault": b"503 Service Unavailable"}.get(kind, b"200 OK")
        name = self._names.new(path, generator.choice(LENGTHS), False)
        return self._whole(generator, method, name, [b"X: y"], status, kind != "goodbye" and generator.random() < 0.5)

    def _whole(self, generator, method, name, fields, status, is_free):
        """The whole body of a name, under a length, or in chunks or to the end."""
        body = body_of(name)[: self._names.find(name)[1]]
        head = [b"HTTP/1.1 " + status, b"X-Name: %d" % name, *fields]
        if not is_free:
            text = b"\r\n".join([*head, b"Content-Length: %d" % len(body)]) + b"\r\n\r\n"
            return text + (body if method != b"HEAD" else b""), False
        if generator.random() < 0.5:
            text = b"\r\n".join([*head, b"Transfer-Encoding: chunked"]) + b"\r\n\r\n"
            size = generator.choice([1_000, 4_096, 30_000])
            pieces = [body[at : at + size] for at in range(0, len(body), size)]
            return text + (chunked(*pieces) if method != b"HEAD" else b""), False
        return b"\r\n".join(head) + b"\r\n\r\n" + (body if method != b"HEAD" else b""), True

    def _part(self, generator, kind, method, path, place, asked):
        """What is asked for of the body: of the version, or of another name and without a tag."""
        name = place.version if kind == "part" else self._names.new(path, generator.choice(LENGTHS), False)
        length = self._names.find(name)[1]
        tag = [b'ETag: "%d"' % name] if kind == "part" else []
        fields = [*tag, b"Cache-Control: " + generator.choice(FRESH)]
        first, last = span_of(asked.get(b"range", b"bytes=0-"), length)
        if first > last or asked.get(b"if-range", b'"%d"' % name) != b'"%d"' % name:
            return self._whole(generator, method, name, fields, b"200 OK", False)
        body = body_of(name)[first : last + 1]
        head = [b"HTTP/1.1 206 Partial Content", b"X-Name: %d" % name, *fields]
        head += [b"Content-Range: bytes %d-%d/%d" % (first, last, length), b"Content-Length: %d" % len(body)]
        return b"\r\n".join(head) + b"\r\n\r\n" + (body if method != b"HEAD" else b""), False
