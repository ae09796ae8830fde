"""Origin servers whose every answer is scripted by the path that they are asked for."""

import hashlib
import select
import socket
import struct
import threading
import time

DATE = b"Date: Sun, 06 Nov 1994 08:49:37 GMT"
KEPT_BYTES = 100_000
# So long it holds back what it was not told to send yet: longer than any client waits.
HELD_SECONDS = 60
NOISE = bytes((31 * i + i // 251) % 256 for i in range(65521))
GONE = select.POLLRDHUP | select.POLLHUP | select.POLLERR


def lines(*parts):
    """A head of these lines."""
    return b"\r\n".join(parts) + b"\r\n\r\n"


def response(body, *fields, status=b"200 OK"):
    """A response of this length, with these fields beside it."""
    length = b"Content-Length: %d" % len(body)
    return lines(b"HTTP/1.1 " + status, *fields, length) + body


def plain(body):
    """The response that most tests are made of."""
    return response(body, b'ETag: "x"', DATE, b"Cache-Control: max-age=60")


def chunked(*pieces):
    """A chunked body of these pieces."""
    return b"".join(b"%x\r\n%b\r\n" % (len(piece), piece) for piece in pieces) + b"0\r\n\r\n"


def span_of(asked, length):
    """The first and the last byte that a range asks for, of so many; the last below the first where there is none."""
    first, _, last = asked.removeprefix(b"bytes=").partition(b"-")
    if not first:
        return max(0, length - int(last)), length - 1
    return int(first), min(int(last), length - 1) if last else length - 1


def part(body, asked, *fields):
    """The response of what a range asks for of this body (RFC 7233, section 4.1)."""
    first, last = span_of(asked, len(body))
    place = b"Content-Range: bytes %d-%d/%d" % (first, last, len(body))
    return response(body[first : last + 1], *fields, place, status=b"206 Partial Content")


def noise(count, first=0):
    """Bytes that repeat late, so that a byte in a wrong place shows: so many of them, from this one on."""
    start = first % len(NOISE)
    return (NOISE * ((start + count) // len(NOISE) + 1))[start : start + count]


def abort(connection):
    """From now on a close of the socket sends a reset in place of an end."""
    connection.setsockopt(socket.SOL_SOCKET, socket.SO_LINGER, struct.pack("ii", 1, 0))


class Answer:
    """What an origin does on a path.

    It sends a text, whole or in pieces of one size or cut at these places; then it keeps the
    connection, ends or breaks it. A request's body is read before that, or not at all. With an
    event it sends the second piece once that is set.
    """

    def __init__(self, text, piece=None, cuts=(), pause=0.0, then="keep", reads_body=True, goes_on=None):
        self.text = text
        self.cuts = list(cuts) or list(range(piece or max(1, len(text)), len(text), piece or max(1, len(text))))
        self.pause = pause
        self.then = then
        self.reads_body = reads_body
        self.goes_on = goes_on

    def give(self, connection):
        for number, (start, end) in enumerate(zip([0] + self.cuts, self.cuts + [len(self.text)])):
            if number and self.goes_on:
                self.goes_on.wait(HELD_SECONDS)
            connection.sendall(self.text[start:end])
            if self.pause:
                time.sleep(self.pause)


class Ask:
    """What an origin was asked: the head, and the body by its length and digest, whole where it is short."""

    def __init__(self, head):
        self.head = head
        self.path = head.split(b" ")[1].decode()
        self.length = 0
        self.body = b""
        self._digest = hashlib.sha256()

    def declared_length(self):
        for line in self.head.lower().split(b"\r\n"):
            if line.startswith(b"content-length:"):
                return int(line[15:])
        return 0

    def field(self, name):
        """The value of the first field of this name, in lower case; None without one."""
        for line in self.head.split(b"\r\n"):
            if line.startswith(name + b": "):
                return line[len(name) + 2 :]
        return None

    def add(self, piece):
        self.length += len(piece)
        self._digest.update(piece)
        if self.length <= KEPT_BYTES:
            self.body += piece

    def digest(self):
        return self._digest.hexdigest()

    def text(self):
        return self.head + self.body


class Origin:
    """An origin on 127.0.0.1 or another address, on a port of its own where none is given."""

    def __init__(self, port=0, address="127.0.0.1"):
        self.answers = {}
        self.asked = []
        self.connections = 0
        self.most_open = 0
        self._open = set()
        self._lock = threading.Lock()
        family = socket.AF_INET6 if ":" in address else socket.AF_INET
        self._listener = socket.create_server((address, port), family=family, backlog=512)
        self.port = self._listener.getsockname()[1]
        threading.Thread(target=self._accept, daemon=True).start()

    @property
    def authority(self):
        """Its host, and its port where that is not the one of http."""
        return "127.0.0.1" if self.port == 80 else f"127.0.0.1:{self.port}"

    def close(self):
        """Takes no more connections."""
        self._listener.shutdown(socket.SHUT_RDWR)
        self._listener.close()

    def on(self, path, answer):
        """On this path it gives this answer, or the one that a function of the Ask gives."""
        self.answers[path] = answer

    def clear(self):
        """Forgets what was asked, and how many connections there were."""
        with self._lock:
            self.asked = []
            self.connections = 0
            self.most_open = 0

    def count_open(self):
        """How many connections the other side has not closed."""
        with self._lock:
            return count_open(self._open)

    def _count_settled(self, connections):
        """How many of these the other side has not closed. A count above all before is made again a moment later, since the
        news of a close may come behind that of an opening."""
        for seconds in (0, 0.01):
            time.sleep(seconds)
            with self._lock:
                count = count_open(connections & self._open)
            if count <= self.most_open:
                break
        return count

    def asked_texts(self):
        return [ask.text() for ask in self.asked]

    def _accept(self):
        for connection in accepted(self._listener):
            with self._lock:
                self.connections += 1
                self._open.add(connection)
                others = set(self._open)
            self.most_open = max(self.most_open, self._count_settled(others))
            threading.Thread(target=self._serve, args=(connection,), daemon=True).start()

    def _serve(self, connection):
        try:
            self._answer_all(connection)
        except OSError:
            pass
        finally:
            with self._lock:
                self._open.discard(connection)
            connection.close()

    def _answer_all(self, connection):
        waiting = b""
        while True:
            head, waiting = read_head(connection, waiting)
            if not head:
                return
            ask = Ask(head)
            answer = self.answers.get(ask.path, NOT_FOUND)
            if callable(answer):
                answer = answer(ask)
            if answer.reads_body:
                waiting = read_body(connection, ask, waiting)
            with self._lock:
                self.asked.append(ask)
            answer.give(connection)
            if answer.then == "break":
                abort(connection)
            elif answer.then != "keep":
                linger(connection)
            if answer.then != "keep":
                return
            if not answer.reads_body:
                wait_until_gone(connection)
                return


NOT_FOUND = Answer(response(b"", status=b"404 Not Found"))


def accepted(listener):
    """Each connection that is made, until the listener is closed."""
    while True:
        try:
            connection, _ = listener.accept()
        except OSError:
            return  # it was closed
        connection.setsockopt(socket.IPPROTO_TCP, socket.TCP_NODELAY, 1)
        yield connection


def count_open(connections):
    """How many of these the other side has not closed."""
    poll = select.poll()
    for connection in connections:
        poll.register(connection, GONE)
    return len(connections) - len(poll.poll(0))


def read_head(connection, waiting):
    """The next head, of which this came already, and what came behind it; none where the other side ends before."""
    while b"\r\n\r\n" not in waiting:
        more = connection.recv(65536)
        if not more:
            return b"", b""
        waiting += more
    head, end, waiting = waiting.partition(b"\r\n\r\n")
    return head + end, waiting


def read_body(connection, ask, waiting):
    """Reads an ask's body, of which this came already. Answers what came behind it."""
    length = ask.declared_length()
    ask.add(waiting[:length])
    waiting = waiting[length:]
    while ask.length < length:
        piece = connection.recv(min(1 << 18, length - ask.length))
        if not piece:
            raise ConnectionError("the body ends early")
        ask.add(piece)
    return waiting


def linger(connection):
    """Ends, and takes what still comes: else the system's reset could lose what was sent (RFC 7230, section 6.6)."""
    connection.shutdown(socket.SHUT_WR)
    connection.settimeout(2)
    while connection.recv(65536):
        pass


def wait_until_gone(connection):
    """Leaves all that comes unread until the other side closes."""
    poll = select.poll()
    poll.register(connection, GONE)
    poll.poll(HELD_SECONDS * 1_000)
