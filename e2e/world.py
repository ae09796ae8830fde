"""The program under test, the origin beside it, and clients."""

import contextlib
import os
import re
import socket
import subprocess
import tempfile
import time

from harness import Failed, equal, holds
from network import free_port, wait_until_it_listens
from origin import Answer, Origin, abort, lines, plain

# The proxy's port, and the words that make it listen there.
PORT = free_port()
WORDS = [f"proxyPort={PORT}"]
VIA = b"via: 1.1 polipo"
# So long a client waits for what it is told: more than any reply takes on a machine that is busy.
PATIENCE = 20


def passed(body, connection=b"keep-alive"):
    """What a client is told of a plain response."""
    fields = [b'etag: "x"', b"date: Sun, 06 Nov 1994 08:49:37 GMT", b"cache-control: max-age=60"]
    return reply(body, *fields, connection=connection)


def reply(body, *fields, status=b"200 OK", connection=b"keep-alive"):
    """What a client is told of a response of this length, with these fields before its Via."""
    return reply_head(*fields, VIA, b"content-length: %d" % len(body), status=status, connection=connection) + body


def reply_head(*fields, status=b"200 OK", connection=b"keep-alive"):
    """The head of a reply with exactly these fields before how its connection goes on."""
    return lines(b"HTTP/1.1 " + status, *fields, b"connection: " + connection)


def page(status, connection=b"close"):
    """A refusal page."""
    text = status + b"\n"
    fields = [b"content-type: text/plain", b"content-length: %d" % len(text)]
    return reply_head(*fields, status=status, connection=connection) + text


BAD_REQUEST = page(b"400 Bad Request")
LENGTH_REQUIRED = page(b"411 Length Required")
TOO_LONG = page(b"431 Request Header Fields Too Large")
INTERNAL_ERROR = page(b"500 Internal Server Error", b"keep-alive")
BAD_GATEWAY = page(b"502 Bad Gateway", b"keep-alive")
LAST_BAD_GATEWAY = page(b"502 Bad Gateway")
CONTINUE = lines(b"HTTP/1.1 100 Continue")


class Client:
    """One connection to the proxy."""

    def __init__(self, seconds=PATIENCE, port=PORT):
        self.socket = socket.create_connection(("127.0.0.1", port), timeout=seconds)
        self.socket.setsockopt(socket.IPPROTO_TCP, socket.TCP_NODELAY, 1)
        self._unread = b""

    def __enter__(self):
        return self

    def __exit__(self, *_):
        self.socket.close()

    def say(self, data):
        self.socket.sendall(data)

    def say_in_pieces(self, data, size):
        for at in range(0, len(data), size):
            self.socket.sendall(data[at : at + size])

    def end(self):
        """Sends no more, and still listens."""
        self.socket.shutdown(socket.SHUT_WR)

    def reset(self):
        """Closes with a reset in place of an end."""
        abort(self.socket)
        self.socket.close()

    def hear(self, count):
        """So many bytes, or fewer where the proxy ends before."""
        heard = bytearray(self._unread[:count])
        self._unread = self._unread[count:]
        while len(heard) < count:
            piece = self.socket.recv(min(1 << 18, count - len(heard)))
            if not piece:
                break
            heard += piece
        return bytes(heard)

    def hear_all(self):
        """All bytes up to the proxy's end."""
        heard = bytearray(self._unread)
        self._unread = b""
        while piece := self.socket.recv(1 << 18):
            heard += piece
        return bytes(heard)

    def hear_until(self, mark):
        """The bytes up to this mark, with it, or all where the proxy ends before."""
        while mark not in self._unread:
            piece = self.socket.recv(65536)
            if not piece:
                break
            self._unread += piece
        text, found, self._unread = self._unread.partition(mark)
        return text + found

    def hear_reply(self):
        """The next reply, whose head tells its length, without its age; less where the proxy ends or breaks off before."""
        heard = b""
        with contextlib.suppress(ConnectionError):
            heard = re.sub(rb"\r\nage: \d+", b"", self.hear_until(b"\r\n\r\n"))
            if length := re.search(rb"\r\ncontent-length: (\d+)\r\n", heard):
                heard += self.hear(int(length[1]))
        return heard

    def reply_to(self, text):
        """The reply to this, as far as it comes: maybe the proxy has closed the connection before."""
        with contextlib.suppress(ConnectionError):
            self.say(text)
        return self.hear_reply()

    def hear_chunks(self):
        """The data of a chunked body, to its last chunk; each chunk as the proxy spells it."""
        data = bytearray()
        while True:
            line = self.hear_until(b"\r\n")
            holds(re.fullmatch(rb"(0|[1-9a-f][0-9a-f]*)\r\n", line), f"a chunk's size in place of {line!r}")
            size = int(line, 16)
            chunk = self.hear(size + 2)
            holds(len(chunk) == size + 2, "a whole chunk")
            equal(chunk[size:], b"\r\n", "the end of a chunk")
            if size == 0:
                return bytes(data)
            data += chunk[:size]

    def expect(self, wanted, of_what="the reply"):
        """Exactly these bytes come next."""
        equal(self.hear(len(wanted)), wanted, of_what)

    def expect_last(self, wanted, of_what="the reply, up to the end"):
        """Exactly these bytes come, and then the end."""
        equal(self.hear_all(), wanted, of_what)

    def expect_silence(self, seconds):
        """Nothing comes for so long."""
        self.socket.settimeout(seconds)
        try:
            came = self._unread or self.socket.recv(1)
            raise Failed(f"    wanted: silence for {seconds} seconds, and {came!r} came")
        except TimeoutError:
            self.socket.settimeout(PATIENCE)


class World:
    def __init__(self, program, port=PORT, words=(), environment=None):
        self.program = program
        self.port = port
        self.words = words
        self.environment = environment
        self.origin = Origin()
        self.origin.on("/probe", Answer(plain(b"still here")))
        # Its cache is made in it.
        self.folder = tempfile.TemporaryDirectory()
        self.start()

    def start(self):
        if why := self.launch():
            self.stop()
            raise Failed(f"    {why}")

    def launch(self, before=None):
        """Starts it, maybe behind commands of a shell, whose limits it has. Answers why it does not listen, or nothing."""
        shell = ["sh", "-c", f'{before}; exec "$@"', "sh"] if before else []
        self.output = tempfile.TemporaryFile()
        self.process = subprocess.Popen(
            [*shell, self.program, f"proxyPort={self.port}", *self.words],
            stdin=subprocess.DEVNULL,
            stdout=self.output,
            stderr=self.output,
            env=self.environment,
            cwd=self.folder.name,
        )
        return wait_until_it_listens(self.process, self.port)

    def stop(self):
        if self.process.poll() is None:
            self.process.kill()
        self.process.wait()

    def restart(self):
        """A program that failed a test is not held against the next."""
        self.stop()
        self.start()

    @contextlib.contextmanager
    def anew(self, *words, environment=None):
        """The program once more, with these words and nothing kept: on a port, in a folder and with an origin of its own."""
        other = World(self.program, free_port(), words, environment)
        try:
            yield other
            other.check_well()
        finally:
            other.stop()

    def printed(self):
        return os.pread(self.output.fileno(), 65_536, 0)

    def most_memory(self):
        """How much memory the program had in its life at most, in bytes."""
        with open(f"/proc/{self.process.pid}/status") as file:
            for line in file:
                if line.startswith("VmHWM:"):
                    return int(line.split()[1]) * 1024
        raise Failed("    wanted: VmHWM in the program's status")

    def url(self, path):
        return f"http://{self.origin.authority}{path}"

    def request(self, path, *fields, method="GET", version="1.1"):
        """A request to the origin, with these fields behind Host."""
        line = f"{method} {self.url(path)} HTTP/{version}".encode()
        return lines(line, b"Host: " + self.origin.authority.encode(), *fields)

    def last_request(self, path, *fields, method="GET"):
        """A request behind which the client wants the connection closed."""
        return self.request(path, *fields, b"Connection: close", method=method)

    def ask(self, path, *fields, method="GET"):
        """What the origin is asked, with these fields between host and Via."""
        host = b"host: " + self.origin.authority.encode()
        return lines(f"{method} {path} HTTP/1.1".encode(), host, *fields, VIA)

    def check_well(self):
        """The program runs on in silence, and another client is served."""
        equal(self.printed(), b"", "output and complaints")
        self.check_still_served()

    def check_still_served(self):
        """Another client gets its reply, within a few seconds."""
        if self.process.poll() is not None:
            raise Failed(f"    the program ended with {self.process.returncode}")
        with Client(port=self.port) as client:
            client.say(self.request("/probe"))
            client.expect(passed(b"still here"), "the reply to another client, afterwards")

    @contextlib.contextmanager
    def dropping_connections(self):
        """No connection to the origin is left open by what is done here, but for those that were there before: it is seen
        within seconds."""
        before = self.origin.count_open()
        yield
        deadline = time.monotonic() + 5
        while self.origin.count_open() > before and time.monotonic() < deadline:
            time.sleep(0.01)
        holds(self.origin.count_open() <= before, "no more connections to the origin than before")

    def expect_answer(self, text, wanted, of_what="the reply, up to the end"):
        """A client that sends this hears exactly that, and then the end."""
        with Client() as client:
            client.say(text)
            client.expect_last(wanted, of_what)
