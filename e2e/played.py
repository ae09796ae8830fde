"""An origin that a test plays by hand: it takes the asks as they come, and answers each when and how it wants."""

import contextlib
import queue
import socket
import threading

from harness import Failed
from origin import Ask, abort, accepted, lines, read_body, read_head

WAIT_SECONDS = 20


class PlayedAsk(Ask):
    """An ask, and the connection that it came over."""

    def __init__(self, head, connection):
        super().__init__(head)
        self.connection = connection

    def say(self, data):
        """Sends this; what the proxy does not take any more is lost."""
        try:
            self.connection.sendall(data)
        except OSError:
            pass  # it closed

    def end(self):
        """Sends no more."""
        with contextlib.suppress(OSError):
            self.connection.shutdown(socket.SHUT_WR)

    def break_off(self):
        """Closes with a reset."""
        with contextlib.suppress(OSError):
            abort(self.connection)
            self.connection.shutdown(socket.SHUT_RD)
            self.connection.close()


class Played:
    """An origin on 127.0.0.1. What has an answer of its own is given that at once; every other ask waits to be taken."""

    def __init__(self):
        self.asked = []
        self._answers = {}
        self._waiting = queue.Queue()
        self._connections = set()
        self._listener = socket.create_server(("127.0.0.1", 0), backlog=512)
        self.authority = f"127.0.0.1:{self._listener.getsockname()[1]}"
        threading.Thread(target=self._accept, daemon=True).start()

    def __enter__(self):
        return self

    def __exit__(self, *_):
        self._listener.shutdown(socket.SHUT_RDWR)
        self._listener.close()
        for connection in list(self._connections):
            connection.close()

    def request(self, path, *fields, method="GET"):
        """A request to this origin, with these fields behind Host."""
        line = f"{method} http://{self.authority}{path} HTTP/1.1".encode()
        return lines(line, b"Host: " + self.authority.encode(), *fields)

    def always(self, path, text):
        """On this path it answers this at once."""
        self._answers[path] = text

    def take(self, of_what="an ask", seconds=WAIT_SECONDS):
        """The next ask that waits."""
        ask = self.take_if_any(seconds)
        if ask is None:
            raise Failed(f"    wanted: {of_what} within {seconds} seconds")
        return ask

    def take_if_any(self, seconds):
        """The next ask that waits; None where none comes for so long."""
        with contextlib.suppress(queue.Empty):
            return self._waiting.get(timeout=seconds)

    def _accept(self):
        for connection in accepted(self._listener):
            self._connections.add(connection)
            threading.Thread(target=self._read, args=(connection,), daemon=True).start()

    def _read(self, connection):
        waiting = b""
        with contextlib.suppress(OSError):
            while True:
                head, waiting = read_head(connection, waiting)
                if not head:
                    return
                ask = PlayedAsk(head, connection)
                waiting = read_body(connection, ask, waiting)
                self.asked.append(ask)
                if ask.path in self._answers:
                    ask.say(self._answers[ask.path])
                else:
                    self._waiting.put(ask)
