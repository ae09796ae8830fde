"""Long bodies of an origin, which flow until the other side goes: what it took of them is counted."""

import socket
import struct
import threading
import time

from harness import holds
from origin import HELD_SECONDS, Answer, count_open, lines, noise, span_of
from world import PATIENCE

PIECE = 16_384
NETLINK_SOCK_DIAG = 4

# How the system is asked for one connection of 127.0.0.1 (sock_diag(7)), and where its answer has what was not read and not sent.
ASK, ANY_STATE, NO_COOKIE, NO_ERROR = 20, 0xFFFFFFFF, 0xFFFFFFFF, 20
LOOPBACK = socket.inet_aton("127.0.0.1") + bytes(12)
COUNTS_AT = 16 + 4 + 48 + 4


def counts_of(netlink, local, remote):
    """How many bytes a connection has that were not read there, and that were not sent from there or not taken yet."""
    ends = struct.pack(">HH", local, remote) + LOOPBACK * 2 + struct.pack("=III", 0, NO_COOKIE, NO_COOKIE)
    asked = struct.pack("=BBBBI", socket.AF_INET, socket.IPPROTO_TCP, 0, 0, ANY_STATE) + ends
    netlink.send(struct.pack("=IHHII", 16 + len(asked), ASK, 1, 0, 0) + asked)
    told = netlink.recv(4_096)
    if struct.unpack_from("=H", told, 4)[0] != NO_ERROR:
        return 0, 0  # there is none
    return struct.unpack_from("=II", told, COUNTS_AT)


def is_read(netlink, connection):
    """Whether the other side has read all that was sent to it, or is gone."""
    mine, other = connection.getsockname()[1], connection.getpeername()[1]
    return counts_of(netlink, mine, other)[1] == 0 and counts_of(netlink, other, mine)[0] == 0


class Flow(Answer):
    """A head, and then so many bytes of a body from this one on, or as many as the other side takes.

    Each piece is sent once the one before was read, so that `sent` is what was read, but for a piece. Behind so many bytes it
    waits until it is told to go on.
    """

    def __init__(self, head, length, first=0, held_at=None, piece=PIECE, seconds_each=0.0):
        super().__init__(head, then="end")
        self.length, self.first, self.piece, self.seconds_each = length, first, piece, seconds_each
        self.held_at = length if held_at is None else held_at
        self.goes_on, self.is_over = threading.Event(), threading.Event()
        self.sent = 0

    def give(self, connection):
        try:
            connection.sendall(self.text)
            with socket.socket(socket.AF_NETLINK, socket.SOCK_RAW, NETLINK_SOCK_DIAG) as netlink:
                while self.sent < self.length and self._may_go_on(netlink, connection):
                    end = self.length if self.sent >= self.held_at else self.held_at
                    piece = noise(min(self.piece, end - self.sent), self.first + self.sent)
                    connection.sendall(piece)
                    self.sent += len(piece)
                    time.sleep(self.seconds_each)
        finally:
            self.is_over.set()

    def _may_go_on(self, netlink, connection):
        """Waits until it may. False where the other side is gone."""
        while count_open([connection]) and not is_read(netlink, connection):
            time.sleep(0.001)
        if self.sent >= self.held_at:
            self.goes_on.wait(HELD_SECONDS)
        return count_open([connection]) > 0


def flow_from(ask, length, *fields, held_at=None, piece=PIECE):
    """What an ask wants of a body of so many bytes: a part where it has a range, else the whole."""
    asked = ask.field(b"range")
    first, last = span_of(asked or b"bytes=0-", length)
    place = [b"Content-Range: bytes %d-%d/%d" % (first, last, length)] if asked else []
    status = b"206 Partial Content" if asked else b"200 OK"
    head = lines(b"HTTP/1.1 " + status, *fields, *place, b"Content-Length: %d" % (last + 1 - first))
    return Flow(head, last + 1 - first, first, held_at, piece)


def whole_flow(length, *fields):
    """The whole of a body of so many bytes, slowly, whatever is asked."""
    head = lines(b"HTTP/1.1 200 OK", *fields, b"Content-Length: %d" % length)
    return Flow(head, length, seconds_each=0.002)


class Flows:
    """What an origin gives of a body of so many bytes on a path, in the order of its asks; each waits behind so many bytes."""

    def __init__(self, origin, path, length, *fields, held_at=None, piece=PIECE, gives_ranges=True):
        self.all, self.asked = [], []
        if gives_ranges:
            self._give = lambda ask: flow_from(ask, length, *fields, held_at=held_at, piece=piece)
        else:
            self._give = lambda ask: whole_flow(length, *fields)
        origin.on(path, self._answer)

    def _answer(self, ask):
        self.asked.append(ask.field(b"range"))
        self.all.append(self._give(ask))
        return self.all[-1]

    def wait(self):
        """How much each sent, once they are over."""
        holds(all(flow.is_over.wait(PATIENCE) for flow in self.all), "an end of what the origin sends")
        return self._counts()

    def at_rest(self):
        """How much each sent, once none sent more for some seconds."""
        before, sent = None, self._counts()
        while sent != before:
            time.sleep(3)
            before, sent = sent, self._counts()
        return sent

    def _counts(self):
        return [flow.sent for flow in self.all]
