"""Measures an origin on 127.0.0.1 direct and through proxies: pass.py PROGRAM."""

import multiprocessing
import os
import signal
import socket
import sys
import tempfile
import time

sys.path.insert(0, os.path.join(os.path.dirname(os.path.abspath(__file__)), "..", "e2e"))

from network import raise_loopback  # noqa: E402
from origin import noise, plain, response  # noqa: E402
from ways import IN_MEMORY, NOTHING, Way, describe_machine, origin_of, report, start_polipo, start_squid, start_tinyproxy  # noqa: E402

ROUNDS = 5
SECONDS = 2.0
CLIENTS = 8
ORIGINS = 48
LARGE_LEN = 200_000_000
# What the origin answers; made before its processes are, which share it.
SMALL, LARGE = response(noise(1024), b"Cache-Control: no-store"), plain(noise(LARGE_LEN))


def answer_to(head):
    return LARGE if b"/large " in head else SMALL


def length_of(head):
    for line in head.lower().split(b"\r\n"):
        if line.startswith(b"content-length:"):
            return int(line[15:])
    raise ValueError("no length")


class Closed(Exception):
    """The other side ended the connection in place of a reply."""


class Client:
    """Asks one thing again and again, on one connection as long as the other side keeps it."""

    def __init__(self, way, path):
        self.way, self.text = way, way.request(path)
        self.room = bytearray(1 << 18)
        self.socket = None

    def open(self):
        self.socket = socket.create_connection(self.way.address, timeout=20)
        self.socket.setsockopt(socket.IPPROTO_TCP, socket.TCP_NODELAY, 1)

    def ask(self):
        """One reply. Answers the length of its body."""
        if self.socket is not None:
            try:
                return self.exchange()
            except Closed:
                pass  # the other side did not keep the connection
        self.open()
        return self.exchange()

    def exchange(self):
        heard = b""
        try:
            self.socket.sendall(self.text)
            heard = self.socket.recv(65536)
        except ConnectionError:
            pass
        if not heard:
            self.socket.close()
            self.socket = None
            raise Closed
        while b"\r\n\r\n" not in heard:
            piece = self.socket.recv(65536)
            if not piece:
                raise ConnectionError("no head")
            heard += piece
        head, _, body = heard.partition(b"\r\n\r\n")
        if not head.startswith((b"HTTP/1.1 200", b"HTTP/1.0 200")):
            raise ConnectionError(head[:40])
        length, came = length_of(head), len(body)
        while came < length:
            count = self.socket.recv_into(self.room)
            if count == 0:
                raise ConnectionError("cut")
            came += count
        if b"connection: close" in head.lower():
            self.socket.close()
            self.socket = None
        return length


def hurry(way, path, seconds, out):
    """One client process: the count of its replies, their bytes, and how often it got none."""
    client, replies, volume, failures = Client(way, path), 0, 0, 0
    end = time.monotonic() + seconds
    while time.monotonic() < end:
        try:
            volume += client.ask()
            replies += 1
        except (Closed, OSError, ValueError):
            client.socket = None
            failures += 1
    out.put((replies, volume, failures))


def measure(way, path, clients):
    """Replies and megabytes a second, and how many requests failed."""
    out = multiprocessing.Queue()
    start = time.monotonic()
    processes = [multiprocessing.Process(target=hurry, args=(way, path, SECONDS, out)) for _ in range(clients)]
    for process in processes:
        process.start()
    results = [out.get(timeout=60) for _ in processes]
    elapsed = time.monotonic() - start
    for process in processes:
        process.join()
    replies, volume, failures = (sum(values) for values in zip(*results))
    return replies / elapsed, volume / elapsed / 1e6, failures


def compare(ways, title, unit, path, clients, which):
    results = {way.name: [] for way in ways}
    failures = {way.name: 0 for way in ways}
    for _ in range(ROUNDS):
        for way in ways:
            measured = measure(way, path, clients)
            results[way.name].append(measured[which])
            failures[way.name] += measured[2]
    report(title, unit, results)
    for name, count in failures.items():
        if count:
            print(f"  {name}: {count} requests failed")


def main():
    raise_loopback()
    describe_machine()
    print(f"{ROUNDS} rounds of {SECONDS} s, interleaved; medians; client and origin on the same machine, in Python")
    with tempfile.TemporaryDirectory(dir=IN_MEMORY) as folder, origin_of(ORIGINS, answer_to) as address:
        ways = [Way("direct", address, f"127.0.0.1:{address[1]}")]
        try:
            start_polipo(os.path.abspath(sys.argv[1]), folder, ways)
            start_tinyproxy(folder, ways)
            start_squid(folder, ways, NOTHING)
            compare(ways, f"replies of 1 KiB, {CLIENTS} clients", "/s", "/small", CLIENTS, 0)
            compare(ways, f"a body of {LARGE_LEN // 1_000_000} MB, one client", "MB/s", "/large", 1, 1)
        finally:
            for way in ways:
                way.stop()


if __name__ == "__main__":
    signal.signal(signal.SIGTERM, lambda *_: sys.exit(1))
    main()
