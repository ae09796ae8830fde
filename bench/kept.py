"""Measures bodies that the proxy keeps on its disk, and serves from it: kept.py PROGRAM."""

import email.utils
import multiprocessing
import os
import shutil
import signal
import socket
import statistics
import subprocess
import sys
import tempfile
import time

sys.path.insert(0, os.path.join(os.path.dirname(os.path.abspath(__file__)), "..", "e2e"))

from disk import IN_MEMORY, SLOW_SYNC, delayed  # noqa: E402
from network import free_port, raise_loopback, wait_until_it_listens  # noqa: E402
from ways import describe_machine, origin_of, stop  # noqa: E402

ROUNDS = 3
SECONDS = 2.0
CLIENTS = 8
ORIGINS = 16
RUNS = (1, 16, 64)
SMALL, LARGE = 4096, 10_000_000
# So many small bodies are more than memory has chunks for.
KEPT_SMALL = 6000
HEAD = "HTTP/1.1 200 OK\r\nDate: {}\r\nCache-Control: max-age=86400\r\nETag: \"v\"\r\nContent-Length: {}\r\n\r\n"


def fresh(length):
    return HEAD.format(email.utils.formatdate(usegmt=True), length).encode() + bytes(range(256)) * (length // 256) + bytes(length % 256)


class Reader:
    """A client that reads replies of one length over one connection."""

    def __init__(self, port, authority):
        self.socket = socket.create_connection(("127.0.0.1", port))
        self.socket.setsockopt(socket.IPPROTO_TCP, socket.TCP_NODELAY, 1)
        self.authority = authority
        self.buffer = bytearray(1 << 18)

    def read(self, path, length):
        self.socket.sendall(f"GET http://{self.authority}{path} HTTP/1.1\r\nHost: {self.authority}\r\n\r\n".encode())
        text = b""
        while b"\r\n\r\n" not in text:
            text += self.more()
        left = length - len(text.partition(b"\r\n\r\n")[2])
        while left > 0:
            left -= self.socket.recv_into(self.buffer, min(left, len(self.buffer))) or self.end()

    def more(self):
        return self.socket.recv(65536) or self.end()

    def end(self):
        raise SystemExit("the proxy ended a connection")


def read_for(port, authority, number, seconds, count):
    """Reads bodies that are new, for so long."""
    reader, end, done = Reader(port, authority), time.monotonic() + seconds, 0
    while time.monotonic() < end:
        reader.read(f"/small/{os.getpid()}/{number}/{done}", SMALL)
        done += 1
    with count.get_lock():
        count.value += done


def read_all(port, authority, number, first):
    """Reads a part of the bodies that are kept."""
    reader = Reader(port, authority)
    for at in range(number, KEPT_SMALL, CLIENTS):
        reader.read(f"/small/{first}/{at}", SMALL)


def together(function, *words):
    """Seconds that so many clients take at once."""
    start = time.monotonic()
    clients = [multiprocessing.Process(target=function, args=(*words[:2], number, *words[2:])) for number in range(CLIENTS)]
    for client in clients:
        client.start()
    for client in clients:
        client.join()
    return time.monotonic() - start


class Program:
    """The proxy over a new folder in memory."""

    def __init__(self, program, run, delay):
        self.folder = tempfile.mkdtemp(dir=IN_MEMORY)
        self.words = [*([*delayed(delay), "-D"] if delay else []), program, f"diskRun={run}", f"diskCacheRoot={self.folder}/cache"]
        self.start()

    def start(self):
        self.port = free_port()
        words = [*self.words, f"proxyPort={self.port}"]
        self.process = subprocess.Popen(words, stdin=subprocess.DEVNULL, stdout=subprocess.DEVNULL, stderr=subprocess.DEVNULL)
        if why := wait_until_it_listens(self.process, self.port):
            raise SystemExit(why)

    def entries(self):
        return sum(len(name) == 32 for name in os.listdir(f"{self.folder}/cache"))

    def restart(self):
        stop(self.process)
        self.start()

    def end(self):
        stop(self.process)
        shutil.rmtree(self.folder)


def misses(program, authority, run, delay):
    """Small bodies a second, and megabytes of a large body a second, that are fetched and stored."""
    proxy = Program(program, run, delay)
    try:
        count = multiprocessing.Value("q", 0)
        took = together(read_for, proxy.port, authority, SECONDS, count)
        rate, kept = count.value / took, proxy.entries() / max(1, count.value)
        start = time.monotonic()
        Reader(proxy.port, authority).read("/large", LARGE)
        return rate, kept, LARGE / 1e6 / (time.monotonic() - start)
    finally:
        proxy.end()


def hits(program, authority):
    """Small bodies a second, and megabytes of a large body a second, that are read from the disk behind a restart."""
    proxy = Program(program, 16, 0)
    try:
        together(read_all, proxy.port, authority, "kept")
        Reader(proxy.port, authority).read("/large", LARGE)
        proxy.restart()
        took = together(read_all, proxy.port, authority, "kept")
        start = time.monotonic()
        Reader(proxy.port, authority).read("/large", LARGE)
        return KEPT_SMALL / took, LARGE / 1e6 / (time.monotonic() - start)
    finally:
        proxy.end()


def main():
    raise_loopback()
    describe_machine()
    program = os.path.abspath(sys.argv[1])
    small, large = fresh(SMALL), fresh(LARGE)
    # Each path has a body, a large one below /large.
    with origin_of(ORIGINS, lambda head: large if b" /large" in head[:12] else small) as (host, port):
        authority = f"{host}:{port}"
        print(f"{ROUNDS} rounds, medians; {CLIENTS} clients, new bodies of {SMALL} bytes for {SECONDS} s; then one of {LARGE:,}")
        for delay in (0, SLOW_SYNC):
            for run in RUNS:
                rounds = [misses(program, authority, run, delay) for _ in range(ROUNDS)]
                rate, kept, volume = (statistics.median(values) for values in zip(*rounds))
                print(f"a sync takes {delay / 1000:.0f} ms, {run:>2} chunks a run: {rate:8,.0f} /s, {kept:4.0%} kept; {volume:7.1f} MB/s", flush=True)
        rate, volume = (statistics.median(values) for values in zip(*(hits(program, authority) for _ in range(ROUNDS))))
        print(f"from the disk: {rate:,.0f} /s of {KEPT_SMALL} bodies; {volume:.1f} MB/s of one of {LARGE:,}")


if __name__ == "__main__":
    signal.signal(signal.SIGTERM, lambda *_: sys.exit(1))
    main()
