"""Measures what is served from memory, and what is fetched and stored there or not, through proxies that cache: hits.py PROGRAM. The
client is bench/load.c."""

import email.utils
import multiprocessing
import os
import signal
import socket
import statistics
import subprocess
import sys
import tempfile
import time

sys.path.insert(0, os.path.join(os.path.dirname(os.path.abspath(__file__)), "..", "e2e"))

from network import raise_loopback  # noqa: E402
from origin import noise  # noqa: E402
from ways import ALL_IN_MEMORY, IN_MEMORY, Way, describe_machine, origin_of, report, start_nginx, start_polipo, start_squid  # noqa: E402

ROUNDS = 3
SECONDS = 2.0
# As many as all connections that the proxies may keep, and those of the client.
ORIGINS = 128
IDLE = 200
IDLE_ROUNDS = 9
IDLE_SECONDS = 1.0
READERS = 64
NEW_LEN = 50_000_000
SIZES = {"/1k": (1024, 32), "/100k": (102_400, 8), "/10m": (10_000_000, 4)}
HEAD = "HTTP/1.1 200 OK\r\nDate: {}\r\nCache-Control: {}\r\nETag: \"v\"\r\nContent-Length: {}\r\n\r\n"
# Pages that are new at each request, and their Cache-Control.
MISSES = {"/stored/": "max-age=86400", "/unstored/": "no-store"}


def response(body, control="max-age=86400"):
    return HEAD.format(email.utils.formatdate(usegmt=True), control, len(body)).encode() + body


def answers(replies, misses, new, asked):
    """What is answered to a head. What is new under each path is counted as it is asked for."""

    def answer_to(head):
        path = head.split(b" ", 2)[1].decode()
        for kind, reply in misses.items():
            if path.startswith(kind):
                return reply
        if path not in replies:
            with asked.get_lock():
                asked.value += 1
        return replies.get(path, new)

    return answer_to


def seconds_of(process):
    """Its processor time, in seconds."""
    with open(f"/proc/{process.pid}/stat") as file:
        fields = file.read().rsplit(")", 1)[1].split()
    own = (int(fields[11]) + int(fields[12])) / os.sysconf("SC_CLK_TCK")
    children = subprocess.run(["pgrep", "-P", str(process.pid)], capture_output=True, text=True).stdout.split()
    for child in children:  # nginx's worker
        with open(f"/proc/{child}/stat") as file:
            fields = file.read().rsplit(")", 1)[1].split()
        own += (int(fields[11]) + int(fields[12])) / os.sysconf("SC_CLK_TCK")
    return own


def megabytes_of(process):
    with open(f"/proc/{process.pid}/status") as file:
        return next(int(line.split()[1]) / 1000 for line in file if line.startswith("VmHWM"))


class Loads:
    """The client: a program in C, which is built here."""

    def __init__(self, folder):
        self.folder = folder
        source = os.path.join(os.path.dirname(os.path.abspath(__file__)), "load.c")
        subprocess.run(["cc", "-O2", "-o", f"{folder}/load", source], check=True)

    def run(self, way, path, connections, seconds):
        """Replies a second, megabytes a second, failures, and the seconds that it took."""
        with open(f"{self.folder}/request", "wb") as file:
            file.write(way.request(path))
        host, port = way.address
        words = [f"{self.folder}/load", host, str(port), str(connections), str(seconds), f"{self.folder}/request"]
        replies, volume, took, failures = subprocess.run(words, capture_output=True, text=True, check=True).stdout.split()
        return int(replies) / float(took), int(volume) / float(took) / 1e6, int(failures), float(took)


def compare(loads, ways, title, path, connections, unit):
    """The path has ROUND in it where each round is to ask for others."""
    results, failed, spent = {way.name: [] for way in ways}, {}, {way.name: [] for way in ways}
    for turn in range(ROUNDS):
        for way in ways:
            before = seconds_of(way.process) if way.process else 0
            measured = loads.run(way, path.replace("ROUND", f"{way.name}/{turn}"), connections, SECONDS)
            results[way.name].append(measured[0 if unit == "/s" else 1])
            failed[way.name] = failed.get(way.name, 0) + measured[2]
            if way.process:
                spent[way.name].append((seconds_of(way.process) - before) / max(1, measured[0] * measured[3]) * 10_000)
    report(title, unit, results)
    for way in ways:
        if spent[way.name]:
            print(f"  {way.name:<10} {statistics.median(spent[way.name]):.3f} processor seconds for 10,000 of them")
        if failed[way.name]:
            print(f"  {way.name}: {failed[way.name]} requests failed")


def beside_idle_clients(loads, way):
    """How fast hits are while so many clients are connected and say nothing, of what they are without. What one run of the client takes
    varies by a half on a machine that others share, so they come without, with, with, and without in each round, and there are more rounds."""
    ratios = []
    for _ in range(IDLE_ROUNDS):
        alone = loads.run(way, "/1k", 32, IDLE_SECONDS)[0]
        idle = [socket.create_connection(way.address) for _ in range(IDLE)]
        time.sleep(0.2)
        beside = sum(loads.run(way, "/1k", 32, IDLE_SECONDS)[0] for _ in range(2))
        for client in idle:
            client.close()
        time.sleep(0.2)
        alone += loads.run(way, "/1k", 32, IDLE_SECONDS)[0]
        ratios.append(beside / alone)
    print(
        f"  {way.name:<10} {statistics.median(ratios):.2f} of it beside {IDLE} clients that say nothing"
        f" ({min(ratios):.2f} to {max(ratios):.2f} in {IDLE_ROUNDS} rounds)"
    )


def read_by_many(loads, ways, asked):
    """Many readers of one new body at once: how long it takes, and how often the origin is asked."""
    print(f"\n{READERS} readers of a new body of {NEW_LEN // 1_000_000} MB")
    for way in ways[1:]:
        took, asks = [], []
        for turn in range(ROUNDS):
            before = asked.value
            _, _, failures, seconds = loads.run(way, f"/new/{way.name}/{turn}", READERS, 0)
            took.append(seconds)
            asks.append(asked.value - before)
            if failures:
                print(f"  {way.name}: {failures} requests failed")
        print(f"  {way.name:<10} {statistics.median(took):6.2f} s, asked {statistics.median(asks):.0f} times")


def main():
    raise_loopback()
    describe_machine()
    print(f"{ROUNDS} rounds of {SECONDS} s, interleaved; medians; client (in C) and origin (in Python) on the same machine")
    replies = {path: response(noise(length)) for path, (length, _) in SIZES.items()}
    misses = {kind: response(noise(1024), control) for kind, control in MISSES.items()}
    new, asked = response(noise(NEW_LEN)), multiprocessing.Value("q", 0)
    with tempfile.TemporaryDirectory(dir=IN_MEMORY) as folder, origin_of(ORIGINS, answers(replies, misses, new, asked)) as address:
        os.chmod(folder, 0o777)
        loads = Loads(folder)
        ways = [Way("direct", address, f"127.0.0.1:{address[1]}")]
        try:
            start_polipo(os.path.abspath(sys.argv[1]), folder, ways)
            start_squid(folder, ways, ALL_IN_MEMORY)
            start_nginx(folder, ways)
            for path, (length, connections) in SIZES.items():
                unit = "/s" if length < 100_000 else "MB/s"
                compare(loads, ways, f"hits of {length:,} bytes, {connections} connections", path, connections, unit)
            for kind in MISSES:
                compare(loads, ways, f"new pages of 1,024 bytes, {kind.strip('/')}, 32 connections", f"{kind}ROUND/########", 32, "/s")
            print()
            for way in ways[1:]:
                beside_idle_clients(loads, way)
            read_by_many(loads, ways, asked)
            print()
            for way in ways[1:]:
                print(f"  {way.name:<10} {megabytes_of(way.process):.0f} MB of memory at most")
        finally:
            for way in ways:
                way.stop()


if __name__ == "__main__":
    signal.signal(signal.SIGTERM, lambda *_: sys.exit(1))
    main()
