"""The operator's log: a line for each reply, in the common log format."""

import contextlib
import datetime
import os
import pathlib
import re
import subprocess
import tempfile
import threading
import time

from harness import case, equal, holds
from keeping import TAG, serve_whole
from network import free_port, wait_until_it_listens
from origin import DATE, Answer, lines, noise, plain, response
from words import started
from world import BAD_REQUEST, Client

LINE = re.compile(
    rb'(?P<client>\S+) - - \[(?P<time>[^]]+)\] "(?P<request>(?:[^"\\\n]|\\.)*)" (?P<status>\d{3}) (?P<length>\d+)'
    rb" (?P<source>hit|part|checked|fetched|passed|refused)(?P<cut>:cut)? (?P<millis>\d+)\n"
)
FAILS = b"polipo: cannot write the access log\n"
AGAIN = b"polipo: the access log is written again, without %d lines\n"
# So long a change of the log's file may go unnoticed, and a little more.
NOTICED = 3


def read(path):
    """The bytes of a file, none where it is not there."""
    return path.read_bytes() if path.exists() else b""


def parsed(text):
    """The lines of a log, and nothing else."""
    found = list(LINE.finditer(text))
    equal(b"".join(line.group() for line in found), text, "the lines of the log, as they are understood")
    return found


def came(read_all, wanted, seconds=5):
    """What is read, once this many lines are there."""
    deadline = time.monotonic() + seconds
    while (text := read_all()).count(b"\n") < wanted and time.monotonic() < deadline:
        time.sleep(0.02)
    return text


def told(path, wanted):
    """So many lines of the log."""
    found = parsed(came(lambda: read(path), wanted))
    equal(len(found), wanted, "the count of lines")
    return found


def words_of(line):
    """Status, bytes, source and whether it is cut."""
    return int(line["status"]), int(line["length"]), line["source"].decode(), line["cut"] is not None


def heard(proxy, text):
    """All that a client is told that says this, and ends."""
    with Client(port=proxy.port) as client:
        client.say(text)
        return client.hear_all()


@contextlib.contextmanager
def logging(world, *words, name="log"):
    """The program with a log in its folder, and the log's path."""
    with world.anew(f"accessLog={name}", *words) as proxy:
        yield proxy, pathlib.Path(proxy.folder.name) / name


def answered_by_date(ask):
    """What must be checked at each use, and stands."""
    fields = [b'ETag: "v"', DATE, b"Cache-Control: max-age=0"]
    if ask.field(b"if-none-match"):
        return Answer(lines(b"HTTP/1.1 304 Not Modified", *fields))
    return Answer(response(b"hello", *fields))


@case
def each_reply_has_a_line_with_what_it_was_made_of(world):
    body = noise(20_000)
    with logging(world) as (proxy, log):
        serve_whole(proxy, "/a", b"hello")
        serve_whole(proxy, "/parts", body)
        proxy.origin.on("/checked", answered_by_date)
        proxy.origin.on("/gone", Answer(b"", then="end"))
        asks = [
            (proxy.last_request("/a"), (200, 5, "fetched", False)),
            (proxy.last_request("/a"), (200, 5, "hit", False)),
            (proxy.last_request("/a", b"If-None-Match: " + TAG), (304, 0, "hit", False)),
            (proxy.last_request("/a", method="HEAD"), (200, 0, "hit", False)),
            (proxy.last_request("/a", b"Range: bytes=1-2"), (206, 2, "hit", False)),
            (proxy.last_request("/parts", b"Range: bytes=0-4095"), (206, 4_096, "fetched", False)),
            (proxy.last_request("/parts"), (200, 20_000, "part", False)),
            (proxy.last_request("/checked"), (200, 5, "fetched", False)),
            (proxy.last_request("/checked"), (200, 5, "checked", False)),
            (proxy.last_request("/a", b"Content-Length: 0", method="POST"), (200, 5, "passed", False)),
            (proxy.last_request("/gone"), (502, 16, "refused", False)),
            (b"GET / HTTP/9\r\n\r\n", (400, 16, "refused", False)),
        ]
        for text, _ in asks:
            heard(proxy, text)
        found = told(log, len(asks))
        for line, (text, wanted) in zip(found, asks):
            equal(words_of(line), wanted, f"the line of {text!r}")
            request = text.split(b"\r\n")[0] if wanted[0] != 400 else b"-"
            equal((line["client"], line["request"]), (b"127.0.0.1", request), "client and request")
            when = datetime.datetime.strptime(line["time"].decode(), "%d/%b/%Y:%H:%M:%S %z").timestamp()
            holds(abs(when - time.time()) < 60, f"the time of now in place of {line['time']!r}")
            holds(int(line["millis"]) < 20_000, "few milliseconds")


@case
def replies_of_one_connection_have_lines_in_their_order(world):
    with logging(world) as (proxy, log):
        proxy.origin.on("/a", Answer(plain(b"hello")))
        proxy.origin.on("/late", Answer(plain(b"at last"), pause=0.3))
        proxy.origin.on("/slow", Answer(plain(noise(1_000)), cuts=[200], pause=0.3))
        paths = ["/a", "/slow", "/a", "/late", "/a"]
        heard(proxy, b"".join(proxy.request(path) for path in paths[:-1]) + proxy.last_request("/a"))
        found = told(log, len(paths))
        equal([line["request"].split()[1].decode() for line in found], [proxy.url(path) for path in paths], "their order")
        slow = int(found[1]["millis"])
        holds(300 <= slow < 20_000, f"300 milliseconds at least in place of {slow}")


@case
def a_reply_that_is_cut_is_told_with_the_bytes_that_were_said(world):
    body = noise(400_000)
    with logging(world) as (proxy, log):
        proxy.origin.on("/cut", Answer(plain(body)[:150_000], piece=10_000, pause=0.005, then="end"))
        said = heard(proxy, proxy.last_request("/cut"))
        length = len(said.partition(b"\r\n\r\n")[2])
        equal(words_of(told(log, 1)[0]), (200, length, "fetched", True), "the line of a reply that its origin cut")
        goes_on = threading.Event()
        proxy.origin.on("/left", Answer(plain(body), cuts=[100_000], goes_on=goes_on))
        with Client(port=proxy.port) as client:
            client.say(proxy.request("/left"))
            client.hear(50_000)
            client.reset()
        goes_on.set()
        status, length, source, is_cut = words_of(told(log, 2)[1])
        equal((status, source, is_cut), (200, "fetched", True), "the line of a reply that its client left")
        holds(0 < length < len(body), f"fewer bytes than all in place of {length}")


@case
def what_a_client_sends_ends_no_line(world):
    with logging(world) as (proxy, log):
        for path in [b'"', b"\\", "\u00e9".encode(), b"\x7f\x01", b"]["]:
            heard(proxy, lines(b"GET http://127.0.0.1:1/" + path + b" HTTP/1.1", b"Host: a", b"Connection: close"))
        for garbage in [b"\x16\x03\x01\x00\xff\r\n\r\n", b'" 200 0 hit 0\r\n\r\n']:
            heard(proxy, garbage)
        told(log, 7)
        heard(proxy, BAD_REQUEST)
        told(log, 8)


@case
def nothing_is_written_where_nothing_is_said(world):
    with world.anew() as proxy:
        proxy.origin.on("/a", Answer(plain(b"hello")))
        heard(proxy, proxy.last_request("/a"))
        equal(sorted(os.listdir(proxy.folder.name)), ["polipo-cache"], "what the program made")


@case
def lines_go_to_standard_error_where_a_hyphen_is_said(world):
    serve_whole(world, "/a", b"hello")
    port = free_port()
    with started(world, port, [f"proxyPort={port}", "accessLog=-"]) as process:
        for _ in range(3):
            with Client(port=port) as client:
                client.say(world.last_request("/a"))
                client.hear_all()
        time.sleep(0.5)
        process.kill()
        output, complaint = process.communicate()
    equal(output, b"", "standard output")
    equal([words_of(line)[2] for line in parsed(complaint)], ["fetched", "hit", "hit"], "standard error")


def load(proxy, until):
    """Clients that ask until this is set. Answers the count of replies."""
    counts = []

    def ask():
        count = 0
        with Client(port=proxy.port) as client:
            while not until.is_set():
                client.say(proxy.request("/a"))
                holds(client.hear_until(b"\r\n\r\n") and client.hear(5) == b"hello", "a reply")
                count += 1
        counts.append(count)

    threads = [threading.Thread(target=ask, daemon=True) for _ in range(8)]
    for thread in threads:
        thread.start()
    return threads, counts


@case
def a_log_that_is_moved_is_begun_anew_and_loses_no_line(world):
    with logging(world) as (proxy, log):
        proxy.origin.on("/a", Answer(plain(b"hello")))
        until = threading.Event()
        threads, counts = load(proxy, until)
        old = [log.with_name(f"log.{number}") for number in range(3)]
        for path in old:
            time.sleep(0.5)
            log.rename(path)
            deadline = time.monotonic() + NOTICED
            while not log.exists() and time.monotonic() < deadline:
                time.sleep(0.01)
            holds(log.exists(), f"a log that is begun anew within {NOTICED} seconds")
        until.set()
        for thread in threads:
            thread.join()
        wanted = sum(counts)
        text = came(lambda: b"".join(read(path) for path in [*old, log]), wanted)
        equal(len(parsed(text)), wanted, "the count of lines in all")
        holds(all(read(path) for path in old), "lines in each")
        equal(log.stat().st_mode & 0o777, 0o600, "who may read it")


@case
def a_log_that_is_there_is_gone_on_with(world):
    with logging(world) as (proxy, log):
        proxy.origin.on("/a", Answer(plain(b"hello")))
        heard(proxy, proxy.last_request("/a"))
        told(log, 1)
        proxy.restart()
        heard(proxy, proxy.last_request("/a"))
        told(log, 2)


@contextlib.contextmanager
def complaining(world, name):
    """The program with a log that cannot be written: it need not be silent."""
    proxy = type(world)(world.program, free_port(), [f"accessLog={name}"])
    try:
        yield proxy
    finally:
        proxy.stop()


@case
def a_log_that_cannot_be_made_is_complained_of_once_and_written_later(world):
    with complaining(world, "logs/log") as proxy:
        proxy.origin.on("/a", Answer(plain(b"hello")))
        for _ in range(3):
            holds(heard(proxy, proxy.last_request("/a")).endswith(b"hello"), "a reply")
            time.sleep(1)
        equal(proxy.printed(), FAILS, "what is said while it fails")
        folder = pathlib.Path(proxy.folder.name) / "logs"
        folder.mkdir()
        told(folder / "log", 3)
        equal(came(proxy.printed, 2), FAILS + AGAIN % 0, "what is said behind it")


@case
def a_log_on_a_full_disk_fails_no_reply(world):
    for name in ["/dev/full", "pipe"]:
        with complaining(world, name) as proxy:
            if name == "pipe":
                proxy.stop()
                (path := pathlib.Path(proxy.folder.name) / name).unlink()
                os.mkfifo(path)
                proxy.start()
            proxy.origin.on("/a", Answer(plain(b"hello")))
            for _ in range(3):
                holds(heard(proxy, proxy.last_request("/a")).endswith(b"hello"), "a reply")
                time.sleep(0.7)
            proxy.check_still_served()
            equal(proxy.printed().count(FAILS), 1, f"how often it is said of {name}")


@case
def lines_that_find_no_room_are_counted(world):
    with complaining(world, "logs/log") as proxy:
        proxy.origin.on("/a", Answer(plain(b"hello")))
        path = "/a?" + "a" * 4_000
        proxy.origin.on(path, Answer(plain(b"hello")))
        count = 40
        with Client(port=proxy.port) as client:
            for _ in range(count):
                client.say(proxy.request(path))
                holds(client.hear_until(b"\r\n\r\n") and client.hear(5) == b"hello", "a reply")
        folder = pathlib.Path(proxy.folder.name) / "logs"
        folder.mkdir()
        said = came(proxy.printed, 2)
        found = re.fullmatch(re.escape(FAILS) + rb"polipo: the access log is written again, without (\d+) lines\n", said)
        holds(found, f"two complaints in place of {said!r}")
        lost = int(found[1])
        holds(lost > 0, "some lines are lost")
        told(folder / "log", count - lost)


@case
def at_the_last_turn_no_line_is_lost(world):
    world.origin.on("/a", Answer(plain(b"hello")))
    port = free_port()
    words = [world.program, f"proxyPort={port}", "accessLog=log", "maxTurns=400"]
    with tempfile.TemporaryDirectory() as folder:
        process = subprocess.Popen(words, stdin=subprocess.DEVNULL, cwd=folder)
        holds(not wait_until_it_listens(process, port), "a program that listens")
        replies = 0
        with contextlib.suppress(OSError):
            while process.poll() is None:
                with Client(5, port) as client:
                    client.say(world.last_request("/a"))
                    replies += client.hear_all().endswith(b"hello")
        equal(process.wait(timeout=20), 0, "the status")
        found = len(parsed(read(pathlib.Path(folder) / "log")))
    holds(0 < replies <= found <= replies + 1, f"a line for each of {replies} replies in place of {found}")
