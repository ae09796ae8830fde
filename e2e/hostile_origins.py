#!/usr/bin/env python3
"""Hostile origins at random, and clients at random: whatever they do, each client is told what is its own.

    hostile_origins.py PROGRAM SEED SECONDS

Each byte of a body names its response (named_origin.py), so a mixture shows at once. Of each client is asked what the standard
says: its replies come in order, each under one head and whole or cut at the connection's end, with the bytes of one response or
one version alone, in the length that is told; nothing comes behind a reply that closes; nobody is left unanswered. What is found
is printed with all that was said, and the status is 1.
"""

import contextlib
import os
import pathlib
import random
import re
import socket
import sys
import threading
import time

sys.path.insert(1, str(pathlib.Path(__file__).resolve().parent.parent / "transcripts"))

from exchanges import Malformed, replies_of
from harness import case, holds, lasting
from named_origin import Names, NamedOrigin, body_of
from origin import abort, span_of

CLIENTS = 36
ORIGINS = 12
PATHS = 2
PATIENCE = 40.0  # within which everything that is asked is answered
CASE_SECONDS = 36
PAGES = {400, 411, 416, 431, 500, 502, 504}
FIELDS = [[]] * 4 + [[b"Cache-Control: no-cache"]] * 3 + [[b"Cache-Control: no-store"], [b"Cache-Control: only-if-cached"]]


class Wrong(Exception):
    """What a client was told is not its own."""


def some_request(generator, origin, is_last):
    """A method, a path, the range that is asked for, and the text."""
    method = generator.choice(["GET"] * 8 + ["HEAD"])
    path = generator.choice(list(origin.paths))
    fields = list(generator.choice(FIELDS))
    asked = None
    if generator.random() < 0.5:
        first = generator.choice([0, 1, 99, 4_000, 4_095, 4_096, 5_000, 8_192, 20_000])
        asked = generator.choice([b"bytes=%d-" % first, b"bytes=%d-%d" % (first, first + generator.choice([0, 99, 5_000])), b"bytes=-%d" % (first + 1)])
        fields.append(b"Range: " + asked)
    if is_last:
        fields.append(b"Connection: close")
    line = f"{method} http://{origin.authority}{path} HTTP/1.1".encode()
    return method, path, asked, b"\r\n".join([line, b"Host: " + origin.authority.encode(), *fields]) + b"\r\n\r\n"


class Session:
    """One connection of a client: some requests to one origin, and what it heard."""

    def __init__(self, generator, names, origin, port):
        self.generator = generator
        self.names = names
        self.origin = origin
        count = generator.choice([1, 1, 2, 3, 5])
        self.requests = [some_request(generator, origin, at == count - 1) for at in range(count)]
        self.manner = generator.choice(["stays", "stays", "half-closed", "slow", "gone", "gone"])
        self.heard = b""
        self.is_ended = False
        self.started = time.monotonic()
        self.socket = socket.create_connection(("127.0.0.1", port), timeout=PATIENCE)

    def run(self):
        """Says all, listens, and judges what came."""
        with contextlib.closing(self.socket):
            self._talk()
        self.judge()

    def _talk(self):
        stops = self.generator.randrange(30_000) if self.manner == "gone" else None
        text = b"".join(request[3] for request in self.requests)
        if self.manner == "slow":
            self.socket.setsockopt(socket.SOL_SOCKET, socket.SO_RCVBUF, 4_096)
        try:
            self.socket.sendall(text)
            if self.manner == "half-closed":
                self.socket.shutdown(socket.SHUT_WR)
            while stops is None or len(self.heard) < stops:
                if self.manner == "slow" and self.generator.random() < 0.3:
                    time.sleep(0.02)
                piece = self.socket.recv(self.generator.choice([1, 500, 65_536]) if self.manner == "slow" else 65_536)
                if not piece:
                    self.is_ended = True
                    return
                self.heard += piece
            if self.generator.random() < 0.5:
                abort(self.socket)
        except TimeoutError:
            raise Wrong(f"nothing came for {PATIENCE:.0f} seconds") from None
        except ConnectionError:
            self.is_ended = True  # a reset in place of an end

    # ---- what it heard

    def judge(self):
        try:
            replies, end = replies_of(self.heard, [request[0] for request in self.requests])
        except Malformed as why:
            raise Wrong(f"no reply: {why}") from None
        for request, reply in zip(self.requests, replies):
            self._judge_reply(reply, *request[:3])
        if not self.is_ended:
            return
        if end < len(self.heard) and (len(replies) == len(self.requests) or (replies and replies[-1].closes())):
            raise Wrong(f"{len(self.heard) - end} bytes behind the last reply")
        if len(replies) < len(self.requests) and not (replies and (replies[-1].closes() or not replies[-1].is_whole)):
            self._judge_cut(self.requests[len(replies)][1], None, "no reply at all")

    def _judge_reply(self, reply, method, path, asked):
        told = reply.value(b"x-name")
        if told is None:
            self._judge_page(reply, path)
            return
        given = self.names.find(int(told)) if told.isdigit() else None
        if given is None:
            raise Wrong(f"a name that nobody gave: {told!r}")
        name, (of_path, length, is_version) = int(told), given
        if of_path != (self.origin.authority, path):
            raise Wrong(f"a reply of {of_path} to a request for {path}")
        tag = reply.value(b"etag")
        if is_version != (tag is not None) or (tag is not None and tag != b'"%d"' % name):
            raise Wrong(f"the tag {tag!r} under the name {name}")
        first, end = self._span(reply, name, length, asked)
        if method == "HEAD" or reply.status == 304:
            return
        if reply.length is not None and reply.length != end - first:
            raise Wrong(f"a length of {reply.length} for {end - first} bytes")
        wanted = body_of(name)[first:end]
        if reply.body != wanted[: len(reply.body)] or len(reply.body) > len(wanted):
            at = next((at for at in range(len(reply.body)) if reply.body[at : at + 1] != wanted[at : at + 1]), len(wanted))
            raise Wrong(f"other bytes from byte {at} on of {len(reply.body)} in a reply of {name}")
        is_short = len(reply.body) < len(wanted)
        if reply.framing == "chunked" and reply.is_whole and is_short and self.origin.paths[path].is_kind:
            raise Wrong(f"a whole reply of {len(reply.body)} bytes in place of {len(wanted)}")
        if is_short and self.is_ended:
            self._judge_cut(path, is_version, f"a reply of {name} is cut behind {len(reply.body)} of {len(wanted)} bytes")

    def _span(self, reply, name, length, asked):
        """The bytes of the name that a reply shows, by its head."""
        if reply.status != 206:
            return 0, length
        place = reply.value(b"content-range") or b""
        first, last = span_of(asked or b"bytes=0-", length)
        if place != b"bytes %d-%d/%d" % (first, last, length):
            raise Wrong(f"the place {place!r} in answer to {asked!r} of {length} bytes of {name}")
        return first, last + 1

    def _judge_page(self, reply, path):
        """A page of the proxy's own. A 502 has a cause in what the origin did."""
        if reply.status not in PAGES and reply.status != 408 and reply.status != 304:
            raise Wrong(f"a reply of {reply.status} without a name")
        if reply.status in (502, 500, 400, 411, 431) and self.origin.paths[path].is_kind:
            raise Wrong(f"{reply.status} for an origin that answered as it should")

    def _judge_cut(self, path, is_version, what):
        """A cut has a cause: the origin, or a version that is no more."""
        if self.origin.paths[path].is_kind and not is_version:
            raise Wrong(f"{what}, by an origin that answered as it should")


class NamesOfOne:
    """The names that one origin gives, among those of all."""

    def __init__(self, names, origin):
        self._names, self._origin = names, origin

    def new(self, path, length, is_version):
        return self._names.new((self._origin.authority, path), length, is_version)

    def find(self, name):
        return self._names.find(name)


def describe(session, why):
    """What went wrong, and all that was said."""
    lines = [f"{why} (a client that is {session.manner})"]
    lines += [f"  asked {request[3]!r}" for request in session.requests]
    text = session.heard
    lines.append(f"  heard {text!r}" if len(text) < 3_000 else f"  heard {text[:1500]!r} .. {text[-1500:]!r}, {len(text)} bytes")
    lines += [f"  reply at {found.start()}: {found[0]!r}" for found in re.finditer(rb"HTTP/1\.1 \d{3} [^\r]*\r\n(?:[^\r]+\r\n)*", text)]
    lines.append(f"  over after {time.monotonic() - session.started:.3f} s; answers of its origin, from ten seconds before it began:")
    paths = {request[1].encode() for request in session.requests}
    for at, connection, head, answer, kind in session.origin.log[-2_000:]:
        if at > session.started - 10 and head.split(b" ")[1] in paths:
            lines.append(f"  {at - session.started:+.3f} on {connection} {kind}: {head!r}\n      {answer!r}")
    return "\n".join(lines)


def drive(port, seed, seconds):
    """Runs clients for so long. Answers how many requests there were, and what was wrong."""
    names, origins = Names(), []
    for number in range(ORIGINS):
        origin = NamedOrigin(None, seed * 1_000 + number, PATHS)
        origin._names = NamesOfOne(names, origin)
        origins.append(origin)
    end, counts, wrong = time.monotonic() + seconds, [], []

    def client(number):
        generator = random.Random(seed * 1_000_000 + number)
        while time.monotonic() < end and not wrong:
            session = Session(generator, names, generator.choice(origins), port)
            try:
                session.run()
                counts.append(len(session.requests))
            except Wrong as why:
                wrong.append(describe(session, why))

    threads = [threading.Thread(target=client, args=(number,), daemon=True) for number in range(CLIENTS)]
    for thread in threads:
        thread.start()
    for thread in threads:
        thread.join(max(0, end - time.monotonic()) + 3 * PATIENCE)
    if any(thread.is_alive() for thread in threads):
        wrong.append("a client does not end")
    for origin in origins:
        origin.close()
    return sum(counts), wrong


@lasting(CASE_SECONDS + 3 * int(PATIENCE) + 10)
@case
def hostile_origins_cost_no_client_more_than_its_own(world):
    with world.anew() as proxy:
        count, wrong = drive(proxy.port, 1, CASE_SECONDS)
    holds(not wrong, f"each told its own in place of\n{wrong and wrong[0][:4_000]}")
    return f"{count} requests"


def main():
    from network import raise_loopback
    from world import World

    raise_loopback()
    program, seed, seconds = os.path.realpath(sys.argv[1]), int(sys.argv[2]), float(sys.argv[3])
    world = World(program)
    try:
        count, wrong = drive(world.port, seed, seconds)
        memory = world.most_memory() // (1 << 20)
    finally:
        world.stop()
    for text in wrong:
        print(text)
    print(f"{count} requests, {len(wrong)} wrong, {memory} MB at most")
    return int(bool(wrong))


if __name__ == "__main__":
    if len(sys.argv) != 4:
        sys.exit(__doc__)
    sys.exit(main())
