#!/usr/bin/env python3
"""Each call of the system fails, while the program starts and while it serves: who is told something is told what is right, a
front of it, or a page that says what is lacking; and everybody is told all behind that.

    failing_calls.py PROGRAM [SEED]

In the gate some calls fail, drawn at random. By itself it has each of them fail in turn, some minutes long; with a seed, some.
"""

import collections
import hashlib
import os
import random
import struct
import sys

from harness import Failed, case, equal, holds
from keeping import cache_of, entries, serve_whole
from kills import CHUNK
from origin import Answer, noise, response
from shims import between, shared
from world import BAD_GATEWAY, INTERNAL_ERROR, Client

# In the order of the numbers in failing.c, from 1 on.
CALLS = (
    "malloc realloc clock_gettime epoll_create1 epoll_wait epoll_ctl accept4 socket connect getsockopt setsockopt recv send shutdown "
    "close open openat read write pread pwrite fdatasync fsync rename unlink statx flock getdents64 mkdir bind listen"
).split()
FIRST_COUNT = 4
# The ends that USAGE.md has, but for those that words make.
ENDS = {
    (3, b"polipo: out of memory\n"),
    (4, b"polipo: cannot list the cache folder\n"),
    (7, b"polipo: no poller\n"),
}
SMALL, LONG = b"hello", 5 * CHUNK + 100
# So many of each kind fail in the gate.
DRAWN = 2
# More than an exchange has attempts.
TOGETHER = 4


class Calls:
    """The calls of a program: how often each was made, and which one is to fail."""

    def __init__(self, path):
        self._numbers = shared(path, CHUNK)

    def made(self, call):
        return struct.unpack_from("Q", self._numbers, 8 * (FIRST_COUNT + CALLS.index(call)))[0]

    def counts(self):
        return {call: self.made(call) for call in CALLS}

    def fail(self, call, first, times):
        """The one with this number, from the program's start on, fails, and those behind it, so many in all."""
        struct.pack_into("QQQ", self._numbers, 0, CALLS.index(call) + 1, first, first + times - 1)

    def fail_none(self):
        struct.pack_into("Q", self._numbers, 0, 0)

    def forget(self):
        self._numbers[:] = bytes(CHUNK)


def counted(world):
    """The program once more, whose calls are counted and may fail."""
    return between(world, "failing.c", "CALLS_FILE", Calls, "diskRun=2")


def in_turn(before, after):
    """Each call that was made between two counts, by itself, and the first some of each kind together."""
    made = {call: after[call] - before[call] for call in CALLS if after[call] > before[call]}
    alone = [(call, number, 1) for call, count in made.items() for number in range(1, count + 1)]
    return alone + [(call, 1, TOGETHER) for call in made]


# ---- while it serves


class Script:
    """What some clients ask, each time under names of its own, and what is right."""

    def __init__(self, proxy):
        self.proxy, self.bodies, self.number = proxy, {}, 0

    def new(self):
        """The origin has a small body and a long one, under new names, and takes a POST."""
        self.number += 1
        self.right = {f"/{self.number}/small": SMALL, f"/{self.number}/long": noise(LONG, 97 * self.number)}
        for path, body in self.right.items():
            self.bodies[hashlib.md5(self.proxy.url(path).encode()).hexdigest()] = body
            serve_whole(self.proxy, path, body)
        self.proxy.origin.on(f"/{self.number}/post", Answer(response(b"posted", b"X: y")))

    def asks(self):
        """What is asked in turn: its name, its text, and the body that is right."""
        _small, long = self.right
        text = self.proxy.request(f"/{self.number}/post", b"Content-Length: 1000", method="POST") + b"p" * 1_000
        return [
            *((path, self.proxy.request(path), body) for path, body in self.right.items()),
            (f"a part of {long}", self.proxy.request(long, b"Range: bytes=5000-5999"), self.right[long][5_000:6_000]),
            ("a POST", text, b"posted"),
        ]

    def play(self):
        """Two clients after each other, each as long as it is not closed. Answers what each heard, and the body that is right."""
        heard = []
        for _client in (1, 2):
            with Client(port=self.proxy.port) as client:
                for name, text, body in self.asks():
                    heard.append((name, client.reply_to(text), body))
                    if not heard[-1][1].endswith((body, INTERNAL_ERROR, BAD_GATEWAY)):
                        break
        return heard

    def judge(self, heard, of_what, is_reached=True):
        """Each reply is right, or a front of that, or a page that says what is lacking. That one failure costs no more than an
        attempt shows where the origin is reached all the same. Answers what they are."""
        told = collections.Counter()
        for path, text, body in heard:
            head, end, came = text.partition(b"\r\n\r\n")
            status = head[:12]
            if text in (INTERNAL_ERROR, BAD_GATEWAY):
                told["page"] += 1
                holds(text == INTERNAL_ERROR or path == "a POST" or not is_reached, f"no 502 for {path}, {of_what}")
            elif status in (b"HTTP/1.1 200", b"HTTP/1.1 206"):
                holds((status[-3:] == b"206") == path.startswith("a part"), f"the status for {path}, {of_what}, in place of {head}")
                equal(came, body[: len(came)], f"the body of {path}, {of_what}")
                told["right" if came == body else "front"] += 1
            else:
                holds(not end and b"HTTP/1.1 20".startswith(text[:11]), f"a front of a reply for {path}, {of_what}, in place of {text}")
                told["front"] += 1
        return told


def serve_while_calls_fail(world, choose=None):
    """Each call fails in turn, or those that are drawn."""
    told = collections.Counter()
    with counted(world) as (proxy, calls):
        script = Script(proxy)
        script.new()
        before = calls.counts()
        equal(script.judge(script.play(), "before"), {"right": 8}, "what is told where nothing fails")
        after = calls.counts()
        turns = in_turn(before, after)
        for call, number, times in choose(turns) if choose else turns:
            of_what = f"where call {number} of {call} fails, and {times} in all"
            script.new()
            calls.fail(call, calls.made(call) + number, times)
            told += script.judge(script.play(), of_what, is_reached=times == 1)
            calls.fail_none()
            equal(script.judge(script.play(), f"behind {of_what}"), {"right": 8}, f"what is told {of_what}, once it is over")
        proxy.stop()
        for name, entry in entries(cache_of(proxy)).items():
            equal(entry[1], script.bodies[name][: entry[0]], "what an entry vouches for")
        proxy.start()
    return f"{len(turns)} ways; {', '.join(f'{count} {what}' for what, count in told.items())}"


# ---- while it starts


def start_while_calls_fail(world, choose=None):
    """Each call fails in turn as the program starts, or those that are drawn, over a folder with entries."""
    ends, serves = collections.Counter(), 0
    with counted(world) as (proxy, calls):
        script = Script(proxy)
        script.new()
        script.play()
        proxy.stop()
        calls.forget()
        proxy.start()
        turns = in_turn(dict.fromkeys(CALLS, 0), calls.counts())
        wanted = ENDS | {(5, b"polipo: cannot listen on port %d\n" % proxy.port)}
        for call, number, times in choose(turns) if choose else turns:
            of_what = f"where call {number} of {call} fails at the start, and {times} in all"
            proxy.stop()
            calls.forget()
            calls.fail(call, number, times)
            if proxy.launch():
                end = proxy.process.returncode, proxy.printed()
                holds(end in wanted, f"an end that has its line {of_what}, in place of {end}")
                ends[end[0]] += 1
            else:
                script.judge(script.play(), of_what, is_reached=times == 1)
                calls.fail_none()
                equal(script.judge(script.play(), of_what), {"right": 8}, f"what is told {of_what}")
                serves += 1
        proxy.stop()
        calls.forget()
        proxy.start()
    return f"{len(turns)} ways; {serves} times it serves, and ends with {dict(ends)}"


def some(seed):
    """Draws some calls of each kind, and those together."""
    generator = random.Random(seed)

    def choose(turns):
        by_call = collections.defaultdict(list)
        for turn in turns:
            by_call[turn[0]].append(turn)
        return [turn for *alone, all_of_them in by_call.values() for turn in [*generator.sample(alone, min(DRAWN, len(alone))), all_of_them]]

    return choose


def with_seed(run, world):
    seed = random.randrange(1 << 32)
    try:
        return run(world, some(seed))
    except Failed as failure:
        raise Failed(f"{failure}\n    with seed {seed}")


@case
def a_call_that_fails_while_it_serves_costs_at_most_a_reply(world):
    return with_seed(serve_while_calls_fail, world)


@case
def a_call_that_fails_as_it_starts_ends_it_with_a_line_or_costs_nothing(world):
    return with_seed(start_while_calls_fail, world)


def main():
    from network import raise_loopback
    from world import World

    raise_loopback()
    choose = some(int(sys.argv[2])) if len(sys.argv) == 3 else None
    world = World(os.path.realpath(sys.argv[1]))
    try:
        for run in (serve_while_calls_fail, start_while_calls_fail):
            print(f"{run.__name__}: {run(world, choose)}", flush=True)
    finally:
        world.stop()


if __name__ == "__main__":
    if len(sys.argv) not in (2, 3):
        sys.exit(__doc__)
    main()
