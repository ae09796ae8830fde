"""Who does nothing for long, by a clock that leaps."""

import select
import socket
import struct
import time

import naming
from harness import case, equal, holds
from network import silence_at
from origin import Answer, lines, noise, plain, response
from played import Played
from rules import rule
from shims import between, between_each, shared
from world import BAD_GATEWAY, Client, passed, reply


class Clock:
    """The clock of a program, which is ahead by as much as it is told to."""

    def __init__(self, path):
        self._ahead = shared(path, 8)
        self._leapt = 0

    def set(self, ahead):
        """It is ahead by so many seconds."""
        self._leapt = ahead
        struct.pack_into("q", self._ahead, 0, ahead)

    def leap(self, seconds):
        """So many seconds pass at once. The program looks at its clock each second."""
        self.set(self._leapt + seconds)
        time.sleep(1.1)

    def leap_until(self, is_over):
        """Leaps by and by until this holds, for ten minutes at most. Answers how many seconds passed for the program."""
        start, before = time.monotonic(), self._leapt
        while not is_over() and self._leapt - before < 600:
            self.leap(50)
        return self._leapt - before + time.monotonic() - start


SHIM = ("clock.c", "CLOCK_FILE", Clock)


def leaping(world):
    """The program once more, and its clock."""
    return between(world, *SHIM)


def has_news(client):
    """Whether something came for the client, or an end."""
    return bool(select.select([client.socket], [], [], 0)[0])


@case
def an_idle_client_is_closed_after_120_seconds(world):
    with leaping(world) as (proxy, clock), Client(port=proxy.port) as client:
        client.say(b"GET http://")
        seconds = clock.leap_until(lambda: has_news(client))
        client.expect_last(b"", "an end, and nothing before")
        holds(seconds >= 119, f"an end after 120 seconds in place of {seconds:.0f}")


@case
def a_client_that_takes_nothing_of_its_reply_has_900_seconds(world):
    with leaping(world) as (proxy, clock), Client(port=proxy.port) as slow, Client(port=proxy.port) as gone:
        # more than the system holds for a connection
        body = noise(32_000_000)
        proxy.origin.on("/long", Answer(response(body, b"X: y")))
        whole = reply(body, b"x: y")
        for client in (slow, gone):
            client.socket.setsockopt(socket.SOL_SOCKET, socket.SO_RCVBUF, 65_536)
            client.say(proxy.request("/long"))
            client.expect(whole[:100], "the front of the reply")
        for _ in range(8):
            clock.leap(100)
        slow.expect(whole[100:], "all of the rest, behind 800 seconds")
        for _ in range(2):
            clock.leap(100)
        rest = gone.hear_all()
        holds(len(rest) < len(whole) - 100, "an end before the last byte, behind 1,000 seconds")
        equal(rest, whole[100 : 100 + len(rest)], "what was said before the end")


@case
def an_idle_connection_to_an_origin_is_dropped_after_60_seconds(world):
    with leaping(world) as (proxy, clock), Client(port=proxy.port) as client:
        proxy.origin.on("/a", Answer(plain(b"hello")))
        client.say(proxy.request("/a"))
        client.expect(passed(b"hello"))
        equal(proxy.origin.count_open(), 1, "connections that are open")
        seconds = clock.leap_until(lambda: proxy.origin.count_open() == 0)
        equal(proxy.origin.count_open(), 0, "connections that are left")
        holds(seconds >= 59, f"an end after 60 seconds in place of {seconds:.0f}")


@case
@rule("slow-origin")
def an_origin_that_thinks_for_minutes_is_asked_once(world):
    with leaping(world) as (proxy, clock), Played() as origin, Client(port=proxy.port) as client:
        client.say(origin.request("/thinks"))
        ask = origin.take()
        for _ in range(5):
            clock.leap(50)
        holds(origin.take_if_any(0) is None, "one ask in 250 seconds")
        ask.say(response(b"thought"))
        client.expect(reply(b"thought"))


@case
@rule("slow-origin")
def an_origin_that_never_answers_is_asked_once_and_given_up_after_300_seconds(world):
    with leaping(world) as (proxy, clock), Played() as origin, Client(port=proxy.port) as client:
        client.say(origin.request("/silent"))
        origin.take()
        seconds = clock.leap_until(lambda: has_news(client))
        client.expect(BAD_GATEWAY)
        holds(seconds >= 299, f"300 seconds of patience in place of {seconds:.0f}")
        equal(len(origin.asked), 1, "asks")


@case
@rule("slow-origin")
def a_computer_that_was_asleep_for_an_hour_loses_no_request(world):
    with leaping(world) as (proxy, clock), Played() as origin, Client(port=proxy.port) as client:
        client.say(origin.request("/sleeps"))
        ask = origin.take()
        clock.leap(3_600)
        holds(origin.take_if_any(0) is None, "one ask")
        ask.say(response(b"awake"))
        client.expect(reply(b"awake"))


@case
@rule("other-addresses")
def an_address_that_is_silent_for_60_seconds_is_left_for_another(world):
    with between_each(world, [SHIM, naming.SHIM]) as (proxy, [clock, names]):
        proxy.origin.on("/a", Answer(plain(b"hello")))
        names.give("silent.test", "127.0.0.2", "127.0.0.1")
        with silence_at("127.0.0.2", proxy.origin.port), Client(port=proxy.port) as client:
            client.say(lines(f"GET http://silent.test:{proxy.origin.port}/a HTTP/1.1".encode()))
            seconds = clock.leap_until(lambda: has_news(client))
            client.expect(passed(b"hello"))
            holds(seconds >= 59, f"60 seconds of patience in place of {seconds:.0f}")
