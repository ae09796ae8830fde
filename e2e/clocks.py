"""A clock that is set back or forth while the program serves, and origins that take minutes by it: nobody is cut early, nobody
waits for ever, and what is old is as old as time that passed made it (RFC 9111, section 4.2.3)."""

import contextlib
import random
import time

from caching import now, said
from harness import case, equal, holds, together
from idling import has_news, leaping
from keeping import TAG, asked_for, body_of, read_during, serve_all
from origin import Answer, lines, noise, response
from played import Played
from rules import rule
from world import BAD_GATEWAY, Client, reply

HOUR, DAY, YEAR = 3_600, 86_400, 31_536_000
BODY = noise(100_000)
# Between two looks at a busy machine so much time passes at most.
SLACK = 20


def serve_fresh(proxy, path, seconds):
    """The origin has a body that is fresh for so long, and tells one who has it that it is unchanged."""
    fields = [b"Date: " + now(), b"ETag: " + TAG, b"Cache-Control: max-age=%d" % seconds]

    def answer(ask):
        is_checked = ask.field(b"if-none-match") == TAG
        return Answer(lines(b"HTTP/1.1 304 Not Modified", *fields) if is_checked else response(BODY, *fields))

    proxy.origin.on(path, answer)
    equal(body_of(said(proxy, path)[0]), BODY, f"the body of {path}")


def expect_age(proxy, path, least):
    """It is served from memory, so old or a little more."""
    before = len(asked_for(proxy, path))
    text, age = said(proxy, path)
    equal(body_of(text), BODY, f"the body of {path}")
    equal(len(asked_for(proxy, path)) - before, 0, f"asks for {path}, which is fresh")
    holds(age is not None and least <= age <= least + SLACK, f"an age of {least} seconds or a little more in place of {age}")


def expect_check(proxy, path):
    """It is served behind a question to its origin."""
    before = len(asked_for(proxy, path))
    equal(body_of(said(proxy, path)[0]), BODY, f"the body of {path}")
    asked = asked_for(proxy, path)[before:]
    equal([ask.field(b"if-none-match") for ask in asked], [TAG], f"asks for {path}, which is stale")


def setting(world, by):
    """What befalls those who are in the midst of something while the clock is set by so many seconds, and in the minutes behind."""

    def run():
        with leaping(world) as (proxy, clock), Played() as origin:
            with contextlib.ExitStack() as stack:
                idle, reads, waits, left = (stack.enter_context(Client(port=proxy.port)) for _ in range(4))
                serve_fresh(proxy, "/short", 60)
                serve_fresh(proxy, "/long", 10 * YEAR)
                idle.say(b"GET http://")
                reads.say(origin.request("/half"))
                half = origin.take()
                half.say(response(BODY, b"X: y")[:-50_000])
                reads.expect(reply(BODY, b"x: y")[:-50_000], "half of a body")
                waits.say(origin.request("/waits"))
                asked = origin.take()
                left.say(origin.request("/silent"))
                origin.take()

                clock.leap(by)
                holds(not any(map(has_news, (idle, reads, waits, left))), "nobody is cut as the clock is set")
                half.say(BODY[-50_000:])
                reads.expect(BODY[-50_000:], "the other half")
                asked.say(response(b"at last"))
                waits.expect(reply(b"at last"), "the reply that was waited for")
                if by > 0:
                    expect_check(proxy, "/short")
                expect_age(proxy, "/long", max(0, by))
                # a minute and more passes, by a clock that goes as it should
                clock.leap(50)
                clock.leap(50)
                expect_check(proxy, "/short")
                expect_age(proxy, "/long", max(0, by) + 100)
                holds(not has_news(idle) and not has_news(left), "nobody is cut in less than two minutes")
                clock.leap(50)
                holds(has_news(idle), "an end for a client that is idle for two minutes")
                idle.expect_last(b"", "an end, and nothing before")
                clock.leap(50)
                clock.leap(50)
                holds(not has_news(left), "five minutes for an origin")
                clock.leap(50)
                clock.leap(50)
                holds(has_news(left), "an end of the wait for an origin behind five minutes")
                left.expect(BAD_GATEWAY)
                equal(len(origin.asked), 3, "asks: one each")

    run.__name__ = f"set by {by} s"
    return run


@case
def a_clock_that_is_set_forth_cuts_nobody_early_and_lets_nobody_wait_for_ever(world):
    equal(together([setting(world, DAY)]), [], "failures")


@case
@rule("clock-set-back")
def a_clock_that_is_set_back_cuts_nobody_early_and_lets_nobody_wait_for_ever(world):
    equal(together([setting(world, by) for by in (-HOUR, -YEAR)]), [], "failures")


def back_and_forth(world, by):
    """The clock is set, and set right again."""

    def run():
        with leaping(world) as (proxy, clock):
            serve_fresh(proxy, "/short", 60)
            clock.leap(by)
            clock.leap(-by)
            expect_age(proxy, "/short", 0)
            clock.leap(50)
            clock.leap(50)
            expect_check(proxy, "/short")

    run.__name__ = f"set by {by} s and back"
    return run


@case
def a_clock_that_was_wrong_for_a_moment_leaves_ages_as_they_are(world):
    equal(together([back_and_forth(world, by) for by in (-HOUR, -YEAR)]), [], "failures")


@case
def under_load_a_clock_that_is_set_again_and_again_costs_no_byte_and_no_client(world):
    seed = random.randrange(1 << 32)
    choose = random.Random(seed)
    with leaping(world) as (proxy, clock):
        bodies = serve_all(proxy, (5, 4_097, 70_000, 300_000, 1_000_000))

        def set_clock():
            for _time in range(12):
                clock.set(choose.choice([-YEAR, -DAY, -HOUR, -50, 0, 50, HOUR, DAY, YEAR]))
                time.sleep(choose.uniform(0.1, 0.5))

        read_during(set_clock, proxy, bodies, seed)


@case
def an_origin_that_sends_a_byte_each_two_minutes_is_heard_and_one_that_stops_is_given_up_after_five(world):
    with leaping(world) as (proxy, clock), Played() as origin:
        with Client(port=proxy.port) as slow, Client(port=proxy.port) as cut, Client(port=proxy.port) as kept_cut:
            asks = []
            for client, path, tag in ((slow, "/slow", b"X: y"), (cut, "/cut", b"X: y"), (kept_cut, "/kept", b"ETag: " + TAG)):
                client.say(origin.request(path))
                asks.append(origin.take())
                asks[-1].say(response(b"abcd", tag)[:-3])
                client.hear_until(b"\r\n\r\n")
                equal(client.hear(1), b"a", f"the first byte of {path}")
            for byte in (b"b", b"c", b"d"):
                clock.leap(50)
                clock.leap(50)
                asks[0].say(byte)
                equal(slow.hear(1), byte, "a byte of the slow origin")
            for client in (cut, kept_cut):
                holds(has_news(client), "an end behind five minutes of silence")
                client.expect_last(b"", "the cut, and nothing before")
            equal(len(origin.asked), 3, "asks: one each")
