"""What was fetched once is served from memory, and what is missing is completed by ranges."""

import email.utils
import itertools
import re
import socket
import threading

from harness import case, environment, equal, holds, need, ran, together
from origin import Answer, lines, noise, part, response, span_of
from world import VIA, Client, reply, reply_head

TAG = b'"x"'
FRESH = b"Cache-Control: max-age=60"


def now():
    """The Date of a response that is sent now."""
    return email.utils.formatdate(usegmt=True).encode()


def kept(date):
    """The fields that a reply shows of the kept response, in their order."""
    return [b"etag: " + TAG, b"date: " + date, b"cache-control: max-age=60"]


def fresh(body, date):
    return response(body, b"Date: " + date, b"ETag: " + TAG, FRESH)


def said(proxy, path, *fields):
    """What one more client is said, up to the end of its connection, without its age, which is told beside."""
    with Client(port=proxy.port) as client:
        client.say(proxy.last_request(path, *fields))
        text = client.hear_all()
    head, end, body = text.partition(b"\r\n\r\n")
    age = re.search(rb"\r\nage: (\d+)", head)
    return re.sub(rb"\r\nage: \d+", b"", head) + end + body, age and int(age.group(1))


@case
def the_second_of_two_gets_is_served_from_memory(world):
    with world.anew() as proxy:
        date = now()
        proxy.origin.on("/a", Answer(fresh(b"hello", date)))
        wanted = reply(b"hello", *kept(date), connection=b"close")
        first, no_age = said(proxy, "/a")
        equal(first, wanted, "the first reply")
        equal(no_age, None, "its age")
        second, age = said(proxy, "/a")
        equal(second, wanted, "the second reply, but for its age")
        holds(age is not None and age < 10, f"an age of some seconds in place of {age}")
        equal(len(proxy.origin.asked), 1, "asks of the origin")


@case
def a_part_of_a_kept_body_is_served_from_memory(world):
    with world.anew() as proxy:
        date = now()
        proxy.origin.on("/a", Answer(fresh(b"hello", date)))
        said(proxy, "/a")
        head = reply_head(
            *kept(date),
            VIA,
            b"content-range: bytes 1-3/5",
            b"content-length: 3",
            status=b"206 Partial Content",
            connection=b"close",
        )
        equal(said(proxy, "/a", b"Range: bytes=1-3")[0], head + b"ell", "the part, but for its age")
        equal(len(proxy.origin.asked), 1, "asks of the origin")


@case
def a_broken_download_goes_on_where_it_stopped(world):
    body = noise(100_000)
    with world.anew() as proxy:
        date = now()

        def answer(ask):
            if ask.field(b"range") is None:
                return Answer(fresh(body, date)[:-60_000], then="end")
            return Answer(part(body, ask.field(b"range"), b"Date: " + date, b"ETag: " + TAG, FRESH))

        proxy.origin.on("/big", answer)
        equal(said(proxy, "/big")[0], reply(body, *kept(date), connection=b"close"), "the whole body")
        first, last = span_of(proxy.origin.asked[1].field(b"range"), len(body))
        holds(first <= 40_000 and last == len(body) - 1, f"a range from where it stopped in place of {first}-{last}")
        equal(proxy.origin.asked[1].field(b"if-range"), TAG, "the version that is asked for")


@case
def thirty_readers_of_one_new_object_are_one_fetch(world):
    body = noise(300_000)
    with world.anew() as proxy:
        date, goes_on = now(), threading.Event()
        proxy.origin.on("/one", Answer(fresh(body, date), cuts=[1000], goes_on=goes_on))
        wanted = reply(body, *kept(date), connection=b"close")

        def read():
            equal(said(proxy, "/one")[0], wanted, "a reader's reply")

        def let_go():
            while len(proxy.origin.asked) == 0:
                threading.Event().wait(0.01)
            threading.Event().wait(0.5)
            goes_on.set()

        failures = together([read] * 30 + [let_go])
        holds(not failures, f"no failure in place of {failures[:2]}")
        equal(len(proxy.origin.asked), 1, "asks of the origin")


@case
def a_reader_that_takes_a_byte_a_second_holds_nobody(world):
    # its body is longer than what the system takes for it and what is read ahead of it: at first nothing comes but for this reader
    body = noise(10_000_000)
    with world.anew() as proxy:
        date, are_served = now(), threading.Event()
        proxy.origin.on("/slow", Answer(fresh(body, date)))
        wanted = reply(body, *kept(date), connection=b"close")

        def take_byte_by_byte():
            with Client(port=proxy.port) as slow:
                slow.socket.setsockopt(socket.SOL_SOCKET, socket.SO_RCVBUF, 4_096)
                slow.say(proxy.last_request("/slow"))
                for at in itertools.count():
                    equal(slow.hear(1), wanted[at : at + 1], "a byte of the slow reader")
                    if are_served.wait(1):
                        return

        def read():
            equal(said(proxy, "/slow")[0], wanted, "the reply to another reader")
            proxy.check_still_served()

        def read_meanwhile():
            try:
                are_served.wait(2)
                equal(together([read] * 8), [], "failures of the others")
            finally:
                are_served.set()

        equal(together([take_byte_by_byte, read_meanwhile]), [], "failures")
        equal(sum(ask.path == "/slow" for ask in proxy.origin.asked), 1, "asks for the body")


@case
def a_stale_body_is_checked_and_served_from_memory(world):
    with world.anew() as proxy:
        date = now()
        fields = [b"Date: " + date, b"ETag: " + TAG, b"Cache-Control: no-cache"]

        def answer(ask):
            if ask.field(b"if-none-match") == TAG:
                return Answer(lines(b"HTTP/1.1 304 Not Modified", *fields))
            return Answer(response(b"hello", *fields))

        proxy.origin.on("/a", answer)
        for number in (1, 2):
            holds(said(proxy, "/a")[0].endswith(b"\r\n\r\nhello"), f"reply {number} with the body")
        equal([ask.field(b"if-none-match") for ask in proxy.origin.asked], [None, TAG], "what was asked")


@case
def a_post_makes_the_proxy_ask_anew(world):
    with world.anew() as proxy:
        date = now()
        proxy.origin.on("/a", lambda ask: Answer(fresh(b"of %d" % len(proxy.origin.asked), date)))
        equal(said(proxy, "/a")[0][-4:], b"of 0", "the first body")
        with Client(port=proxy.port) as client:
            client.say(proxy.last_request("/a", b"Content-Length: 2", method="POST") + b"ab")
            client.hear_all()
        equal(said(proxy, "/a")[0][-4:], b"of 2", "the body behind the POST")


@case
def what_has_no_strong_tag_is_passed(world):
    with world.anew() as proxy:
        for path, field in (("/weak", b'ETag: W/"x"'), ("/none", b"X: y"), ("/private", b"Cache-Control: private")):
            proxy.origin.on(path, Answer(response(b"hello", field)))
            for _number in (1, 2):
                holds(said(proxy, path)[0].endswith(b"\r\n\r\nhello"), f"the body of {path}")
        equal(len(proxy.origin.asked), 6, "asks of the origin")


@case
def curl_goes_on_with_a_download_that_it_cut(world):
    need("curl")
    body = noise(50_000)
    with world.anew() as proxy:
        date = now()
        proxy.origin.on("/file", Answer(fresh(body, date)))
        words = ["curl", "-sS", "-x", f"127.0.0.1:{proxy.port}", proxy.url("/file")]
        run = lambda *more: ran([*words, *more], env=environment()).stdout
        equal(run("-r", "0-19999") + run("-r", "20000-"), body, "both parts")
        equal(run(), body, "the whole")
        equal(proxy.origin.asked[0].field(b"range"), b"bytes=0-19999", "the range that was asked for")
