"""What one client is told is the answer to its own request, whole or cut, and to no other.

A request may leave an ask that it began: its version is gone, and it fetches anew. What the origin answers to the ask that was
left, and when, is nothing to this client.
"""

import contextlib
import threading
import time

from harness import case, equal, holds, lasting, together
from origin import chunked, lines, noise, part, response
from played import Played
from world import BAD_GATEWAY, LENGTH_REQUIRED, Client, reply, reply_head

OK = b"HTTP/1.1 200 OK"
TAG = b'ETag: "x"'
FRESH = b"Cache-Control: max-age=60"
BODY = noise(4100)
SECONDS = 5
MOMENT = 0.15  # in which what was sent is read
PIPE = 65_536  # what is passed to a client is held up to so many bytes
TEN = b"BBBBBBBBBB"


def span(first, last, tag=TAG, body=BODY):
    """The bytes from the first to the last, inclusive."""
    return part(body, b"bytes=%d-%d" % (first, last), tag, FRESH)


def heard(client, seconds=SECONDS):
    """What it hears, up to the end or to so many seconds of silence."""
    client.socket.settimeout(seconds)
    text = b""
    with contextlib.suppress(TimeoutError, ConnectionError):
        while piece := client.socket.recv(1 << 18):
            text += piece
    return text


def hold_an_end(world, origin, client, *fields):
    """This client asks for a body whose end is held. Answers its ask for the rest, which is not answered yet."""
    with Client(port=world.port) as before:
        before.say(origin.request("/b", b"Range: bytes=4096-4099"))
        origin.take("the ask for the end").say(span(4096, 4099))
        before.hear_until(BODY[4096:])
    client.say(origin.request("/b", *fields) + origin.request("/next", b"Connection: close"))
    hole = origin.take("the ask for the rest")
    equal(hole.field(b"range"), b"bytes=0-4095", "the range that is asked for")
    return hole


def leave_a_hole(world, origin, client, *fields):
    """This client asks for a body whose end is held, and for the rest; meanwhile somebody has the body checked, and it is no
    more. So the client fetches. Answers both of its asks, the one for the rest and the fetch, which are not answered yet."""
    hole = hold_an_end(world, origin, client, *fields)
    with Client(port=world.port) as checking:
        checking.say(origin.request("/b", b"Cache-Control: no-cache"))
        check = origin.take("the check")
        equal(check.field(b"if-none-match"), b'"x"', "the version that is checked")
        check.say(response(b"new"))
        checking.hear_until(b"new")
    fetch = origin.take("the fetch behind the check")
    equal(fetch.field(b"if-range"), None, "the version that is fetched")
    return hole, fetch


NEXT = reply(b"next", connection=b"close")

# what an origin may answer to an ask that was left: sent, and how its connection goes on
LATE = {
    "half of a body": (lines(OK, b"Content-Length: 10") + b"AAAAA", "keep"),
    "a shorter body": (response(b"AAA"), "keep"),
    "a longer body": (response(b"A" * 20), "keep"),
    "a head of 404": (lines(b"HTTP/1.1 404 Not Found", b"Content-Length: 10"), "keep"),
    "a whole 404": (response(b"AAAAAAAAAA", status=b"404 Not Found"), "keep"),
    "a chunk": (lines(OK, b"Transfer-Encoding: chunked") + b"5\r\nAAAAA\r\n", "keep"),
    "all chunks": (lines(OK, b"Transfer-Encoding: chunked") + chunked(b"AAAAA"), "keep"),
    "a body to the end": (lines(OK) + b"AAAAA", "end"),
    "a part without a tag": (span(0, 4095, b"X: y"), "keep"),
    "a part of another version": (span(0, 4095, b'ETag: "z"'), "keep"),
    "a fault": (response(b"AAA", status=b"503 Service Unavailable"), "keep"),
    "nothing new": (lines(b"HTTP/1.1 304 Not Modified"), "keep"),
    "garbage": (b"SSH-2.0-OpenSSH_9.6\r\n" * 10, "keep"),
    "a bad chunk": (lines(OK, b"Transfer-Encoding: chunked") + b"zz\r\n", "keep"),
    "no byte, and an end": (b"", "end"),
    "no byte, and a reset": (b"", "break"),
}


def give(ask, late):
    text, then = late
    ask.say(text)
    if then == "end":
        ask.end()
    elif then == "break":
        ask.break_off()
    time.sleep(MOMENT)


def told(world, late, answer, amid, *fields):
    """What a client is told that fetches anew, and that its asks are then two: a late answer comes to the one that it left,
    before the answer to its fetch or in the midst of it."""
    with Played() as origin, Client(port=world.port) as client:
        origin.always("/next", response(b"next"))
        hole, fetch = leave_a_hole(world, origin, client, *fields)
        cut = len(answer) - 5 if amid else 0
        fetch.say(answer[:cut])
        time.sleep(MOMENT)
        give(hole, late)
        fetch.say(answer[cut:])
        text = heard(client)
        equal([ask.path for ask in origin.asked].count("/b"), 4, "how often it is asked for")
        return text


def each(of_late):
    """Does this for each of the late answers, all at once."""

    def job(name):
        def one():
            of_late(name)

        one.__name__ = f"{name}, coming late"
        return one

    failures = together([job(name) for name in LATE])
    holds(not failures, "each as it is in place of\n    " + "\n    ".join(failures))


def all_told(world, answer, wanted, *fields):
    """Each of the late answers, before the fetch's and amid it."""
    for amid in (False, True):
        each(lambda name: equal(told(world, LATE[name], answer, amid, *fields), wanted + NEXT, "the replies"))


@lasting(70)
@case
def one_reply_is_one_response(world):
    all_told(world, response(TEN), reply(TEN))


@lasting(70)
@case
def one_reply_is_one_response_also_where_a_part_is_passed(world):
    place = b"Content-Range: bytes 4090-4099/4100"
    head = [b"content-range: bytes 4090-4099/4100", *reply(b"").split(b"\r\n")[1:2], b"content-length: 10"]
    wanted = reply_head(*head, status=b"206 Partial Content") + TEN
    all_told(world, response(TEN, place, status=b"206 Partial Content"), wanted, b"Range: bytes=-4100")


@lasting(70)
@case
def a_long_answer_is_told_whole_whatever_comes_late(world):
    # what nobody read of it would stop its connection, and then its client too
    body = noise(3 * PIPE)
    each(lambda name: equal(told(world, LATE[name], response(body), False), reply(body) + NEXT, "the replies"))


@lasting(70)
@case
def one_reply_is_one_response_also_in_chunks(world):
    answer = lines(OK, b"Transfer-Encoding: chunked") + chunked(TEN, b"CCCCC")
    head = reply_head(*reply(b"").split(b"\r\n")[1:2], b"transfer-encoding: chunked")

    def one(name):
        text = told(world, LATE[name], answer, True)
        holds(text.startswith(head), f"the head of the fetch's answer in place of {text[:200]!r}")
        body, _, behind = text[len(head) :].partition(b"0\r\n\r\n")
        equal((b"".join(body.split(b"\r\n")[1::2]), behind), (TEN + b"CCCCC", NEXT), "the data, and the next reply")

    each(one)


@lasting(70)
@case
def a_check_of_another_version_is_told_alone(world):
    # the version of the hole is replaced by one that has to be checked, and that check fails
    wanted = reply(b"out of order", status=b"500 Internal Server Error") + NEXT

    def one(name):
        with Played() as origin, Client(port=world.port) as client:
            origin.always("/next", response(b"next"))
            hole = hold_an_end(world, origin, client)
            with Client(port=world.port) as checking:
                checking.say(origin.request("/b", b"Cache-Control: no-cache"))
                origin.take("the check").say(response(b"new", b'ETag: "y"', b"Cache-Control: no-cache"))
                checking.hear_until(b"new")
            check = origin.take("the check of the new version")
            equal(check.field(b"if-none-match"), b'"y"', "the version that is checked")
            give(hole, LATE[name])
            check.say(response(b"out of order", status=b"500 Internal Server Error"))
            equal(heard(client), wanted, "the replies")

    each(one)


GONE = response(b"gone", status=b"404 Not Found")


# what an origin does to a client that waits behind an answer which has nobody that reads it
BEHIND = {
    "it is answered": lambda ask: ask.say(GONE),
    "its connection ends": lambda ask: ask.end(),
    "its connection breaks": lambda ask: ask.break_off(),
}


@case
def nobody_waits_for_what_nobody_reads(world):
    body = noise(8192)
    with world.anew("pipelineAsks=1", "hostConnections=4") as proxy:

        def one(then):
            with Played() as origin, contextlib.ExitStack() as clients:

                def asking(path, *fields):
                    client = clients.enter_context(Client(port=proxy.port))
                    client.say(origin.request(path, *fields))
                    return client

                first = asking("/r", b"Range: bytes=0-4095")
                origin.take("the ask for the front").say(span(0, 4095, body=body))
                first.hear_until(body[:4096])
                asking("/r", b"Range: bytes=4000-4999")
                hole = origin.take("the ask for the rest of a part")
                busy = [asking(f"/{number}", b"Cache-Control: no-store") for number in range(3)]
                held = [origin.take("an ask on a connection of its own") for _ in busy]
                waiting = asking("/r", b"Range: bytes=5000-8191")
                behind = origin.take("the ask behind another")
                holds(behind.connection is hole.connection, "the ask behind the one for the rest")
                origin.always("/r", GONE)
                hole.say(response(b"e" * PIPE + b"e"))
                BEHIND[then](behind)
                for other in held:
                    other.say(lines(b"HTTP/1.1 204 No Content"))
                waiting.expect(reply(b"gone", status=b"404 Not Found"), f"the reply to the one that waits, where {then}")

        for then in BEHIND:
            one(then)


@case
def an_origin_that_breaks_off_cuts_behind_all_that_came(world):
    # the client reads nothing until the origin has ended: most of it waits in the program
    body = noise(8_000_000)
    with Played() as origin, Client(port=world.port, seconds=20) as client:
        client.say(origin.request("/cut"))
        ask = origin.take()
        ask.connection.settimeout(20)
        sending = threading.Thread(target=lambda: (ask.say(response(body)[:-1_000]), ask.end()), daemon=True)
        sending.start()
        time.sleep(1)
        text = client.hear_all()
        sending.join(20)
    head = reply(body)[: -len(body)]
    equal(len(text), len(head) + len(body) - 1_000, "how many bytes come")
    equal(text, head + body[:-1_000], "what comes before the cut")


@case
def an_empty_transfer_coding_is_refused(world):
    # whether such a request has a body, two readers could answer differently
    for value in [b"", b" ", b",", b" , ,", b"\t,\t"]:
        for length in [[], [b"Content-Length: 5"]]:
            text = world.request("/a", b"Transfer-Encoding:" + value, *length, method="POST")
            world.expect_answer(text + b"hello", LENGTH_REQUIRED, f"the reply to the coding {value!r}")


@case
def what_turns_out_bad_as_it_comes_is_told_at_once(world):
    """In one read come the next byte of a client, to the ask of another, and to its own a response whose body is none."""
    body = noise(9000)
    with world.anew("diskRun=1", "pipelineAsks=1", "hostConnections=1") as proxy, Played() as origin:
        with Client(port=proxy.port) as client, Client(port=proxy.port) as other:
            client.say(origin.request("/d", b"Range: bytes=0-3"))
            front = origin.take("the ask for the front")
            other.say(origin.request("/d", b"Range: bytes=5000-5003"))
            time.sleep(MOMENT)
            front.say(span(0, 3, body=body))
            client.hear_until(body[:4])
            part_of_other = origin.take("the ask for the other's part")
            client.say(origin.request("/d", b"Range: bytes=5000-5003"))
            hole = origin.take("the ask for the same")
            holds(hole.connection is part_of_other.connection, "both on one connection")
            bad = lines(b"HTTP/1.1 404 Not Found", b"Transfer-Encoding: chunked") + b"zz\r\n"
            part_of_other.say(span(4096, 5003, body=body) + bad)
            client.expect(BAD_GATEWAY, "the page that says so")
            origin.take("the ask of the other, anew").say(span(4096, 5003, body=body))
            holds(other.hear_until(body[5000:5004]).endswith(body[5000:5004]), "the other's part")
