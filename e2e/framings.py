"""A response's body however it is delimited, and however it is cut, to clients of either version."""

import threading

from harness import case, equal, holds
from origin import Answer, chunked, lines, noise, response
from played import Played
from world import BAD_GATEWAY, LAST_BAD_GATEWAY, VIA, Client, passed, reply, reply_head
from passing import curl

OK = b"HTTP/1.1 200 OK"
CHUNKED = b"Transfer-Encoding: chunked"
CHUNKED_HEAD = reply_head(VIA, b"transfer-encoding: chunked")
CLOSED_HEAD = reply_head(VIA, connection=b"close")


def expect_body(world, path, body, of_what):
    """To an HTTP/1.1 client it comes in chunks and the connection goes on; to HTTP/1.0 its end ends it."""
    with Client() as client:
        for _ in range(2):
            client.say(world.request(path))
            client.expect(CHUNKED_HEAD, f"the head of {of_what}")
            equal(client.hear_chunks(), body, f"the body of {of_what}")
    with Client() as client:
        client.say(world.request(path, b"Connection: keep-alive", version="1.0"))
        client.expect_last(CLOSED_HEAD + body, f"the reply of {of_what} to HTTP/1.0")


def expect_cut(world, path, body):
    """Its client hears a front of the reply that is not whole, and then the end; or that the gateway failed."""
    with Client() as client:
        client.say(world.last_request(path))
        heard = client.hear_all()
    if heard == LAST_BAD_GATEWAY:
        return
    head = reply_head(VIA, b"transfer-encoding: chunked", connection=b"close")
    shorter = min(len(heard), len(head))
    equal(heard[:shorter], head[:shorter], "the head before the cut")
    data, is_whole = dechunked(heard[len(head) :])
    equal(data, body[: len(data)], "the data before the cut")
    holds(not is_whole, "a body without its last chunk")


def dechunked(text):
    """The data of a chunked text that may be cut, and whether it is whole."""
    data = b""
    while b"\r\n" in text:
        line, _, text = text.partition(b"\r\n")
        size = int(line, 16)
        if size == 0:
            return data, text == b"\r\n"
        data += text[:size]
        text = text[size + 2 :]
    return data, False


@case
def a_chunked_body_comes_in_chunks(world):
    bodies = {
        "one chunk": (b"hello",),
        "no chunk": (),
        "several": (b"a", b"bc", noise(5_000), b"\r\n0\r\n\r\n"),
        "many": tuple(b"%d," % number for number in range(500)),
        "a large one": (noise(3_000_000),),
    }
    for name, pieces in bodies.items():
        world.origin.on("/chunked", Answer(lines(OK, CHUNKED) + chunked(*pieces)))
        expect_body(world, "/chunked", b"".join(pieces), name)


@case
def a_chunk_may_be_spelled_in_any_way(world):
    bodies = {
        "a size in upper case": b"A\r\n0123456789\r\n0\r\n\r\n",
        "leading zeros": b"000a\r\n0123456789\r\n000\r\n\r\n",
        "sixteen digits": b"000000000000000a\r\n0123456789\r\n0\r\n\r\n",
        "blanks behind the size": b"a \t\r\n0123456789\r\n0  \r\n\r\n",
        "extensions": b'a;b=c;d="e f"\r\n0123456789\r\n0;g\r\n\r\n',
        "an extension of 4,096 bytes": b"a;" + b"e" * 4096 + b"\r\n0123456789\r\n0\r\n\r\n",
        "line feeds alone": b"a\n0123456789\n0\n\n",
        "trailers": b"a\r\n0123456789\r\n0\r\nA: b\r\nContent-Length: 5\r\n\r\n",
        "trailers of 16,384 bytes": b"a\r\n0123456789\r\n0\r\nA: " + b"b" * 16_379 + b"\r\n\r\n",
    }
    for name, body in bodies.items():
        world.origin.on("/spelled", Answer(lines(OK, CHUNKED) + body))
        expect_body(world, "/spelled", b"0123456789", name)


@case
def a_chunked_response_may_be_cut_anywhere(world):
    text = lines(OK, CHUNKED) + b"5;x=y\r\nhello\r\n10\r\n0123456789abcdef\r\n0\r\nA: b\r\n\r\n"
    body = b"hello0123456789abcdef"
    world.origin.on("/bytes", Answer(text, piece=1, pause=0.001))
    expect_body(world, "/bytes", body, "single bytes")
    with Client() as client:
        for cut in range(1, len(text)):
            world.origin.on("/cut", Answer(text, cuts=[cut], pause=0.002))
            client.say(world.request("/cut"))
            client.expect(CHUNKED_HEAD, f"the head, cut at {cut}")
            equal(client.hear_chunks(), body, f"the body, cut at {cut}")


@case
def a_chunked_response_that_ends_early_shows_it(world):
    text = lines(OK, CHUNKED) + chunked(b"hello", b"world")
    for then in ["end", "break"]:
        for count in range(len(text)):
            world.origin.on("/early", Answer(text[:count], then=then))
            expect_cut(world, "/early", b"helloworld")


@case
def curl_sees_that_a_body_was_cut(world):
    heads = {
        "a length": lines(OK, b"Content-Length: 100000"),
        "chunks": lines(OK, CHUNKED) + b"186a0\r\n",
    }
    for name, head in heads.items():
        world.origin.on("/cut", Answer(head + noise(50_000), piece=10_000, pause=0.01, then="end"))
        run = curl(world.url("/cut"))
        equal(run.returncode, 18, f"curl's status after {name}")
        holds(noise(50_000).startswith(run.stdout) and run.stdout, f"a front of {name}")


@case
def what_is_no_chunk_cuts_the_reply(world):
    bodies = {
        "seventeen digits": b"00000000000000005\r\nhello\r\n0\r\n\r\n",
        "a size above 64 bits": b"10000000000000005\r\nhello\r\n0\r\n\r\n",
        "no digits": b"\r\nhello\r\n0\r\n\r\n",
        "a sign": b"+5\r\nhello\r\n0\r\n\r\n",
        "a prefix": b"0x5\r\nhello\r\n0\r\n\r\n",
        "a blank before the size": b" 5\r\nhello\r\n0\r\n\r\n",
        "an extension of 4,097 bytes": b"5;" + b"e" * 4097 + b"\r\nhello\r\n0\r\n\r\n",
        "less data than declared": b"7\r\nhello\r\n0\r\n\r\n",
        "more data than declared": b"4\r\nhello\r\n0\r\n\r\n",
        "a return alone": b"5\rhello\r\n0\r\n\r\n",
        "trailers of 16,385 bytes": b"5\r\nhello\r\n0\r\nA: " + b"b" * 16_380 + b"\r\n\r\n",
    }
    for name, body in bodies.items():
        head = lines(OK, CHUNKED)
        world.origin.on("/bad", Answer(head + body))
        expect_cut(world, "/bad", b"hello\r\n0\r\n\r\n")
        # the reply has begun when the fault comes
        heard = threading.Event()
        world.origin.on("/bad", Answer(head + b"3\r\nabc\r\n" + body, cuts=[len(head) + 8], goes_on=heard))
        with Client() as client:
            client.say(world.request("/bad"))
            client.expect(CHUNKED_HEAD + b"3\r\nabc\r\n", f"what came before {name}")
            heard.set()
            data, is_whole = dechunked(client.hear_all())
            holds(not is_whole and b"hello\r\n0\r\n".startswith(data), f"a cut at {name}")


@case
def a_body_that_the_connections_end_ends(world):
    for version in [b"1.0", b"1.1"]:
        for body in [b"", b"hello", noise(300_000)]:
            head = lines(b"HTTP/" + version + b" 200 OK")
            world.origin.on("/to-end", Answer(head + body, piece=100_000, then="end"))
            expect_body(world, "/to-end", body, f"{len(body)} bytes of HTTP/{version.decode()}")


@case
def a_reset_in_such_a_body_shows(world):
    world.origin.on("/reset", Answer(lines(OK) + b"hello", cuts=[19], pause=0.02, then="break"))
    expect_cut(world, "/reset", b"hello")


@case
def an_older_origin_may_name_a_length(world):
    world.origin.on("/old", Answer(lines(b"HTTP/1.0 200 OK", b"Content-Length: 5") + b"hello"))
    with Client() as client:
        for _ in range(2):
            client.say(world.request("/old"))
            client.expect(reply(b"hello"))


@case
def a_length_may_have_64_bits(world):
    most = 2**64 - 1
    body = noise(100_000)
    world.origin.on("/most", Answer(lines(OK, b"Content-Length: %d" % most) + body, then="end"))
    with Client() as client:
        client.say(world.request("/most"))
        client.expect(reply_head(VIA, b"content-length: %d" % most))
        heard = client.hear_all()
        holds(heard and body.startswith(heard), "a front of what came")
    world.origin.on("/most", Answer(lines(OK, CHUNKED) + b"%x\r\n" % most + body, then="end"))
    with Client() as client:
        client.say(world.request("/most"))
        client.expect(CHUNKED_HEAD)
        heard, is_whole = dechunked(client.hear_all())
        holds(heard and body.startswith(heard) and not is_whole, "a front of what came of a chunk")
    world.origin.on("/most", Answer(reply(b"enough").replace(b"connection: keep-alive\r\n", b""), reads_body=False))
    world.origin.clear()
    with Client() as client:
        client.say(world.request("/most", b"Content-Length: %d" % most, method="POST") + body)
        heard = client.hear_until(b"enough")
        equal(heard[:15], b"HTTP/1.1 200 OK", "the reply to a request of that length")
    equal(world.origin.asked[0].field(b"content-length"), b"%d" % most, "the length that is asked")


@case
def chunks_count_before_a_length(world):
    for length in [b"0", b"3", b"5", b"1000"]:
        head = lines(OK, b"Content-Length: " + length, CHUNKED)
        world.origin.on("/both", Answer(head + chunked(b"hello")))
        expect_body(world, "/both", b"hello", f"chunks beside the length {length}")


@case
def a_coding_that_changes_nothing_is_dropped(world):
    world.origin.on("/identity", Answer(lines(OK, b"Transfer-Encoding: identity", b"Content-Length: 5") + b"hello"))
    with Client() as client:
        client.say(world.request("/identity"))
        client.expect(reply(b"hello"))
    world.origin.on("/identity", Answer(lines(OK, b"Transfer-Encoding: identity, Chunked") + chunked(b"hello")))
    expect_body(world, "/identity", b"hello", "identity and chunked")


@case
def equal_lengths_count_as_one(world):
    world.origin.on("/twice", Answer(lines(OK, b"Content-Length: 5", b"content-length: 5") + b"hello"))
    with Client() as client:
        client.say(world.request("/twice") * 2)
        client.expect(reply(b"hello") * 2)


@case
def another_coding_is_502_and_its_connection_dropped(world):
    with world.dropping_connections():
        codings = [b"gzip, chunked", b"gzip", b"chunked, gzip", b"chunked, chunked", b"x", b"chunked;q=1"]
        with Client() as client:
            for coding in codings:
                text = lines(OK, b"Transfer-Encoding: " + coding, b"Content-Length: 5") + chunked(b"hello")
                world.origin.on("/coding", Answer(text))
                client.say(world.request("/coding"))
                client.expect(BAD_GATEWAY, f"the reply to {coding}")


@case
def a_bad_answer_is_asked_for_once_more_where_its_connection_brought_another(world):
    # there it may be the rest of the response before (RFC 7230, 3.3.3); on a connection of its own it is the answer
    bad = {
        "a coding": lines(OK, b"Transfer-Encoding: gzip"),
        "two lengths": lines(OK, b"Content-Length: 5", b"Content-Length: 6") + b"hello",
        "a switch": lines(b"HTTP/1.1 101 Switching Protocols", b"Upgrade: x", b"Connection: Upgrade"),
        "no head": b"hello\r\n\r\n",
    }
    for name, text in bad.items():
        with Played() as origin, Client() as client:
            client.say(origin.request("/bad"))
            origin.take().say(text)
            client.expect(BAD_GATEWAY, f"the reply to {name}")
            equal(len(origin.asked), 1, f"asks on a connection of its own for {name}")
            client.say(origin.request("/good"))
            used = origin.take()
            used.say(response(b"hello"))
            client.expect(reply(b"hello"))
            client.say(origin.request("/bad"))
            first = origin.take()
            holds(first.connection is used.connection, "an ask on the connection that is there")
            first.say(text)
            second = origin.take(f"the same ask once more behind {name}")
            holds(second.connection is not used.connection, "an ask on a new connection")
            second.say(text)
            client.expect(BAD_GATEWAY, f"the reply to {name} on both")
            equal([ask.path for ask in origin.asked], ["/bad", "/good", "/bad", "/bad"], "the asks")


@case
def lengths_that_are_no_length_are_502(world):
    with world.dropping_connections():
        lengths = {
            "two": (b"5", b"6"),
            "a sign": (b"+5",),
            "nothing": (b"",),
            "letters": (b"five",),
            "a list": (b"5, 5",),
            "a negative": (b"-1",),
            "more than 64 bits": (b"18446744073709551616",),
            "hexadecimal": (b"0x5",),
        }
        with Client() as client:
            for name, values in lengths.items():
                fields = [b"Content-Length: " + value for value in values]
                for more in ([], [CHUNKED]):
                    world.origin.on("/lengths", Answer(lines(OK, *fields, *more) + b"hello"))
                    client.say(world.request("/lengths"))
                    client.expect(BAD_GATEWAY, f"the reply to {name}")


@case
def interim_responses_are_dropped(world):
    interim = lines(b"HTTP/1.1 100 Continue") + lines(b"HTTP/1.1 103 Early Hints", b"Link: </a>") + lines(b"HTTP/1.1 199 ")
    world.origin.on("/interim", Answer(interim + response(b"hello")))
    with Client() as client:
        client.say(world.request("/interim") * 2)
        client.expect(reply(b"hello") * 2)
    text = interim + response(b"hello")
    with Client() as client:
        for cut in range(1, len(text), 5):
            world.origin.on("/interim", Answer(text, cuts=[cut], pause=0.002))
            client.say(world.request("/interim"))
            client.expect(reply(b"hello"), f"the reply, cut at {cut}")


@case
def a_length_beside_an_interim_status_is_no_body(world):
    text = lines(b"HTTP/1.1 102 Processing", b"Content-Length: 1000") + response(b"hello")
    world.origin.on("/interim", Answer(text))
    with Client() as client:
        client.say(world.request("/interim"))
        client.expect(reply(b"hello"))


@case
def no_protocol_is_switched(world):
    with world.dropping_connections():
        switch = lines(b"HTTP/1.1 101 Switching Protocols", b"Upgrade: websocket", b"Connection: Upgrade")
        world.origin.on("/switch", Answer(switch))
        world.origin.clear()
        fields = [b"Upgrade: websocket", b"Connection: Upgrade", b"Sec-WebSocket-Key: a"]
        with Client() as client:
            for _ in range(2):
                client.say(world.request("/switch", *fields))
                client.expect(BAD_GATEWAY)
        equal(set(world.origin.asked_texts()), {world.ask("/switch", b"sec-websocket-key: a")}, "each ask")


@case
def more_than_the_body_is_not_passed(world):
    bodies = {
        "a length": response(b"hello") + b"HTTP/1.1 200 OK\r\n\r\n",
        "no body": lines(b"HTTP/1.1 204 No Content") + b"hello",
    }
    wanted = {
        "a length": reply(b"hello"),
        "no body": reply_head(VIA, status=b"204 No Content"),
    }
    for name, text in bodies.items():
        world.origin.on("/more", Answer(text))
        with Client() as client:
            client.say(world.request("/more") + world.request("/probe"))
            client.expect(wanted[name], f"the reply of {name}")
            client.expect(passed(b"still here"), "the reply to the next request")
    world.origin.on("/more", Answer(lines(OK, CHUNKED) + chunked(b"hello") + b"more"))
    expect_body(world, "/more", b"hello", "chunks")
