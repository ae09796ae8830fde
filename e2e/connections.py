"""How long a client's connection goes on, and which fields belong to one connection alone."""

from harness import case, equal, holds
from origin import Answer, chunked, lines, plain, response
from world import BAD_GATEWAY, VIA, Client, page, passed, reply, reply_head

CLOSE = b"Connection: close"
KEEP = b"Connection: keep-alive"


@case
def ten_requests_go_over_one_connection(world):
    bodies = [b"%d" % number * (number + 1) for number in range(10)]
    for number, body in enumerate(bodies):
        world.origin.on(f"/{number}", Answer(plain(body)))
    with Client() as client:
        for number, body in enumerate(bodies):
            client.say(world.request(f"/{number}"))
            client.expect(passed(body), f"reply {number}")


@case
def pipelined_requests_are_answered_in_their_order(world):
    text = b""
    for number in range(10):
        # the later ones are answered sooner
        answer = Answer(plain(b"%d" % number), cuts=[0], pause=0.05 if number % 2 == 0 else 0.0)
        world.origin.on(f"/{number}", answer)
        body = b"b" * number
        length = b"Content-Length: %d" % number
        text += world.request(f"/{number}", length, method="POST" if number % 3 else "PUT") + body
    wanted = b"".join(passed(b"%d" % number) for number in range(10))
    with Client() as client:
        client.say(text)
        client.expect(wanted, "the replies")
        client.say_in_pieces(text, 7)
        client.expect(wanted, "the replies, to requests in small pieces")
    equal([len(ask.body) for ask in world.origin.asked[-10:]], list(range(10)), "the bodies' lengths")


@case
def a_connection_goes_on_as_the_request_wants(world):
    # version, fields, whether it goes on (RFC 2616, sections 8.1.2.1, 14.10 and 19.6.2)
    table = [
        ("1.1", [], True),
        ("1.1", [KEEP], True),
        ("1.1", [CLOSE], False),
        ("1.1", [b"connection: CLOSE"], False),
        ("1.1", [b"Connection: a, close , b"], False),
        ("1.1", [KEEP, CLOSE], False),
        ("1.1", [b"Connection: closed"], True),
        ("1.1", [b"Proxy-Connection: close"], True),
        ("1.0", [], False),
        ("1.0", [KEEP], True),
        ("1.0", [b"connection: Keep-Alive"], True),
        ("1.0", [b"Proxy-Connection: keep-alive"], True),
        ("1.0", [CLOSE], False),
    ]
    world.origin.on("/a", Answer(plain(b"hello")))
    for version, fields, goes_on in table:
        text = world.request("/a", *fields, version=version)
        with Client() as client:
            if goes_on:
                for _ in range(3):
                    client.say(text)
                    client.expect(passed(b"hello"), f"the reply to {version} with {fields}")
            else:
                # what comes behind it is not heard
                client.say(text + world.request("/probe"))
                client.expect_last(passed(b"hello", b"close"), f"the reply to {version} with {fields}")


@case
def the_origin_does_not_decide_how_long_the_client_stays(world):
    for version in [b"1.0", b"1.1"]:
        for fields in [[CLOSE], [KEEP], []]:
            text = lines(b"HTTP/" + version + b" 200 OK", b"Content-Length: 5", *fields) + b"hello"
            world.origin.on("/close", Answer(text, then="end"))
            with Client() as client:
                for _ in range(2):
                    client.say(world.request("/close"))
                    client.expect(reply(b"hello"), f"the reply of {version} with {fields}")


@case
def a_gateway_that_fails_does_not_close_its_client(world):
    world.origin.on("/bad", Answer(b"", then="end"))
    wanted = page(b"502 Bad Gateway", b"keep-alive")
    with Client() as client:
        for _ in range(2):
            client.say(world.request("/bad"))
            client.expect(wanted)
            client.say(world.request("/probe"))
            client.expect(passed(b"still here"))
            # the rest of a request's body is no request
            client.say(world.request("/bad", b"Content-Length: 500000", method="POST") + b"b" * 500_000)
            client.expect(wanted)
        client.say(world.request("/bad", method="HEAD"))
        client.expect(wanted[: -len(b"502 Bad Gateway\n")], "the page to HEAD")
        client.say(world.request("/probe"))
        client.expect(passed(b"still here"))


@case
def fields_of_one_connection_are_not_passed_on(world):
    own = [
        b"Connection: a, X-Named ,close-not",
        b"Keep-Alive: timeout=5",
        b"Proxy-Authenticate: x",
        b"Proxy-Authorization: x",
        b"Proxy-Connection: keep-alive",
        b"TE: trailers",
        b"Trailer: y",
        b"Upgrade: z",
        b"A: b",
        b"x-named: c",
        b"X-Polipo-Date: 1",
        b"x-polipo-: 1",
    ]
    stays = [b"C: d", b"X-Polip: e", b"B: f"]
    mixed = [field for pair in zip(own, stays + [b"C: d"] * len(own)) for field in pair]
    wanted = [b"c: d", b"x-polip: e", b"b: f"] + [b"c: d"] * (len(own) - 3)
    world.origin.on("/fields", Answer(response(b"hello", *mixed)))
    world.origin.clear()
    with Client() as client:
        client.say(world.request("/fields", *mixed))
        client.expect(reply(b"hello", *wanted))
    equal(world.origin.asked_texts(), [world.ask("/fields", *wanted)], "the ask")


@case
def a_via_of_others_stays_before_ours(world):
    world.origin.on("/via", Answer(response(b"hello", b"Via: 1.0 a", b"A: b")))
    world.origin.clear()
    with Client() as client:
        client.say(world.request("/via", b"Via: 1.1 c (d)", b"E: f"))
        client.expect(reply(b"hello", b"via: 1.0 a", b"a: b"))
    equal(world.origin.asked_texts(), [world.ask("/via", b"via: 1.1 c (d)", b"e: f")], "the ask")


@case
def a_length_that_connection_names_still_delimits_the_body(world):
    named = b"Connection: content-length, transfer-encoding"
    world.origin.on("/named", Answer(lines(b"HTTP/1.1 200 OK", named, b"Content-Length: 5") + b"hello"))
    world.origin.clear()
    with Client() as client:
        text = world.request("/named", named, b"Content-Length: 3", method="POST") + b"abc"
        client.say(text * 2)
        client.expect(reply(b"hello") * 2)
    asked = world.ask("/named", b"content-length: 3", method="POST") + b"abc"
    equal(world.origin.asked_texts(), [asked] * 2, "the asks")
    coded = lines(b"HTTP/1.1 200 OK", named, b"Transfer-Encoding: chunked") + chunked(b"hello")
    world.origin.on("/named", Answer(coded))
    with Client() as client:
        client.say(world.request("/named"))
        client.expect(reply_head(VIA, b"transfer-encoding: chunked"))
        equal(client.hear_chunks(), b"hello", "the body")


@case
def a_request_behind_the_last_is_not_asked(world):
    world.origin.on("/a", Answer(plain(b"hello")))
    world.origin.clear()
    world.expect_answer(world.last_request("/a") + world.request("/b"), passed(b"hello", b"close"))
    equal([ask.path for ask in world.origin.asked], ["/a"], "the asks")


@case
def many_requests_wait_while_the_first_is_answered(world):
    world.origin.on("/wait", Answer(plain(b"slow"), cuts=[0], pause=0.3))
    small = world.request("/probe")
    count = 500
    with Client() as client:
        client.say(world.request("/wait"))
        client.say(small * count)
        client.expect(passed(b"slow"))
        client.expect(passed(b"still here") * count, "the replies behind it")
    holds(world.process.poll() is None, "the program runs on")


@case
def a_dead_origin_is_502_and_the_client_goes_on(world):
    with Client() as client:
        client.say(lines(b"GET http://127.0.0.2:1/ HTTP/1.1") * 3)
        client.expect(BAD_GATEWAY * 3)
        client.say(world.request("/probe"))
        client.expect(passed(b"still here"))
