"""What forbids sharing is never shared, and what an origin says of its own is believed (RFC 2616, 13; RFC 7234)."""

import email.utils
import time

from harness import case, equal, holds
from origin import Answer, lines, noise, part, response
from rules import rule
from world import LAST_BAD_GATEWAY, Client

FORBID = [b"Cache-Control: private, max-age=1000", b"Cache-Control: no-store, max-age=1000", b"Vary: Cookie", b"Set-Cookie: a=b", b"Set-Cookie2: a=b"]


def date(days=0):
    return email.utils.formatdate(time.time() - days * 86_400, usegmt=True).encode()


def kept(body, *fields, tag=b'"x"', status=b"200 OK"):
    """A response of now."""
    return response(body, b"Date: " + date(), *([b"ETag: " + tag] if tag is not None else []), *fields, status=status)


def not_modified(*fields):
    return lines(b"HTTP/1.1 304 Not Modified", b"Date: " + date(), *fields)


def told(world, path, *fields, method="GET", body=b""):
    """What one more client is told: head and body."""
    with Client(port=world.port) as client:
        client.say(world.last_request(path, *fields, method=method) + body)
        head, _, text = client.hear_all().partition(b"\r\n\r\n")
        return head, text


def body_told(world, path, *fields):
    return told(world, path, *fields)[1]


def asks(world, path):
    return [ask for ask in world.origin.asked if ask.path == path]


@case
@rule("forbids-sharing")
def a_body_that_became_private_is_told_to_nobody_else(world):
    for number, field in enumerate(FORBID):
        path = f"/private/{number}"

        def answer(ask, field=field, path=path):
            if ask.field(b"if-none-match"):
                return Answer(not_modified(b"Cache-Control: max-age=1000", field))
            if len(asks(world, path)) == 0:
                return Answer(kept(b"for all", b"Cache-Control: max-age=0"))
            return Answer(kept(b"for " + ask.field(b"cookie"), field))

        world.origin.on(path, answer)
        equal(body_told(world, path, b"Cookie: a"), b"for all", "the first body")
        equal(body_told(world, path, b"Cookie: a"), b"for a", f"what its own client is told under {field!r}")
        equal(body_told(world, path, b"Cookie: b"), b"for b", f"what another client is told under {field!r}")


@case
@rule("forbids-sharing")
def a_part_that_became_private_is_told_to_nobody_else(world):
    body = b"all" * 4_000
    for number, field in enumerate(FORBID):
        path = f"/part/{number}"

        def answer(ask, field=field, path=path):
            if ask.field(b"range") is None:
                return Answer(kept(body.upper(), b"Cache-Control: max-age=1000", field, tag=b'"y"'))
            is_first = len(asks(world, path)) == 0
            share = b"Cache-Control: max-age=1000"
            fields = [share] if is_first else [*([] if field.startswith(b"Cache") else [share]), field]
            return Answer(part(body, ask.field(b"range"), b"Date: " + date(), b'ETag: "x"', *fields))

        world.origin.on(path, answer)
        body_told(world, path, b"Range: bytes=0-4095")
        body_told(world, path)
        before = len(asks(world, path))
        body_told(world, path, b"Range: bytes=0-99")
        holds(len(asks(world, path)) > before, f"the origin is asked again behind a part with {field!r}")


@case
@rule("forbids-sharing")
def a_rest_that_is_for_one_alone_is_not_asked_for_without_end(world):
    # a fetch brings the front, for everybody; the rest that is wanted is for one alone, each time
    body = b"all" * 4_000

    def answer(ask):
        if ask.field(b"if-range"):
            return Answer(part(body, ask.field(b"range"), b'ETag: "x"', b"Cache-Control: private"))
        return Answer(part(body, b"bytes=0-99", b"Date: " + date(), b'ETag: "x"', b"Cache-Control: max-age=1000"))

    world.origin.on("/rest", answer)
    equal(told(world, "/rest", b"Range: bytes=200-299"), LAST_BAD_GATEWAY.partition(b"\r\n\r\n")[::2], "the answer at the end")
    equal(len(asks(world, "/rest")), 8, "asks for the front and for the rest")


@case
@rule("holes-nobody-fills")
def a_rest_of_yet_another_version_is_not_asked_for_without_end(world):
    # each ask for the rest is answered by the front of one more version, against If-Range (RFC 7233, 3.2)
    def answer(ask):
        tag = b'ETag: "%d"' % len(asks(world, "/ever-another"))
        return Answer(part(b"all" * 4_000, b"bytes=0-99", b"Date: " + date(), tag, b"Cache-Control: max-age=1000"))

    world.origin.on("/ever-another", answer)
    equal(told(world, "/ever-another", b"Range: bytes=200-299"), LAST_BAD_GATEWAY.partition(b"\r\n\r\n")[::2], "the answer at the end")
    equal([ask.field(b"if-range") for ask in asks(world, "/ever-another")], [None, b'"0"', b'"1"', b'"2"'], "the versions whose rest is asked for")


@case
@rule("no-guess")
def nobody_guesses_how_long_an_answer_to_a_query_is_fresh(world):
    # RFC 2616, 13.9 for the query, 14.32 for Pragma
    old = b"Last-Modified: " + date(days=30)
    for path, field, asked, count in [
        ("/guess/plain", b"X: y", [], 1),
        ("/guess/query?a=1", b"X: y", [], 2),
        ("/guess/cookie", b"X: y", [b"Cookie: a=b"], 2),
        ("/guess/pragma", b"Pragma: no-cache", [], 2),
    ]:
        world.origin.on(path, lambda ask: Answer(not_modified() if ask.field(b"if-none-match") else kept(b"hello", old, field)))
        for _ in range(2):
            equal(body_told(world, path, *asked), b"hello", f"the body of {path}")
        equal(len(asks(world, path)), count, f"asks for {path}")


@case
@rule("full-answer-to-a-check")
def the_full_answer_to_a_check_is_what_is_told(world):
    # RFC 7234, 4.3.3: the cache MUST use the full response to satisfy the request
    for number, tag in enumerate([b'"constant"', b'""']):
        path = f"/constant/{number}"
        answers = iter([b"one", b"two", b"three", b"four"])
        world.origin.on(path, lambda ask: Answer(kept(next(answers), b"Cache-Control: no-cache", tag=tag)))
        for wanted in [b"one", b"two", b"three"]:
            equal(body_told(world, path), wanted, f"the body under the tag {tag!r}")
        equal(body_told(world, path, b"Cache-Control: no-cache"), b"four", f"the body of a reload under the tag {tag!r}")


@case
@rule("another-tag")
def a_304_of_another_version_is_no_answer(world):
    # RFC 2616, 10.3.5: it MUST disregard the response, and repeat the request without the condition
    for number, (tag, wanted, count) in enumerate([(b'"w"', b"new", 3), (b'W/"w"', b"new", 3), (b'W/"v"', b"old", 2), (b'"v"', b"old", 2)]):
        path = f"/other/{number}"

        def answer(ask, path=path, tag=tag):
            if ask.field(b"if-none-match"):
                return Answer(not_modified(b"ETag: " + tag, b"Cache-Control: max-age=100"))
            if len(asks(world, path)) == 0:
                return Answer(kept(b"old", b"Cache-Control: max-age=0", tag=b'"v"'))
            return Answer(kept(b"new", b"Cache-Control: max-age=100", tag=b'"w"'))

        world.origin.on(path, answer)
        equal(body_told(world, path), b"old", "the first body")
        equal(body_told(world, path), wanted, f"the body behind a 304 of {tag!r}")
        equal(len(asks(world, path)), count, f"asks with a 304 of {tag!r}")


@case
@rule("shown-in-passing")
def what_a_passed_answer_shows_is_believed(world):
    # RFC 2616, 9.4 for HEAD: the entry MUST be treated as stale; 404 and 410 say that there is nothing
    shown = {
        "another tag, to HEAD": ("HEAD", [], kept(b"w", tag=b'"w"')),
        "another length, to HEAD": ("HEAD", [], kept(b"longer", tag=b'"v"')),
        "another tag, to a client with a name": ("GET", [b"Authorization: Basic eDp5"], kept(b"w", b"Cache-Control: private", tag=b'"w"')),
        "nothing, to a client with a name": ("GET", [b"Authorization: Basic eDp5"], response(b"", status=b"404 Not Found")),
        "nothing any more, to HEAD": ("HEAD", [], response(b"", status=b"410 Gone")),
    }
    for number, (name, (method, fields, text)) in enumerate(shown.items()):
        path = f"/shown/{number}"
        answers = iter([kept(b"v", b"Cache-Control: max-age=1000", tag=b'"v"'), None, kept(b"now", tag=b'"w"')])
        passed = text.partition(b"\r\n\r\n")[0] + b"\r\n\r\n" if method == "HEAD" else text
        world.origin.on(path, lambda ask: Answer(next(answers) or passed))
        equal(body_told(world, path), b"v", "the body that is kept")
        told(world, path, b"Cache-Control: no-store" if method == "HEAD" else b"X: y", *fields, method=method)
        equal(body_told(world, path), b"now", f"the body behind {name}")


@case
@rule("content-coding")
def a_coding_is_told_to_nobody_who_did_not_ask_for_it(world):
    def answer(ask):
        if b"gzip" in (ask.field(b"accept-encoding") or b""):
            return Answer(kept(b"packed", b"Content-Encoding: gzip", b"Cache-Control: max-age=1000"))
        return Answer(kept(b"plain", b"Cache-Control: max-age=1000", tag=b'"plain"'))

    world.origin.on("/coded", answer)
    equal(body_told(world, "/coded", b"Accept-Encoding: gzip, deflate"), b"packed", "the body in the coding")
    equal(body_told(world, "/coded"), b"plain", "the body without")
    equal(body_told(world, "/coded", b"Accept-Encoding: gzip;q=0.5"), b"plain", "the body that is kept")


@case
@rule("content-coding")
def what_is_missing_is_asked_for_without_a_wish_for_a_coding(world):
    # RFC 9110, 12.5.3: an origin that codes as it sends drops the range then, and weakens the tag
    body = b"all" * 4_000

    def answer(ask):
        if ask.field(b"accept-encoding"):
            return Answer(kept(b"packed", b"Content-Encoding: gzip", tag=b'W/"x"'))
        return Answer(part(body, ask.field(b"range"), b"Date: " + date(), b'ETag: "x"', b"Cache-Control: max-age=1000"))

    world.origin.on("/packs", answer)
    equal(body_told(world, "/packs", b"Range: bytes=0-4095"), body[:4_096], "the part that is known")
    equal(body_told(world, "/packs", b"Accept-Encoding: gzip"), body, "all of it, for a client that takes codings")
    equal([ask.field(b"range") for ask in asks(world, "/packs")], [b"bytes=0-4095", b"bytes=4096-11999"], "the ranges that are asked for")


@case
@rule("content-coding")
def the_rest_of_an_archive_is_for_whoever_wants_it(world):
    # its coding is its own: nobody asked for one, neither for the front nor for the rest
    body = b"all" * 4_000
    fields = [b'ETag: "x"', b"Content-Encoding: gzip", b"Cache-Control: max-age=1000"]
    world.origin.on("/archive", lambda ask: Answer(part(body, ask.field(b"range"), b"Date: " + date(), *fields)))
    equal(body_told(world, "/archive", b"Range: bytes=0-4095"), body[:4_096], "the part that is known")
    equal(body_told(world, "/archive", b"Accept-Encoding: gzip"), body, "all of it, for a client that takes codings")
    equal([ask.field(b"range") for ask in asks(world, "/archive")], [b"bytes=0-4095", b"bytes=4096-11999"], "the ranges that are asked for")


@case
@rule("resumed")
def a_download_is_resumed_where_nothing_is_known(world):
    # RFC 9110, 13.1.5: only the origin can say whether a date or a weak tag holds
    body, since = noise(100_000), b"Sun, 06 Nov 1994 08:49:37 GMT"

    def answer(ask):
        fields = [b"Date: " + date(), b'ETag: "x"', b"Last-Modified: " + since]
        if ask.field(b"if-range") in [since, b'W/"x"']:
            return Answer(part(body, ask.field(b"range"), *fields))
        return Answer(response(body, *fields))

    world.origin.on("/resumed", answer)
    for validator in [since, b'W/"x"']:
        head, rest = told(world, "/resumed", b"Range: bytes=90000-", b"If-Range: " + validator)
        equal((head.split(b"\r\n")[0], rest), (b"HTTP/1.1 206 Partial Content", body[90_000:]), f"the rest by {validator!r}")
    # a strong tag is judged here, once the body is known
    head, rest = told(world, "/resumed", b"Range: bytes=90000-", b'If-Range: "x"')
    equal((head.split(b"\r\n")[0], rest), (b"HTTP/1.1 206 Partial Content", body[90_000:]), "the rest by a strong tag")
    equal([ask.field(b"range") for ask in asks(world, "/resumed")], [b"bytes=90000-", b"bytes=90000-", None], "the ranges that are asked for")


@case
@rule("one-message")
def a_checksum_of_one_content_is_not_said_of_another(world):
    # RFC 2616, 14.15; RFC 9530, 2: that of a whole is not that of a part, nor the other way round
    body = b"all" * 4_000
    fields = [b'ETag: "x"', b"Cache-Control: max-age=1000", b"Content-MD5: cQ==", b"Content-Digest: md5=:cQ==:", b"Repr-Digest: md5=:cQ==:"]

    def answer(ask):
        own = [b"Date: " + date(), *fields]
        return Answer(part(body, ask.field(b"range"), *own) if ask.field(b"range") else response(body, *own))

    front, all_of_it = ([b"Range: bytes=0-4095"], body[:4_096]), ([], body)
    for path, in_order in [("/summed/whole", [all_of_it, front]), ("/summed/part", [front, all_of_it])]:
        world.origin.on(path, answer)
        for asked, wanted in in_order:
            head, text = told(world, path, *asked)
            equal(text, wanted, f"what {path} brings for {asked!r}")
            names = [line.partition(b":")[0].lower() for line in head.split(b"\r\n")]
            equal([name for name in names if name in [b"content-md5", b"content-digest", b"repr-digest"]], [b"repr-digest"], f"checksums of {path} for {asked!r}")


@case
@rule("invalidation")
def a_post_makes_anew_what_it_names(world):
    # RFC 2616, 13.10: Location and Content-Location of the same host
    for path in ["/named/location", "/named/content"]:
        counts = iter([b"one", b"two", b"three"])
        world.origin.on(path, lambda ask, counts=counts: Answer(kept(next(counts), b"Cache-Control: max-age=1000")))
        equal(body_told(world, path), b"one", f"the first body of {path}")
    fields = [b"Location: " + world.url("/named/location").encode(), b"Content-Location: /named/content"]
    world.origin.on("/post", Answer(response(b"", *fields, status=b"201 Created")))
    told(world, "/post", b"Content-Length: 2", method="POST", body=b"ab")
    for path in ["/named/location", "/named/content"]:
        equal(body_told(world, path), b"two", f"the body of {path} behind the POST")
    # another host's are not this one's to clear
    fields = [b"Location: http://127.0.0.2:%d/named/location" % world.origin.port]
    world.origin.on("/post", Answer(response(b"", *fields, status=b"201 Created")))
    told(world, "/post", b"Content-Length: 2", method="POST", body=b"ab")
    equal(body_told(world, "/named/location"), b"two", "the body behind a POST that names another host")


@case
@rule("shorter-life")
def where_two_readings_are_possible_the_shorter_life_holds(world):
    fields = {
        "two ages": [b"Age: 1000, 1000", b"Cache-Control: max-age=60"],
        "two fields of an age": [b"Age: 1000", b"Age: 0", b"Cache-Control: max-age=60"],
        "an age that is no number": [b"Age: old", b"Cache-Control: max-age=60"],
        "an age that is too large": [b"Age: 99999999999999999999", b"Cache-Control: max-age=60"],
        "a quote that stays open": [b'Cache-Control: max-age=1000, x="y, no-store'],
        "a connection's cache-control": [b"Connection: cache-control", b"Cache-Control: no-cache", b"Last-Modified: " + date(30)],
        "a connection's age": [b"Connection: age", b"Age: 1000", b"Cache-Control: max-age=60"],
    }
    for number, (name, own) in enumerate(fields.items()):
        path = f"/life/{number}"
        world.origin.on(path, lambda ask: Answer(kept(b"hello", *own)))
        for _ in range(2):
            equal(body_told(world, path), b"hello", f"the body with {name}")
        equal(len(asks(world, path)), 2, f"asks with {name}")
