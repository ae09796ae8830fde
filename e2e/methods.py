"""Every method is passed, and the body of a request with it."""

import hashlib
import tempfile
import threading
import time

from harness import case, equal, holds, together
from origin import Answer, lines, noise, plain, response
from passing import curl
from world import CONTINUE, VIA, Client, passed, reply, reply_head

NO_CONTENT = lines(b"HTTP/1.1 204 No Content")
NO_CONTENT_PASSED = reply_head(VIA, status=b"204 No Content")
# The pool has 4,096 chunks of 4,096 bytes, and 1,024 exchanges have room for texts of 16,384 bytes, taken at the start; what stands
# beside them has as much again as one of these at most.
MEMORY_BOUND = 50_000_000
LARGE = 200_000_000


def length(count):
    return b"Content-Length: %d" % count


@case
def each_method_is_passed(world):
    world.origin.on("/m", Answer(plain(b"hello")))
    with Client() as client:
        for method in ["GET", "PUT", "DELETE", "OPTIONS", "TRACE", "PATCH", "PROPFIND", "get", "M-SEARCH"]:
            world.origin.clear()
            client.say(world.request("/m", method=method))
            client.expect(passed(b"hello"), f"the reply to {method}")
            equal(world.origin.asked_texts(), [world.ask("/m", method=method)], f"the ask of {method}")


@case
def a_request_body_is_passed_with_its_length(world):
    for body in [b"", b"abc", bytes(range(256)), b"GET /b HTTP/1.1\r\n\r\n", noise(50_000)]:
        world.origin.on("/p", Answer(NO_CONTENT))
        world.origin.clear()
        with Client() as client:
            text = world.request("/p", length(len(body)), b"A: b", method="POST") + body
            client.say(text)
            client.expect(NO_CONTENT_PASSED)
            client.say(text)
            client.expect(NO_CONTENT_PASSED)
        asked = world.ask("/p", b"a: b", b"content-length: %d" % len(body), method="POST") + body
        equal(world.origin.asked_texts(), [asked] * 2, "the asks")


@case
def a_request_body_may_come_byte_by_byte(world):
    world.origin.on("/p", Answer(plain(b"hello")))
    world.origin.clear()
    with Client() as client:
        text = world.request("/p", length(11), method="PUT") + b"hello world"
        client.say_in_pieces(text * 2, 1)
        client.expect(passed(b"hello") * 2)
    asked = world.ask("/p", b"content-length: 11", method="PUT") + b"hello world"
    equal(world.origin.asked_texts(), [asked] * 2, "the asks")


@case
def curl_posts_ten_megabytes(world):
    body = noise(10_000_000)
    world.origin.on("/post", Answer(plain(b"thanks")))
    world.origin.clear()
    with tempfile.NamedTemporaryFile() as file:
        file.write(body)
        file.flush()
        start = time.monotonic()
        run = curl("--include", "--data-binary", f"@{file.name}", world.url("/post"))
        elapsed = time.monotonic() - start
    equal(run.stderr, b"", "curl's complaint")
    # curl sends so much only once it is told to go on
    equal(run.stdout, CONTINUE + passed(b"thanks"))
    (ask,) = world.origin.asked
    equal(ask.length, len(body), "the length at the origin")
    equal(ask.digest(), hashlib.sha256(body).hexdigest(), "the digest at the origin")
    equal(ask.field(b"content-length"), b"10000000", "the length's field")
    equal(ask.field(b"expect"), None, "the expectation")
    return f"{len(body) / elapsed / 1e6:.0f} MB/s"


@case
def a_client_that_waits_for_100_is_told_to_go_on(world):
    world.origin.on("/p", Answer(NO_CONTENT))
    world.origin.clear()
    for expectation in [b"Expect: 100-continue", b"expect: 100-Continue"]:
        with Client() as client:
            client.say(world.request("/p", length(3), expectation, method="POST"))
            client.expect(CONTINUE, "the interim answer, before the body was sent")
            client.say(b"abc")
            client.expect(NO_CONTENT_PASSED)
    asked = world.ask("/p", b"content-length: 3", method="POST") + b"abc"
    equal(world.origin.asked_texts(), [asked] * 2, "the asks")


@case
def a_client_that_does_not_wait_for_100_is_told_all_the_same(world):
    world.origin.on("/p", Answer(NO_CONTENT))
    with Client() as client:
        client.say(world.request("/p", length(3), b"Expect: 100-continue", method="POST") + b"abc")
        client.expect(CONTINUE + NO_CONTENT_PASSED)


@case
def without_a_body_or_under_an_older_version_nobody_is_told_to_go_on(world):
    world.origin.on("/p", Answer(plain(b"hello")))
    with Client() as client:
        client.say(world.request("/p", b"Expect: 100-continue"))
        client.expect(passed(b"hello"), "the reply to a request without a body")
        client.say(world.request("/p", length(0), b"Expect: 100-continue", method="POST"))
        client.expect(passed(b"hello"), "the reply to a request with an empty body")
    with Client() as client:
        client.say(world.request("/p", length(3), b"Expect: 100-continue", method="POST", version="1.0") + b"abc")
        client.expect_last(passed(b"hello", b"close"), "the reply to HTTP/1.0")


@case
def the_reply_to_head_has_no_body(world):
    replies = {
        response(b"")[:-4] + b"\r\nContent-Length: 0\r\n\r\n": reply_head(VIA, b"content-length: 0"),
        lines(b"HTTP/1.1 200 OK", length(1234)): reply_head(VIA, b"content-length: 1234"),
        lines(b"HTTP/1.1 200 OK"): reply_head(VIA),
        lines(b"HTTP/1.1 200 OK", b"Transfer-Encoding: chunked"): reply_head(VIA),
        lines(b"HTTP/1.1 404 Not Found", b"A: b", length(5)): reply_head(
            b"a: b", VIA, b"content-length: 5", status=b"404 Not Found"
        ),
    }
    with Client() as client:
        for text, wanted in replies.items():
            world.origin.on("/h", Answer(text))
            world.origin.clear()
            client.say(world.request("/h", method="HEAD"))
            client.expect(wanted, f"the reply of {text}")
            equal(world.origin.asked_texts(), [world.ask("/h", method="HEAD")], "the ask")


@case
def curl_asks_for_a_head(world):
    world.origin.on("/h", Answer(lines(b"HTTP/1.1 200 OK", length(1234))))
    run = curl("--head", world.url("/h"))
    equal(run.stderr, b"", "curl's complaint")
    equal(run.stdout, reply_head(VIA, b"content-length: 1234"))


@case
def statuses_without_a_body_have_none(world):
    replies = {
        lines(b"HTTP/1.1 204 No Content", b"A: b"): reply_head(b"a: b", VIA, status=b"204 No Content"),
        lines(b"HTTP/1.1 304 Not Modified", b'ETag: "x"'): reply_head(b'etag: "x"', VIA, status=b"304 Not Modified"),
        lines(b"HTTP/1.1 304 Not Modified", length(99)): reply_head(
            VIA, b"content-length: 99", status=b"304 Not Modified"
        ),
    }
    with Client() as client:
        for text, wanted in replies.items():
            world.origin.on("/none", Answer(text))
            client.say(world.request("/none", b'If-None-Match: "x"'))
            client.expect(wanted, f"the reply of {text}")


@case
def a_reply_may_come_before_the_request_was_read(world):
    world.origin.on("/early", Answer(plain(b"enough"), reads_body=False))
    body = noise(5_000_000)
    with Client() as client:
        client.say(world.request("/early", length(len(body)), method="POST") + body[:100_000])
        client.expect(passed(b"enough"), "the reply, though most of the body is to come")
        client.say(body[100_000:])
        client.say(world.request("/probe"))
        client.expect(passed(b"still here"), "the reply to the next request")


@case
def what_nobody_reads_of_a_body_is_no_request(world):
    world.origin.on("/early", Answer(plain(b"enough"), then="end", reads_body=False))
    inner = world.request("/inner")
    body = inner * 3_000
    world.origin.clear()
    with Client() as client:
        client.say(world.request("/early", length(len(body)), method="POST") + body + world.request("/probe"))
        client.expect(passed(b"enough"))
        client.expect(passed(b"still here"), "the reply to the next request")
    holds("/inner" not in [ask.path for ask in world.origin.asked], "nothing of the body is asked")


@case
def an_origin_that_answers_and_closes_is_heard(world):
    """It closes with most of the body unread, which makes the system send a reset behind the reply."""
    world.origin.on("/large", Answer(response(b"too large", status=b"413 Payload Too Large"), then="end", reads_body=False))
    body = noise(3_000_000)
    for _ in range(20):
        with Client() as client:
            sender = threading.Thread(
                target=client.say, args=(world.request("/large", length(len(body)), method="POST") + body,), daemon=True
            )
            sender.start()
            client.expect(reply(b"too large", status=b"413 Payload Too Large"), "the refusal")
            sender.join(10)


@case
def a_client_that_hangs_up_in_its_body_harms_nobody_else(world):
    world.origin.on("/p", Answer(plain(b"hello")))
    world.origin.clear()
    for count in [0, 1, 5_000, 100_000]:
        for hang_up in (Client.reset, Client.end):
            client = Client()
            client.say(world.request("/p", length(1_000_000), method="POST") + noise(count))
            hang_up(client)
            client.socket.close()
        world.check_still_served()
    holds(all(ask.path == "/probe" for ask in world.origin.asked), "no body was taken as whole")


@case
def bodies_of_200_megabytes_pass_in_bounded_memory(world):
    body = noise(LARGE)
    wanted = hashlib.sha256(body).hexdigest()
    world.origin.on("/down", Answer(plain(body)))
    world.origin.on("/up", Answer(plain(b"thanks")))
    world.origin.clear()
    start = time.monotonic()
    with Client() as client:
        client.say(world.request("/down"))
        client.expect(passed(body)[: -len(body)], "the head")
        digest, left = hashlib.sha256(), len(body)
        while left:
            piece = client.hear(min(1 << 20, left))
            holds(piece, "the whole body")
            digest.update(piece)
            left -= len(piece)
        equal(digest.hexdigest(), wanted, "the digest of the reply's body")
        client.say(world.request("/up", length(len(body)), method="PUT"))
        client.say(body)
        client.expect(passed(b"thanks"))
    ask = world.origin.asked[-1]
    equal((ask.length, ask.digest()), (len(body), wanted), "length and digest of the request's body")
    elapsed = time.monotonic() - start
    most = world.most_memory()
    holds(most < MEMORY_BOUND, f"at most {MEMORY_BOUND:,} bytes of memory (it had {most:,})")
    return f"{2 * LARGE / elapsed / 1e6:.0f} MB/s, at most {most / 1e6:.1f} MB of memory (VmHWM)"


@case
def ten_bodies_go_up_at_once(world):
    bodies = [noise(300_000 + 7 * number) for number in range(10)]
    world.origin.on("/up", Answer(plain(b"thanks")))
    world.origin.clear()

    def job(body):
        def send():
            with Client() as client:
                client.say(world.request("/up", length(len(body)), method="POST") + body)
                client.expect(passed(b"thanks"))

        return send

    equal(together([job(body) for body in bodies]), [], "failures")
    came = sorted(ask.digest() for ask in world.origin.asked)
    equal(came, sorted(hashlib.sha256(body).hexdigest() for body in bodies), "the digests at the origin")
