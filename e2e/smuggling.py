"""No message is understood in two ways: one framing or none (RFC 7230, section 9.5)."""

from harness import case, equal
from origin import Answer, lines, plain
from refusals import expect_all
from world import BAD_REQUEST, LENGTH_REQUIRED, Client, passed


def posts(world, table):
    """A POST with the fields of each line of a table, and behind it what could be taken for a request."""
    inner = world.request("/smuggled")
    return {name: world.request("/p", *fields, method="POST") + inner for name, fields in table.items()}


@case
def a_request_in_a_transfer_coding_is_411(world):
    table = {
        "chunked": [b"Transfer-Encoding: chunked"],
        "chunked in capitals": [b"TRANSFER-ENCODING: CHUNKED"],
        "chunked, and a length": [b"Content-Length: 5", b"Transfer-Encoding: chunked"],
        "chunked, and two lengths": [b"Content-Length: 5", b"Content-Length: 6", b"Transfer-Encoding: chunked"],
        "chunked, hidden by Connection": [b"Connection: transfer-encoding", b"Transfer-Encoding: chunked"],
        "chunked twice": [b"Transfer-Encoding: chunked", b"Transfer-Encoding: chunked"],
        "identity and chunked": [b"Transfer-Encoding: identity", b"Transfer-Encoding: chunked"],
        "gzip": [b"Transfer-Encoding: gzip"],
        "an unknown coding": [b"Transfer-Encoding: xchunked"],
        "a quoted coding": [b'Transfer-Encoding: "chunked"'],
        "a coding with a parameter": [b"Transfer-Encoding: identity;chunked"],
    }
    expect_all(world, posts(world, table), LENGTH_REQUIRED)
    get = {"GET": world.request("/p", b"Transfer-Encoding: chunked")}
    expect_all(world, get, LENGTH_REQUIRED)


@case
def lengths_that_differ_or_are_no_number_are_400(world):
    table = {
        "two": [b"Content-Length: 5", b"Content-Length: 6"],
        "two, apart": [b"Content-Length: 5", b"A: b", b"content-LENGTH: 0"],
        "a sign": [b"Content-Length: +1"],
        "a negative": [b"Content-Length: -1"],
        "nothing": [b"Content-Length:"],
        "blanks": [b"Content-Length:  "],
        "a list": [b"Content-Length: 5, 5"],
        "a number and more": [b"Content-Length: 5 6"],
        "hexadecimal": [b"Content-Length: 0x5"],
        "a fraction": [b"Content-Length: 5.0"],
        "an exponent": [b"Content-Length: 1e1"],
        "more than 64 bits": [b"Content-Length: 18446744073709551616"],
        "one that is and one that is not": [b"Content-Length: 5", b"Content-Length: five"],
    }
    expect_all(world, posts(world, table), BAD_REQUEST)


@case
def fields_that_two_readers_could_read_apart_are_400(world):
    table = {
        "a blank before the colon": [b"Content-Length : 5"],
        "a folded line": [b"A: b", b" Content-Length: 5"],
        "a return alone": [b"A: b\rContent-Length: 5"],
        "a NUL": [b"A: b\x00", b"Content-Length: 5"],
        "no name": [b": b", b"Content-Length: 5"],
        "a blank in a name": [b"Content Length: 5"],
    }
    expect_all(world, posts(world, table), BAD_REQUEST)


@case
def equal_lengths_are_asked_as_one(world):
    world.origin.on("/p", Answer(plain(b"hello")))
    world.origin.clear()
    fields = {
        "twice": [b"Content-Length: 3", b"A: b", b"content-length: 3"],
        "with zeros": [b"Content-Length: 003", b"A: b"],
        "beside identity": [b"Transfer-Encoding: identity", b"A: b", b"Content-Length: 3"],
    }
    for name, values in fields.items():
        world.origin.clear()
        with Client() as client:
            text = world.request("/p", *values, method="POST") + b"abc"
            client.say(text * 2)
            client.expect(passed(b"hello") * 2, f"the replies to a length {name}")
        asked = world.ask("/p", b"a: b", b"content-length: 3", method="POST") + b"abc"
        equal(world.origin.asked_texts(), [asked] * 2, f"the asks of a length {name}")


@case
def a_request_within_a_body_is_no_request(world):
    inner = world.request("/smuggled")
    world.origin.on("/p", Answer(plain(b"hello")))
    world.origin.clear()
    with Client() as client:
        client.say(world.request("/p", b"Content-Length: %d" % len(inner)) + inner + world.request("/probe"))
        client.expect(passed(b"hello") + passed(b"still here"))
    equal([ask.path for ask in world.origin.asked], ["/p", "/probe"], "the asks")


@case
def the_target_decides_and_not_the_host_field(world):
    world.origin.on("/target", Answer(plain(b"hello")))
    world.origin.clear()
    with Client() as client:
        client.say(lines(f"GET {world.url('/target')} HTTP/1.1".encode(), b"Host: 127.0.0.2:1", b"Host: other"))
        client.expect(passed(b"hello"))
    equal(world.origin.asked_texts(), [world.ask("/target")], "the ask")
