"""Answers that are no answer to what was asked: a part that is none, another part, a word that nothing changed where nothing was
known, two versions at once, and bytes that nobody asked for."""

from caching import FRESH, TAG, now, said
from harness import case, equal, holds
from origin import Answer, lines, part, response
from played import Played
from world import BAD_GATEWAY, Client, reply

BODY = b"123456789"


def break_off(world, path, *, then):
    """The origin breaks off behind five of nine bytes, and answers each ask for more as this says. Gives what a client heard."""

    def answer(ask):
        asked = ask.field(b"range")
        fields = [b"Date: " + now(), b"ETag: " + TAG, FRESH]
        return Answer(response(BODY, *fields)[:-4], then="end") if asked is None else Answer(then(asked, *fields))

    world.origin.on(path, answer)
    return said(world, path)[0]


def no_part(_asked, *fields):
    """Its last byte comes before its first."""
    return lines(b"HTTP/1.1 206 Partial Content", *fields, b"Content-Range: bytes 5-4/9", b"Content-Length: 0")


def last_two(_asked, *fields):
    return part(BODY, b"bytes=7-8", *fields)


def from_the_third_on(asked, *fields):
    """Bytes before what is missing, and its first two; then what is asked for."""
    return part(BODY, b"bytes=3-6" if asked.startswith(b"bytes=5-") else asked, *fields)


@case
def a_hole_that_three_useless_answers_do_not_fill_cuts_its_client_behind_what_came(world):
    with world.anew() as proxy:
        for path, then in (("/none", no_part), ("/other", last_two)):
            heard = break_off(proxy, path, then=then)
            holds(heard.endswith(b"\r\n\r\n12345") and b"content-length: 9\r\n" in heard, f"five bytes of nine in place of {heard}")
            ranges = [ask.field(b"range") for ask in proxy.origin.asked if ask.path == path]
            equal(ranges[:2], [None, b"bytes=5-8"], f"the first asks for {path}")
            holds(2 <= len(ranges) <= 7, f"few asks for {path} in place of {ranges}")


@case
def a_part_that_has_the_next_byte_and_others_is_taken(world):
    with world.anew() as proxy:
        heard = break_off(proxy, "/more", then=from_the_third_on)
        holds(heard.endswith(b"\r\n\r\n" + BODY), f"nine bytes in place of {heard}")
        holds(said(proxy, "/more", b"Cache-Control: only-if-cached")[0].endswith(BODY), "nine bytes from memory")


@case
def that_nothing_changed_is_no_answer_where_nothing_was_known(world):
    world.origin.on("/unknown", Answer(lines(b"HTTP/1.1 304 Not Modified", b"ETag: " + TAG)))
    with Client() as client:
        client.say(world.request("/unknown"))
        client.expect(BAD_GATEWAY)


@case
def of_two_versions_none_is_kept(world):
    with world.anew() as proxy:
        proxy.origin.on("/two", Answer(response(BODY, b"Date: " + now(), b'ETag: "a"', b'ETag: "b"', FRESH)))
        for _time in (1, 2):
            heard = said(proxy, "/two")[0]
            holds(b'\r\netag: "a"\r\n' in heard and b'\r\netag: "b"\r\n' in heard and heard.endswith(BODY), f"both in place of {heard}")
        equal(len(proxy.origin.asked), 2, "asks of the origin")


@case
def bytes_that_nobody_asked_for_are_told_to_nobody(world):
    with world.anew() as proxy, Played() as origin, Client(port=proxy.port) as client:
        fields = [b"Date: " + now(), b"ETag: " + TAG, FRESH]
        for stray in (response(b"stray", *fields), b"\x00", lines(b"HTTP/1.1 100 Continue"), b"HTTP/1.1 304 Not Modified\r\n\r\n"):
            client.say(origin.request("/a", b"Cache-Control: no-cache"))
            ask = origin.take()
            ask.say(response(BODY, *fields))
            client.hear_until(BODY)
            ask.say(stray)
            client.expect_silence(0.1)
            client.say(origin.request("/b"))
            other = origin.take()
            holds(other.connection is not ask.connection, f"another connection behind {stray[:20]}")
            other.say(response(b"other", b"X: y"))
            client.expect(reply(b"other", b"x: y"), "the reply for something else")
            client.say(origin.request("/a"))
            holds(client.hear_until(BODY).endswith(b"\r\n\r\n" + BODY), "what was kept before")
            holds(origin.take_if_any(0) is None, "no more asks")
