"""A request is passed to its origin, and the response back, byte for byte."""

import contextlib
import hashlib

from harness import Skipped, case, environment, equal, holds, need, ran
from origin import DATE, Answer, Origin, lines, noise, plain, response
from world import PORT, VIA, Client, passed, reply


def curl(*words, **options):
    """Runs curl through the proxy, and no variable of the environment changes that."""
    need("curl")
    command = ["curl", "--silent", "--show-error", "--max-time", "40", "--proxy", f"127.0.0.1:{PORT}"]
    return ran(command + list(words), env=environment(), **options)


@case
def a_request_and_its_response_are_passed_byte_for_byte(world):
    world.origin.on("/a", Answer(plain(b"hello")))
    world.origin.clear()
    with Client() as client:
        client.say(world.request("/a"))
        client.expect(passed(b"hello"))
    equal(world.origin.asked_texts(), [world.ask("/a")], "the ask")


@case
def curl_gets_head_and_body(world):
    world.origin.on("/curl", Answer(plain(b"hello")))
    world.origin.clear()
    run = curl("--include", "--user-agent", "it", world.url("/curl"))
    equal(run.stderr, b"", "curl's complaint")
    equal(run.stdout, passed(b"hello"))
    equal(world.origin.asked_texts(), [world.ask("/curl", b"user-agent: it", b"accept: */*")], "the ask")


@case
def a_host_may_be_a_name_in_any_letters(world):
    world.origin.on("/a", Answer(response(b"hello")))
    for host in ["localhost", "LocalHost"]:
        world.origin.clear()
        with Client() as client:
            client.say(lines(f"GET http://{host}:{world.origin.port}/a HTTP/1.1".encode(), b"Host: other"))
            client.expect(reply(b"hello"))
        name = f"host: localhost:{world.origin.port}".encode()
        equal(world.origin.asked_texts(), [lines(b"GET /a HTTP/1.1", name, VIA)], "the ask")


@case
def each_request_goes_to_the_port_that_it_names(world):
    world.origin.on("/a", Answer(plain(b"hello")))
    with contextlib.closing(Origin()) as other, Client() as client:
        other.on("/a", Answer(plain(b"other")))
        for _ in range(3):
            client.say(world.request("/a"))
            client.expect(passed(b"hello"))
            client.say(lines(f"GET http://{other.authority}/a HTTP/1.1".encode()))
            client.expect(passed(b"other"))


@case
def without_a_port_it_is_80(world):
    try:
        origin = Origin(80)
    except PermissionError:
        raise Skipped("the right to port 80")
    except OSError:
        raise Skipped("a free port 80")
    with contextlib.closing(origin):
        origin.on("/a", Answer(response(b"hello")))
        for authority in ["127.0.0.1", "127.0.0.1:80", "127.0.0.1:"]:
            origin.clear()
            with Client() as client:
                client.say(lines(f"GET http://{authority}/a HTTP/1.1".encode()))
                client.expect(reply(b"hello"), f"the reply of {authority}")
            equal(origin.asked_texts(), [lines(b"GET /a HTTP/1.1", b"host: 127.0.0.1", VIA)], "the ask")


@case
def the_origin_is_asked_for_path_and_query(world):
    targets = {"": "/", "/": "/", "?q=1": "/?q=1", "/b/../c?d=/e?f": "/b/../c?d=/e?f", "/%7Ea;b": "/%7Ea;b", "/a#b": "/a"}
    for target, path in targets.items():
        world.origin.on(path, Answer(response(b"hello")))
        world.origin.clear()
        with Client() as client:
            client.say(world.request(target, b"Cache-Control: no-store"))
            client.expect(reply(b"hello"), f"the reply to {target}")
        equal(world.origin.asked_texts(), [world.ask(path, b"cache-control: no-store")], f"the ask for {target}")


@case
def an_empty_body_is_passed(world):
    world.origin.on("/empty", Answer(plain(b"")))
    with Client() as client:
        client.say(world.request("/empty") * 2)
        client.expect(passed(b"") * 2)


@case
def a_large_body_arrives_whole(world):
    body = noise(20_000_000)
    world.origin.on("/large", Answer(plain(body)))
    with Client() as client:
        client.say(world.request("/large"))
        wanted = passed(body)
        came = client.hear(len(wanted))
    equal(len(came), len(wanted), "the length")
    equal(hashlib.sha256(came).hexdigest(), hashlib.sha256(wanted).hexdigest(), "the digest")


@case
def bytes_may_come_one_by_one(world):
    world.origin.on("/slow", Answer(plain(b"hello"), piece=1, pause=0.001))
    with Client() as client:
        client.say_in_pieces(world.request("/slow"), 1)
        client.expect(passed(b"hello"))


@case
def any_status_is_passed_with_its_reason(world):
    statuses = [b"201 Created", b"206 Partial Content", b"302 Found", b"404 Not Found", b"418 I'm a teapot", b"503 ", b"999 X"]
    with Client() as client:
        for status in statuses:
            world.origin.on("/status", Answer(response(b"hello", b"Location: http://x/", status=status)))
            client.say(world.request("/status"))
            client.expect(reply(b"hello", b"location: http://x/", status=status), f"the reply of {status}")


@case
def a_client_that_has_sent_its_end_gets_its_reply(world):
    body = noise(300_000)
    world.origin.on("/half", Answer(plain(body), piece=50_000, pause=0.01))
    with Client() as client:
        client.say(world.request("/half"))
        client.end()
        client.expect_last(passed(body))


@case
def the_origin_may_end_after_its_response(world):
    world.origin.on("/ends", Answer(plain(b"hello"), then="end"))
    with Client() as client:
        for _ in range(3):
            client.say(world.request("/ends"))
            client.expect(passed(b"hello"))
    holds(world.process.poll() is None, "the program runs on")


@case
def repeated_fields_stay_apart_and_in_their_order(world):
    fields = [DATE, b"Set-Cookie: a=b", b"Server: s/1.0 (a; b)", b"Set-Cookie: c=d", b"X-Empty:"]
    world.origin.on("/fields", Answer(response(b"hello", *fields)))
    world.origin.clear()
    with Client() as client:
        client.say(world.request("/fields", b"Cookie: e=f", b"Accept: text/*", b"Cookie: g=h", b"X-Empty:"))
        date = DATE.replace(b"Date", b"date")
        client.expect(
            reply(b"hello", date, b"set-cookie: a=b", b"server: s/1.0 (a; b)", b"set-cookie: c=d", b"x-empty: ")
        )
    asked = world.ask("/fields", b"cookie: e=f", b"accept: text/*", b"cookie: g=h", b"x-empty: ")
    equal(world.origin.asked_texts(), [asked], "the ask")
