"""No host and no object is lost, no client gets another's, and nobody waits, and no byte comes, without need."""

import contextlib
import time

from flows import Flow, flow_from
from harness import Skipped, case, equal, holds
from naming import named
from network import free_port, has_ipv6
from origin import Answer, Origin, lines, noise, part, response
from played import Played
from rules import rule
from world import BAD_REQUEST, LAST_BAD_GATEWAY, PATIENCE, Client, reply

OK = b"HTTP/1.1 200 OK"
TAG = b'ETag: "x"'
FRESH = b"Cache-Control: max-age=1000"
PLACES = 8  # connections to one host, by default
MB = 1 << 20


def endless():
    """Sound without an end."""
    return Flow(lines(OK, b"Content-Type: audio/mpeg"), 1 << 40, piece=1_000, seconds_each=0.05)


def expect_another_connection(world, origin, first, path, of_what):
    """The next client's ask comes over another connection than this one."""
    with Client(port=world.port) as other:
        other.say(origin.request(path))
        holds(origin.take().connection is not first.connection, f"another connection behind {of_what}")


def told_soon(world, origin, path, wanted):
    """A new client is told this while all others stay as they are."""
    with Client(port=world.port) as client:
        client.say(origin.request(path, b"Connection: close") if isinstance(origin, Played) else world.last_request(path))
        try:
            equal(client.hear_all(), wanted, f"what a client of {path} is told")
        except TimeoutError:
            holds(False, f"an answer on {path}")


# ---- nothing is lost


@case
@rule("gone-clients")
def a_radio_whose_listeners_went_holds_no_place(world):
    with world.anew() as proxy:
        radio = [endless() for _ in range(PLACES + 2)]
        proxy.origin.on("/x", Answer(response(b"hello")))
        for number, flow in enumerate(radio):
            proxy.origin.on(f"/radio/{number}", flow)
            with Client(port=proxy.port) as listener:
                listener.say(proxy.request(f"/radio/{number}"))
                try:
                    holds(len(listener.hear(2_000)) == 2_000, "some sound")
                except TimeoutError:
                    holds(False, f"some sound, behind {number} listeners that went")
        told_soon(proxy, proxy, "/x", reply(b"hello", connection=b"close"))
        holds(all(flow.is_over.wait(PATIENCE) for flow in radio), "each stream ends soon behind its listener")


@case
@rule("holes-nobody-fills")
def what_cannot_be_completed_is_fetched_anew(world):
    # a load balancer names its server to whoever has no cookie of it, so parts cannot be kept; the whole can be passed
    body = noise(100_000)

    def answer(ask):
        own = [] if ask.field(b"cookie") else [b"Set-Cookie: SRV=1"]
        asked = ask.field(b"range")
        return Answer(part(body, asked, TAG, FRESH, *own) if asked else response(body, TAG, FRESH, *own))

    for name, span in [("front", b"bytes=0-4095"), ("end", b"bytes=98304-")]:
        path = f"/balanced/{name}"
        world.origin.on(path, answer)
        with Client(port=world.port) as client:
            client.say(world.last_request(path, b"Range: " + span, b"Cookie: SRV=1"))
            client.hear_all()
        texts = []
        for _ in range(2):
            with Client(port=world.port) as client:
                client.say(world.last_request(path))
                texts.append(client.hear_all().partition(b"\r\n\r\n")[2])
        if name == "end":
            equal(texts[0], body, "the first body, of which no byte was told before it was known")
        equal(texts[1], body, f"the body where the {name} was held")


PAGE = noise(100_000)
# answers to an ask for what is missing which do not bring it
UNFIT = {
    "a part without a tag": lambda asked: part(PAGE, asked, FRESH),
    "a part with a weak tag": lambda asked: part(PAGE, asked, b'ETag: W/"x"', FRESH),
    "a part of no known length": lambda asked: part(PAGE, asked, TAG, FRESH).replace(b"/100000", b"/*"),
    "another part": lambda asked: part(PAGE, b"bytes=50000-50099", TAG, FRESH),
    "a refusal": lambda asked: response(b"no", status=b"403 Forbidden"),
    "a fault": lambda asked: response(b"no", status=b"500 Internal Server Error"),
    "another place": lambda asked: response(b"", b"Location: /", status=b"302 Found"),
    "no range": lambda asked: response(b"", b"Content-Range: bytes */100000", status=b"416 Range Not Satisfiable"),
    "nothing new": lambda asked: lines(b"HTTP/1.1 304 Not Modified", TAG),
}


@case
@rule("holes-nobody-fills")
def what_no_answer_completes_is_fetched_anew(world):
    # where its front is held, a reply may have begun, and is cut; then nothing of it is known any more
    for name, unfit in UNFIT.items():
        for held, span in [("front", b"bytes=0-4095"), ("end", b"bytes=98304-")]:
            path = f"/{name.replace(' ', '-')}/{held}"
            world.origin.on(path, lambda ask: Answer(part(PAGE, ask.field(b"range"), TAG, FRESH)))
            bodies = []
            for fields in [[b"Range: " + span], [], []]:
                with Client() as client:
                    client.say(world.last_request(path, *fields))
                    bodies.append(client.hear_all().partition(b"\r\n\r\n")[2])
                whole = response(PAGE, TAG, FRESH)
                world.origin.on(path, lambda ask: Answer(unfit(ask.field(b"range")) if ask.field(b"range") else whole))
            is_front = held == "front" and PAGE.startswith(bodies[1])
            holds(bodies[1] == PAGE or is_front, f"the body, or its front, where {name} comes")
            holds(bodies[2] == PAGE, f"the whole body where {name} came and its {held} was held")


@case
@rule("host-connections")
def four_downloads_hold_up_nobody_else(world):
    with Played() as origin, contextlib.ExitStack() as clients:
        for number in range(4):
            client = clients.enter_context(Client(port=world.port))
            client.say(origin.request(f"/slow/{number}"))
            origin.take("the ask of a download")
        origin.always("/small", response(b"small"))
        told_soon(world, origin, "/small", reply(b"small", connection=b"close"))


@case
@rule("host-connections")
def four_clients_that_do_not_read_hold_up_nobody_else(world):
    with world.anew() as proxy, contextlib.ExitStack() as clients:
        for number in range(4):
            proxy.origin.on(f"/large/{number}", lambda ask: flow_from(ask, 64 * MB))
            clients.enter_context(Client(port=proxy.port)).say(proxy.request(f"/large/{number}"))
        time.sleep(0.5)
        proxy.origin.on("/small", Answer(response(b"small")))
        told_soon(proxy, proxy, "/small", reply(b"small", connection=b"close"))


# a name has many addresses (RFC 1123, 2.3)
HERE = "127.0.0.1"
DEAD = ["127.0.0.2", "127.0.0.3", "127.0.0.4"]  # nobody listens there
UNDIALLED = "255.255.255.255"  # no connection goes there
ONCE = Answer(response(b"hello", b"Cache-Control: no-store", b"Connection: close"), then="end")
TOLD_ONCE = reply(b"hello", b"cache-control: no-store", connection=b"close")


def told_at(proxy, name, port):
    """What a new client is told of a page there, for which the origin is dialled anew."""
    with Client(port=proxy.port) as client:
        client.say(lines(f"GET http://{name}:{port}/once HTTP/1.1".encode(), b"Connection: close"))
        return client.hear_all()


@case
@rule("other-addresses")
def a_name_is_reached_at_the_address_that_answers(world):
    with named(world) as (proxy, names):
        proxy.origin.on("/once", ONCE)
        for number, before in enumerate([DEAD[:1], DEAD[:2], [UNDIALLED], [UNDIALLED, DEAD[0]]]):
            names.give(f"n{number}.test", *before, HERE)
            equal(told_at(proxy, f"n{number}.test", proxy.origin.port), TOLD_ONCE, f"what is told behind {before}")


@case
@rule("other-addresses")
def localhost_is_reached_where_its_server_listens_on_ipv6_alone(world):
    if not has_ipv6():
        raise Skipped("IPv6")
    with named(world) as (proxy, names), contextlib.closing(Origin(free_port(), "::1")) as origin:
        origin.on("/once", ONCE)
        for addresses in [(HERE, "::1"), ("::1", HERE)]:
            names.give("localhost", *addresses)
            equal(told_at(proxy, "localhost", origin.port), TOLD_ONCE, "what is told")


@case
@rule("other-addresses")
def an_address_that_answers_is_dialled_again_and_others_are_not(world):
    with named(world) as (proxy, names):
        proxy.origin.on("/once", ONCE)
        names.give("many.test", *DEAD, HERE)
        equal(told_at(proxy, "many.test", proxy.origin.port), LAST_BAD_GATEWAY, "what is told behind three")
        for seconds in [0, 0, 6]:  # an answer of the system is kept for 5
            time.sleep(seconds)
            equal(told_at(proxy, "many.test", proxy.origin.port), TOLD_ONCE, f"what is told {seconds} seconds later")
            names.give("many.test", *reversed(DEAD), HERE)


@case
@rule("other-addresses")
def each_port_of_a_name_has_its_own_address(world):
    with named(world) as (proxy, names), contextlib.closing(Origin(free_port(), DEAD[0])) as other:
        names.give("ports.test", HERE, DEAD[0])
        for origin in [proxy.origin, other]:
            origin.on("/once", ONCE)
        for port in [proxy.origin.port, other.port] * 2:
            equal(told_at(proxy, "ports.test", port), TOLD_ONCE, f"what is told of port {port}")
        for origin in [proxy.origin, other]:
            equal(len(origin.asked), 2, "asks of each port")


# ---- no client gets another's


@case
@rule("no-pipelining")
def no_ask_waits_behind_another_on_its_connection(world):
    with world.anew() as proxy, Played() as origin, contextlib.ExitStack() as clients:

        def asks_of(count):
            """So many clients ask. Answers the asks that come."""
            for number in range(count):
                clients.enter_context(Client(port=proxy.port)).say(origin.request(f"/{count}/{number}"))
            asks = []
            while ask := origin.take_if_any(0.5):
                asks.append(ask)
            return asks

        for ask in asks_of(PLACES):
            ask.say(response(b"so it stays open"))
        time.sleep(0.5)
        asks = asks_of(3 * PLACES)
        equal(len({id(ask.connection) for ask in asks}), len(asks), "connections, for so many asks")


@case
@rule("no-pipelining")
def a_response_that_others_end_elsewhere_is_the_last_of_its_connection(world):
    # RFC 7230, 3.3.3: both framings, and what has no body but tells one; and version 1.0, which has no coding
    odd = {
        "204 with a length": lines(b"HTTP/1.1 204 No Content", b"Content-Length: 5"),
        "204 with a coding": lines(b"HTTP/1.1 204 No Content", b"Transfer-Encoding: chunked"),
        "205 with a length": lines(b"HTTP/1.1 205 Reset Content", b"Content-Length: 5") + b"hello",
        "both framings": lines(OK, b"Content-Length: 3", b"Transfer-Encoding: chunked") + b"5\r\nhello\r\n0\r\n\r\n",
        "a coding in version 1.0": lines(b"HTTP/1.0 200 OK", b"Connection: keep-alive", b"Transfer-Encoding: chunked") + b"0\r\n\r\n",
    }
    for name, text in odd.items():
        with Played() as origin, Client(port=world.port) as client:
            client.say(origin.request("/odd"))
            first = origin.take()
            first.say(text)
            client.hear_until(b"\r\n\r\n")
            time.sleep(0.1)
            client.socket.close()
            expect_another_connection(world, origin, first, "/other", name)


@case
@rule("no-pipelining")
def a_connection_that_breaks_behind_a_response_costs_the_next_request_nothing(world):
    with Played() as origin, Client(port=world.port) as client:
        client.say(origin.request("/first"))
        first = origin.take()
        first.say(response(b"first"))
        client.expect(reply(b"first"))
        client.say(origin.request("/next", b"Connection: close"))
        ask = origin.take()
        holds(ask.connection is first.connection, "the same connection")
        ask.say(b"what is left of the first\r\n\r\n")
        origin.take("the same ask anew").say(response(b"next"))
        client.expect_last(reply(b"next", connection=b"close"))


@case
@rule("bound-authentication")
def who_was_let_in_over_a_connection_is_not_followed_there(world):
    # RFC 4559, 6
    for scheme in [b"NTLM", b"Negotiate", b"ntlm"]:
        with Played() as origin, Client(port=world.port) as one:
            one.say(origin.request("/inside", b"Authorization: " + scheme + b" TlRMTVNTUAADAAAA"))
            first = origin.take()
            first.say(response(b"inside"))
            one.expect(reply(b"inside"))
            expect_another_connection(world, origin, first, "/inside", scheme)


@case
@rule("no-response")
def a_status_below_100_is_no_response(world):
    for number, status in enumerate([b"099 Odd", b"000 None", b"010 Low"]):
        world.origin.on(f"/low/{number}", Answer(response(b"hi", status=status)))
        world.expect_answer(world.last_request(f"/low/{number}"), LAST_BAD_GATEWAY, f"the reply to {status!r}")


@case
@rule("no-response")
def a_tunnel_that_is_asked_for_like_a_page_is_refused(world):
    world.expect_answer(world.request("/a", method="CONNECT"), BAD_REQUEST)


# ---- no needless wait, and no needless byte


@case
@rule("near-bytes")
def a_seek_does_not_wait_for_what_lies_between(world):
    length = 16 * MB
    with Played() as origin, Client(port=world.port) as client:
        client.say(origin.request("/film", b"Range: bytes=0-"))
        first = origin.take("the ask for the front")
        place = b"Content-Range: bytes 0-%d/%d" % (length - 1, length)
        first.say(lines(b"HTTP/1.1 206 Partial Content", TAG, FRESH, place, b"Content-Length: %d" % length) + noise(100_000))
        client.hear(50_000)
        with Client(port=world.port) as seeking:
            seeking.say(origin.request("/film", b"Range: bytes=%d-" % (12 * MB)))
            far = origin.take("the ask for what is sought")
            equal(far.field(b"range").partition(b"-")[0], b"bytes=%d" % (12 * MB), "where it begins")


@case
@rule("shared-wait-ends")
def a_long_poll_of_three_clients_is_asked_thrice(world):
    with Played() as origin, contextlib.ExitStack() as stack:
        start = time.monotonic()
        clients = [stack.enter_context(Client()) for _ in range(3)]
        for client in clients:
            client.say(origin.request("/poll", b"Connection: close"))
        asks = [origin.take("an ask of each one's own, while none is answered") for _ in clients]
        # they share for five seconds, and a tick comes each second; the rest is for a machine that is busy
        holds(time.monotonic() - start < 15, "three asks in some five seconds")
        for number, ask in enumerate(asks):
            ask.say(response(b"news %d" % number, b"Cache-Control: no-store"))
        told = sorted(client.hear_all()[-6:] for client in clients)
        equal(told, [b"news 0", b"news 1", b"news 2"], "what they are told")
