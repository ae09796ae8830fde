"""Many clients at once."""

import threading
import time

from caching import now
from harness import case, equal, holds, together
from origin import Answer, noise, plain, response
from world import PATIENCE, Client, passed

CLIENTS = 50
# More than have a place at once.
CROWD, PLACES = 300, 256
BODY = noise(200_000)


@case
def fifty_clients_are_served_at_once_though_one_is_slow_and_one_hangs_up(world):
    world.origin.on("/many", Answer(plain(BODY)))

    def whole():
        with Client() as client:
            client.say(world.request("/many"))
            client.expect(passed(BODY))

    def slow():
        wanted = passed(BODY)
        with Client() as client:
            client.say(world.request("/many"))
            heard = b""
            while len(heard) < len(wanted):
                piece = client.hear(min(10_000, len(wanted) - len(heard)))
                if not piece:
                    break
                heard += piece
                time.sleep(0.05)
        equal(heard, wanted, "the reply to the slow client")

    def gone():
        client = Client()
        client.say(world.request("/many"))
        client.hear(60_000)
        client.reset()

    failures = together([slow, gone] + [whole] * (CLIENTS - 2))
    equal(failures, [], "failures")


@case
def each_of_fifty_clients_gets_its_own_reply(world):
    bodies = {number: b"%d " % number * 500 for number in range(CLIENTS)}
    for number, body in bodies.items():
        world.origin.on(f"/own/{number}", Answer(plain(body)))

    def job(number):
        def own():
            with Client() as client:
                for _ in range(5):
                    client.say(world.request(f"/own/{number}"))
                    client.expect(passed(bodies[number]), f"the reply to client {number}")

        return own

    equal(together([job(number) for number in bodies]), [], "failures")


@case
def a_client_with_endless_requests_does_not_hold_up_the_others(world):
    body = noise(100_000)
    world.origin.on("/busy", Answer(plain(body)))
    stop, replies = threading.Event(), []

    def hurry():
        with Client() as client:
            while not stop.is_set():
                client.say(world.request("/busy"))
                client.expect(passed(body))
                replies.append(True)

    def others():
        try:
            for _ in range(50):
                world.check_still_served()
        finally:
            stop.set()

    equal(together([hurry, hurry, hurry, others]), [], "failures")
    holds(len(replies) >= 3, "the hurried are served too")


@case
def three_hundred_clients_at_once_are_all_answered_and_each_is_asked_for_once(world):
    bodies = {number: b"%d " % number * 100 for number in range(CROWD)}
    goes_on = threading.Event()
    for number, body in bodies.items():
        world.origin.on(f"/crowd/{number}", Answer(plain(body), cuts=[0], goes_on=goes_on))
    world.origin.clear()
    clients = {number: Client() for number in bodies}
    for number, client in clients.items():
        client.say(world.last_request(f"/crowd/{number}"))
    # nothing is answered before all have asked
    time.sleep(0.5)
    goes_on.set()
    for number, client in clients.items():
        client.expect_last(passed(bodies[number], b"close"), f"the reply to client {number}")
        client.socket.close()
    asked = sorted(ask.path for ask in world.origin.asked if ask.path.startswith("/crowd/"))
    equal(asked, sorted(f"/crowd/{number}" for number in bodies), "what the origin is asked for")


@case
def of_three_hundred_clients_that_stay_the_last_are_answered_as_soon_as_others_leave(world):
    world.origin.on("/stay", Answer(plain(b"hello")))
    clients = [Client() for _ in range(CROWD)]
    for client in clients:
        client.say(world.request("/stay"))
    for client in clients[:PLACES]:
        client.expect(passed(b"hello"), "the reply to one that has a place")
    for client in clients[PLACES:]:
        client.expect_silence(0.01)
    for leaving, waiting in zip(clients, clients[PLACES:]):
        leaving.socket.close()
        waiting.expect(passed(b"hello"), "the reply to one that waited for a place")
        waiting.say(world.request("/stay"))
        waiting.expect(passed(b"hello"), "its next reply")
    for client in clients:
        client.socket.close()


@case
def three_hundred_clients_that_want_one_new_body_all_get_the_whole(world):
    body, goes_on = noise(300_000), threading.Event()
    with world.anew() as proxy:
        text = response(body, b"Date: " + now(), b'ETag: "x"', b"Cache-Control: max-age=60")
        proxy.origin.on("/one", Answer(text, cuts=[1_000], goes_on=goes_on))
        clients = [Client(port=proxy.port) for _ in range(CROWD)]
        for client in clients:
            client.say(proxy.last_request("/one"))
        time.sleep(0.5)
        goes_on.set()

        def reader(some):
            def read():
                for client in some:
                    equal(client.hear_all().partition(b"\r\n\r\n")[2], body, "the body")
                    client.socket.close()

            return read

        equal(together([reader(clients[at::6]) for at in range(6)], PATIENCE), [], "failures")
        equal(len(proxy.origin.asked), 1, "asks of the origin")
