"""Clients that send garbage, stop anywhere, or hang up anywhere. Each test ends with another that is served."""

import random

from harness import case, holds
from origin import Answer, lines, noise, plain
from world import Client


@case
def a_client_may_hang_up_at_any_byte_of_its_request(world):
    world.origin.on("/a", Answer(plain(b"hello")))
    text = world.request("/a", b"Content-Length: 5", method="POST") + b"hello"
    for count in range(len(text) + 1):
        for hang_up in (Client.reset, Client.end):
            client = Client()
            client.say(text[:count])
            hang_up(client)
            client.socket.close()
    world.check_still_served()


@case
def a_client_may_hang_up_anywhere_in_its_reply(world):
    world.origin.on("/large", Answer(plain(noise(3_000_000))))
    world.origin.on("/to-end", Answer(lines(b"HTTP/1.1 200 OK") + noise(3_000_000), then="end"))
    for path in ["/large", "/to-end"]:
        for count in [0, 1, 100, 200, 8_192, 50_000, 200_000]:
            for hang_up in (Client.reset, Client.end):
                client = Client()
                client.say(world.request(path))
                client.hear(count)
                hang_up(client)
                client.socket.close()
            world.check_still_served()


@case
def garbage_harms_nobody_else(world):
    generator = random.Random(1)
    for size in [1, 2, 10, 100, 1_000, 10_000, 100_000, 1_000_000]:
        for _ in range(5):
            with Client() as client:
                try:
                    client.say(generator.randbytes(size))
                except OSError:
                    pass  # the proxy may close before it took all
        world.check_still_served()


@case
def a_request_with_some_bytes_changed_harms_nobody_else(world):
    world.origin.on("/a", Answer(plain(b"hello")))
    text = world.request("/a", b"Content-Length: 5", b"Expect: 100-continue", method="POST") + b"hello"
    generator = random.Random(2)
    for _ in range(300):
        changed = bytearray(text)
        for _ in range(generator.randint(1, 3)):
            changed[generator.randrange(len(changed))] = generator.randrange(256)
        with Client() as client:
            try:
                client.say(bytes(changed))
            except OSError:
                pass  # the proxy may close before it took all
    world.check_still_served()


@case
def a_client_that_never_ends_its_head_harms_nobody_else(world):
    waiting = []
    for count in range(50):
        client = Client()
        client.say(world.request("/a")[:-2] + b"A: " + b"a" * count)
        waiting.append(client)
    world.check_still_served()
    for client in waiting:
        client.socket.close()


@case
def clients_that_say_nothing_harm_nobody_else(world):
    silent = [Client() for _ in range(240)]
    world.check_still_served()
    for client in silent:
        client.socket.close()


@case
def more_clients_than_there_are_places_wait_for_one(world):
    silent = [Client() for _ in range(300)]
    late = Client()
    world.origin.on("/late", Answer(plain(b"at last")))
    late.say(world.request("/late"))
    late.expect_silence(0.5)
    for client in silent:
        client.socket.close()
    holds(late.hear(5) == b"HTTP/", "a client that waited is served once others left")
    late.socket.close()


@case
def clients_that_take_nothing_harm_nobody_else(world):
    world.origin.on("/large", Answer(plain(noise(3_000_000))))
    deaf = [Client() for _ in range(3)]
    for client in deaf:
        client.say(world.request("/large"))
    for _ in range(20):
        world.check_still_served()
    for client in deaf:
        client.socket.close()
