"""Who may come, and to which address. 127.0.0.2 is the household's other machine."""

import contextlib
import socket

from harness import case, equal, holds
from network import free_port
from origin import Answer, plain
from words import end_of, hear_end, started

HERE, OTHER = "127.0.0.1", "127.0.0.2"
# More than are turned away at a time.
MANY = 200


def joined(port, machine, address=HERE):
    """A connection from this machine."""
    return socket.create_connection((address, port), timeout=10, source_address=(machine, 0))


def served(world, client, path="/a"):
    """Whether this client is served, and goes on."""
    client.sendall(world.request(path))
    heard = b""
    while not heard.endswith(b"\r\n\r\nhello"):
        piece = client.recv(65536)
        if not piece:
            return False
        heard += piece
    return True


def asked(world, client):
    """What a client that asks at once hears before its end: it may be closed before it has sent all."""
    with contextlib.suppress(BrokenPipeError, ConnectionResetError):
        client.sendall(world.request("/stranger"))
    return hear_end(client)


@case
def another_machine_is_served_where_it_is_allowed(world):
    world.origin.on("/a", Answer(plain(b"hello")))
    port = free_port()
    for allowed in ["127.0.0.2", "127.0.0.1,127.0.0.2", "10.0.0.0/8, 127.0.0.2/31"]:
        with started(world, port, [f"proxyPort={port}", f"allowedClients={allowed}"]):
            with joined(port, OTHER) as client:
                holds(served(world, client) and served(world, client), f"127.0.0.2 is served under {allowed}")


@case
def who_is_not_allowed_is_closed_and_harms_nobody_else(world):
    world.origin.on("/a", Answer(plain(b"hello")))
    world.origin.on("/stranger", Answer(plain(b"hello")))
    port = free_port()
    with started(world, port, [f"proxyPort={port}", "allowedClients=127.0.0.1"]):
        with joined(port, HERE) as client:
            holds(served(world, client), "who is allowed is served")
            for _ in range(3):
                with joined(port, OTHER) as stranger:
                    equal(hear_end(stranger), b"", "what a stranger hears that says nothing")
                with joined(port, OTHER) as stranger:
                    equal(asked(world, stranger), b"", "what a stranger hears that asks")
            holds(served(world, client), "who was there before is served on")
        with joined(port, HERE) as client:
            holds(served(world, client), "who comes later is served")
    holds(not any(ask.path == "/stranger" for ask in world.origin.asked), "the origin is asked for no stranger")


@case
def strangers_who_wait_in_line_are_all_turned_away(world):
    world.origin.on("/a", Answer(plain(b"hello")))
    port = free_port()
    with started(world, port, [f"proxyPort={port}", "allowedClients=127.0.0.1"]):
        with contextlib.ExitStack() as all_of_them:
            strangers = [all_of_them.enter_context(joined(port, OTHER)) for _ in range(MANY)]
            client = all_of_them.enter_context(joined(port, HERE))
            holds(served(world, client), "who is allowed is served behind them")
            for stranger in strangers:
                equal(hear_end(stranger), b"", "what a stranger hears")


@case
def it_listens_at_the_address_that_is_said_and_no_other(world):
    world.origin.on("/a", Answer(plain(b"hello")))
    port = free_port()
    words = [f"proxyPort={port}"]
    with started(world, port, words):
        with contextlib.suppress(ConnectionRefusedError), joined(port, HERE, address=OTHER):
            holds(False, "127.0.0.2 is not listened at where nothing is said")
    with started(world, port, [*words, "proxyAddress=0.0.0.0", "allowedClients=127.0.0.0/8,192.168.0.0/16"]):
        for address in [HERE, OTHER]:
            with joined(port, OTHER, address=address) as client:
                holds(served(world, client), f"{address} is listened at")


@case
def an_address_that_is_not_here_is_complained_of(world):
    port = free_port()
    words = [f"proxyPort={port}", "proxyAddress=192.0.2.1", "allowedClients=192.0.2.0/24"]
    wanted = (5, b"", f"polipo: cannot listen on port {port}\n".encode())
    equal(end_of(world, words), wanted, "status, output and complaint")
