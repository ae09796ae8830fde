"""Exchanges at random: any method and framing, cut anywhere, over many connections at once. The seed is fixed."""

import hashlib
import random
import threading
import time
from dataclasses import dataclass

from harness import case, equal, together
from origin import Answer, chunked, lines, noise, response
from world import CONTINUE, VIA, Client, reply, reply_head

SEED = 1
CONNECTIONS = 8
SESSIONS = 12
LENGTHS = [0, 1, 5, 100, 5_000, 8_191, 8_192, 8_193, 16_384, 20_000, 70_000]
FIELD = b"X-A: b"
PASSED_FIELD = b"x-a: b"


@dataclass
class Exchange:
    """What is asked on a path, and what is wanted of it."""

    path: str
    method: str
    request_body: bytes
    expects: bool
    is_last: bool
    kind: str
    body: bytes


def some_cuts(generator, length):
    """Where a text of this length is cut."""
    if length < 2:
        return []
    return sorted({generator.randrange(1, length) for _ in range(generator.choice([0, 0, 1, 2, 5]))})


def some_chunks(generator, body):
    """A body in chunks of many sizes."""
    chunks = []
    while body:
        size = generator.choice([1, 7, 100, 4_096, 8_192, 30_000]) if len(chunks) < 300 else len(body)
        chunks.append(body[:size])
        body = body[size:]
    return chunked(*chunks)


def some_answer(generator, kind, body, is_head):
    """An origin's answer of this kind."""
    then = generator.choice(["keep", "end"])
    if kind == "length":
        text = response(body, FIELD)
    elif kind == "interim":
        text = lines(b"HTTP/1.1 100 Continue") * generator.randint(1, 3) + response(body, FIELD)
    elif kind == "chunks":
        text = lines(b"HTTP/1.1 200 OK", FIELD, b"Transfer-Encoding: chunked") + some_chunks(generator, body)
    elif kind == "end":
        text, then = lines(b"HTTP/1.%d 200 OK" % generator.randrange(2), FIELD) + body, "end"
    else:
        text = lines(b"HTTP/1.1 204 No Content", FIELD)
    if is_head:
        text = text[: text.index(b"\r\n\r\n", text.index(FIELD)) + 4]
    pause = generator.choice([0, 0, 0.001])
    return Answer(text, cuts=some_cuts(generator, len(text)), pause=pause, then=then)


def some_exchange(generator, world, path, may_be_last):
    """An exchange, whose answer stands on the origin. Answers it, and the text of its request."""
    method = generator.choice(["GET", "POST", "HEAD", "PUT", "DELETE"])
    kind = generator.choice(["length", "interim", "chunks", "end", "no content"])
    body = noise(generator.choice(LENGTHS) + 9)[generator.randrange(10) :]
    world.origin.on(path, some_answer(generator, kind, body, method == "HEAD"))
    fields, request_body, expects = [], b"", False
    if method in ("POST", "PUT") or generator.random() < 0.1:
        request_body = noise(generator.choice(LENGTHS))
        fields.append(b"Content-Length: %d" % len(request_body))
        if generator.random() < 0.3:
            fields.append(b"Expect: 100-continue")
            expects = request_body != b""
    is_last = may_be_last and generator.random() < 0.3
    if is_last:
        fields.append(b"Connection: close")
    text = world.request(path, *fields, method=method) + request_body
    return Exchange(path, method, request_body, expects, is_last, kind, body), text


def say_at_random(generator, client, text):
    try:
        while text:
            size = generator.choice([1, 10, 1_000, 8_192, 100_000])
            client.say(text[:size])
            text = text[size:]
            if generator.random() < 0.1:
                time.sleep(0.001)
        if generator.random() < 0.3:
            client.end()
    except OSError:
        pass  # the reply shows what went wrong


def hear(client, exchange):
    """The reply to this exchange, byte for byte but for how its chunks are cut."""
    connection = b"close" if exchange.is_last else b"keep-alive"
    if exchange.expects:
        client.expect(CONTINUE, f"the interim answer to {exchange.path}")
    if exchange.kind == "no content":
        client.expect(reply_head(PASSED_FIELD, VIA, status=b"204 No Content", connection=connection))
    elif exchange.kind in ("length", "interim"):
        whole = reply(exchange.body, PASSED_FIELD, connection=connection)
        head_len = len(whole) - len(exchange.body)
        client.expect(whole[:head_len] if exchange.method == "HEAD" else whole, f"the reply to {exchange.path}")
    elif exchange.method == "HEAD":
        client.expect(reply_head(PASSED_FIELD, VIA, connection=connection), f"the reply to HEAD of {exchange.path}")
    else:
        head = reply_head(PASSED_FIELD, VIA, b"transfer-encoding: chunked", connection=connection)
        client.expect(head, f"the head of {exchange.path}")
        equal(client.hear_chunks(), exchange.body, f"the body of {exchange.path}")


def session(generator, world, name):
    """One connection: some requests at once, and their replies in order. Answers how many."""
    count = generator.randint(1, 5)
    made = [some_exchange(generator, world, f"/{name}/{at}", at == count - 1) for at in range(count)]
    with Client() as client:
        text = b"".join(text for _, text in made)
        saying = threading.Thread(target=say_at_random, args=(random.Random(generator.random()), client, text), daemon=True)
        saying.start()
        for exchange, _ in made:
            hear(client, exchange)
        if made[-1][0].is_last:
            client.expect_last(b"", "the end")
        saying.join(10)
    for exchange, _ in made:
        (ask,) = [ask for ask in world.origin.asked if ask.path == exchange.path]
        equal(ask.digest(), hashlib.sha256(exchange.request_body).hexdigest(), f"what was asked on {exchange.path}")
    return count


@case
def exchanges_at_random_come_out_right(world):
    world.origin.clear()
    counts = []

    def job(number):
        def connection():
            generator = random.Random(SEED * 1_000 + number)
            counts.append(sum(session(generator, world, f"{number}-{at}") for at in range(SESSIONS)))

        connection.__name__ = f"connection {number}"
        return connection

    equal(together([job(number) for number in range(CONNECTIONS)]), [], "failures")
    return f"{sum(counts)} exchanges"
