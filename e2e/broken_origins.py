"""Origins that answer wrongly, in part, or not at all."""

import threading
import time

from harness import case, equal, holds, together
from origin import Answer, lines, noise, plain, response
from world import LAST_BAD_GATEWAY, Client, passed, reply

OK = b"HTTP/1.1 200 OK"


@case
def a_response_that_is_no_head_is_502(world):
    with world.dropping_connections():
        refused = {
            "nothing": Answer(b"", then="end"),
            "a reset": Answer(b"", then="break"),
            "part of a line": Answer(b"HTTP/1.1 20", then="end"),
            "part of a head": Answer(OK + b"\r\nETag: ", then="end"),
            "part of a head, and a reset": Answer(OK + b"\r\nETag: ", then="break"),
            "an interim response alone": Answer(lines(b"HTTP/1.1 100 Continue"), then="end"),
            "garbage": Answer(bytes(range(256)) * 10, then="end"),
            "garbage, and no end": Answer(bytes(range(256)) * 10),
            "another protocol": Answer(b"SSH-2.0-OpenSSH_9.6\r\n"),
            "a head of 20,000 bytes": Answer(lines(OK, b"A: " + b"a" * 20_000)),
            "a head of 101 fields": Answer(lines(OK, *[b"a: b"] * 101)),
            "a folded line": Answer(lines(OK, b"A: b", b" c", b"Content-Length: 0")),
        }
        for number, (name, answer) in enumerate(refused.items()):
            world.origin.on(f"/no-head/{number}", answer)
            world.expect_answer(world.last_request(f"/no-head/{number}"), LAST_BAD_GATEWAY, f"the reply to {name}")


@case
def an_end_in_mid_body_cuts_its_client_alone(world):
    body = noise(400_000)
    world.origin.on("/whole", Answer(plain(body), piece=10_000, pause=0.005))
    for then in ["end", "break"]:
        world.origin.on("/cut", Answer(plain(body)[:150_000], piece=10_000, pause=0.005, then=then))
        with Client() as other, Client() as client:
            other.say(world.request("/whole"))
            client.say(world.request("/cut"))
            heard = client.hear_all()
            wanted = passed(body)
            holds(len(heard) < len(wanted), "the reply is cut")
            equal(heard, wanted[: len(heard)], "what came before the cut")
            # a reset may come before bytes that were not read yet
            holds(then == "break" or len(heard) > 100_000, "most of what the origin sent")
            other.expect(wanted, "the reply to the other client")


@case
def an_end_at_any_byte_of_the_head_is_502_and_behind_it_a_cut(world):
    text = plain(b"hello")
    head = len(text) - 5
    for count in range(len(text)):
        world.origin.clear()
        world.origin.on(f"/any/{count}", Answer(text[:count], then="end"))
        with Client() as client:
            client.say(world.last_request(f"/any/{count}"))
            heard = client.hear_all()
        # a reply begins with the first byte of its body
        if count <= head:
            equal(heard, LAST_BAD_GATEWAY, f"the reply where the origin ends after {count} bytes")
        else:
            wanted = passed(b"hello", b"close")
            equal(heard, wanted[: count - len(text)], f"the reply where the origin ends after {count} bytes")
        # three, and three more without what is known of it
        holds(len(world.origin.asked) <= 6, f"6 asks at most in place of {len(world.origin.asked)}")


@case
def an_origin_that_sends_nothing_holds_up_its_own_client_alone(world):
    goes_on = threading.Event()
    world.origin.on("/silent", Answer(plain(b"at last"), cuts=[0], goes_on=goes_on))
    with Client() as waiting:
        waiting.say(world.request("/silent"))
        for _ in range(20):
            world.check_still_served()
        goes_on.set()
        waiting.expect(passed(b"at last"), "its own reply")


@case
def an_origin_that_reads_nothing_holds_up_its_own_client_alone(world):
    world.origin.on("/deaf", Answer(b"", reads_body=False))
    body = noise(400_000)
    with Client() as waiting:
        waiting.say(world.request("/deaf", b"Content-Length: 100000000", method="POST") + body)
        for _ in range(20):
            world.check_still_served()


@case
def an_origin_that_leaves_in_the_requests_body_is_502(world):
    world.origin.on("/leaves", Answer(b"", then="break", reads_body=False))
    with Client() as client:
        text = world.last_request("/leaves", b"Content-Length: 3000000", method="POST")
        client.say(text + noise(3_000_000))
        client.expect_last(LAST_BAD_GATEWAY)


@case
def a_slow_origin_holds_up_nobody_else(world):
    world.origin.on("/drip", Answer(plain(noise(100)), piece=1, pause=0.005))
    done = []

    def listen():
        with Client() as client:
            client.say(world.request("/drip"))
            client.expect(passed(noise(100)), "the reply of the slow origin")
            done.append(True)

    slow = threading.Thread(target=listen, daemon=True)
    slow.start()
    for _ in range(20):
        world.check_still_served()
    slow.join(15)
    holds(done, "the slow origin's client gets its reply")


def a_byte_a_second(text, first, end):
    """It sends this, but from its first to its end byte one a second."""
    return Answer(text, cuts=range(first, end), pause=1.0)


@case
def origins_that_send_a_byte_a_second_hold_nobody_else_and_each_byte_is_passed_at_once(world):
    # with one more, as many as a host has connections
    body = b"abcdef"
    told = {"kept": (plain(body), passed(body)), "untagged": (response(body, b"X: y"), reply(body, b"x: y"))}
    told = {f"/second/{name}/{number}": both for name, both in told.items() for number in range(3)}
    for path, (text, _wanted) in told.items():
        world.origin.on(path, a_byte_a_second(text, len(text) - len(body), len(text)))
    told["/second/head"] = plain(body), passed(body)
    world.origin.on("/second/head", a_byte_a_second(plain(body), 9, 14))
    slowest = 0

    def listener(path, wanted):
        def listen():
            with Client() as client:
                client.say(world.request(path))
                client.expect(wanted[: -len(body)], f"the head for {path}")
                times = []
                for byte in body:
                    client.expect(bytes([byte]), f"a byte for {path}")
                    times.append(time.monotonic())
            holds(path.endswith("head") or times[-1] - times[0] > len(body) - 2, f"each byte of {path} as it comes, at {times}")

        return listen

    def probe():
        nonlocal slowest
        # before any of them is done: their origin is silent for a second behind its last byte too
        end = time.monotonic() + len(body) - 2
        while time.monotonic() < end:
            start = time.monotonic()
            world.check_still_served()
            slowest = max(slowest, time.monotonic() - start)
            time.sleep(0.02)

    equal(together([probe, *(listener(path, wanted) for path, (_text, wanted) in told.items())]), [], "failures")
    holds(slowest < 1, f"less than a second for who asks for something else, in place of {slowest:.1f}")
    return f"{slowest:.3f} s at most for the others"
