"""What cannot be passed rightly is refused with a page that names the fault."""

from harness import case, equal
from origin import Answer, lines, plain
from world import BAD_GATEWAY, BAD_REQUEST, LENGTH_REQUIRED, TOO_LONG, Client, passed

HOST_LINE = b"Host: 127.0.0.1"


def expect_all(world, table, wanted):
    """Each of these texts is answered with this page and the end, and nobody is asked."""
    world.origin.clear()
    for name, text in table.items():
        world.expect_answer(text, wanted, f"the reply to {name}")
    equal(world.origin.connections, 0, "connections to the origin")


@case
def a_target_that_is_no_http_url_is_400(world):
    targets = [
        b"/a",
        b"*",
        b"127.0.0.1:443",
        b"https://127.0.0.1/a",
        b"ftp://127.0.0.1/a",
        b"http:///a",
        b"http://:80/a",
        b"http://u@127.0.0.1/a",
        b"http://u:p@127.0.0.1/a",
        b"http://[::1]/a",
        b"http://127.0.0.1:0/a",
        b"http://127.0.0.1:65536/a",
        b"http://127.0.0.1:8x/a",
        b"http://127.0.0.1:+80/a",
        b"http://" + b"h" * 256 + b"/a",
        b"http://h/" + b"a" * 8184,
    ]
    for method in [b"GET", b"POST", b"OPTIONS", b"CONNECT"]:
        table = {target[:40]: lines(method + b" " + target + b" HTTP/1.1", HOST_LINE) for target in targets}
        expect_all(world, table, BAD_REQUEST)


@case
def a_key_of_8192_bytes_is_taken(world):
    front = f"http://{world.origin.authority}/".encode()
    path = b"/" + b"a" * (8192 - len(front))
    world.origin.on(path.decode(), Answer(plain(b"hello")))
    with Client() as client:
        client.say(world.request(path.decode()))
        client.expect(passed(b"hello"))


@case
def a_page_to_head_has_no_body(world):
    pages = {
        lines(b"HEAD /a HTTP/1.1"): BAD_REQUEST,
        lines(b"HEAD http://127.0.0.1/a HTTP/1.1", b"Transfer-Encoding: chunked"): LENGTH_REQUIRED,
    }
    for text, page in pages.items():
        head, _, _ = page.partition(b"\r\n\r\n")
        world.expect_answer(text, head + b"\r\n\r\n")


@case
def a_refused_dial_is_502(world):
    with Client() as client:
        client.say(lines(b"GET http://127.0.0.2:1/a HTTP/1.1"))
        client.expect(BAD_GATEWAY)


@case
def an_unknown_host_is_502(world):
    with Client() as client:
        client.say(lines(b"GET http://no-such-host.invalid/a HTTP/1.1"))
        client.expect(BAD_GATEWAY)


@case
def the_page_arrives_whole_though_the_client_sends_on(world):
    with Client() as client:
        client.say(lines(b"PUT http://127.0.0.1/a HTTP/1.1", b"Transfer-Encoding: chunked"))
        client.say(b"x" * 200_000)
        client.expect_last(LENGTH_REQUIRED)


@case
def a_head_of_16_kib_without_an_end_is_431(world):
    text = b"GET http://127.0.0.1/a HTTP/1.1\r\nHost: 127.0.0.1\r\nA: "
    world.expect_answer(text + b"a" * (16_384 - len(text)), TOO_LONG)


@case
def a_head_of_101_fields_is_431(world):
    fields = b"a: b\r\n" * 101
    world.expect_answer(b"GET http://h/a HTTP/1.1\r\n" + fields, TOO_LONG)
    world.expect_answer(b"GET http://h/a HTTP/1.1\r\n" + fields + b"\r\n", TOO_LONG)


@case
def a_head_whose_ask_would_be_too_long_is_431(world):
    world.origin.on("/ask", Answer(plain(b"hello")))
    front = f"GET {world.url('/ask')} HTTP/1.1\r\nA:".encode()
    # in the ask stand a host, a blank and a Via that the request has not
    ask = len(world.ask("/ask", b"a: "))
    for count, wanted in [(16_385 - ask, TOO_LONG), (16_384 - ask, None)]:
        text = front + b"a" * count + b"\r\n\r\n"
        if wanted is not None:
            world.expect_answer(text, wanted, "the reply to an ask of 16,385 bytes")
            continue
        with Client() as client:
            client.say(text)
            client.expect(passed(b"hello"), "the reply to an ask of 16,384 bytes")


@case
def bytes_that_are_no_head_are_400(world):
    bad = {
        "no line": b"\x00\x01\x02\x03",
        "a first line without a target": b"GET\r\n\r\n",
        "another protocol": b"GET http://127.0.0.1/a SPDY/3\r\n\r\n",
        "a later version": b"GET http://127.0.0.1/a HTTP/2.0\r\n\r\n",
        "a field without a colon": b"GET http://127.0.0.1/a HTTP/1.1\r\nHost 127.0.0.1\r\n\r\n",
        "a blank before a colon": b"GET http://127.0.0.1/a HTTP/1.1\r\nHost : 127.0.0.1\r\n\r\n",
        "a TLS greeting": b"\x16\x03\x01\x02\x00\x01\x00\x01\xfc\x03\x03",
        "a control in a value": b"GET http://127.0.0.1/a HTTP/1.1\r\nHost: 127\x01\r\n\r\n",
        "two blanks in the first line": b"GET  http://127.0.0.1/a HTTP/1.1\r\n\r\n",
    }
    expect_all(world, bad, BAD_REQUEST)


@case
def what_came_before_a_refusal_is_answered_first(world):
    with Client() as client:
        client.say(world.request("/probe") + b"\x00\r\n\r\n")
        client.expect_last(passed(b"still here") + BAD_REQUEST)
