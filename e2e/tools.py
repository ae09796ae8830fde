"""Tools that people use, and what a browser sends."""

import gzip
import hashlib
import tempfile

from harness import case, environment, equal, holds, need, ran, together
from origin import DATE, Answer, chunked, lines, noise, part, response
from passing import curl
from world import CONTINUE, PORT, VIA, Client, reply, reply_head


def proxy_environment():
    """An environment that names the proxy and nothing that goes round it."""
    return environment(http_proxy=f"http://127.0.0.1:{PORT}/", LC_ALL="C")


def serve_file(text):
    """An origin's answers on a file: the whole, or from where it is asked (RFC 7233, section 4.1)."""

    def answer(ask):
        asked = ask.field(b"range")
        if asked is None:
            return Answer(response(text, b'ETag: "v1"', DATE, b"Accept-Ranges: bytes"))
        return Answer(part(text, asked, b'ETag: "v1"', DATE))

    return answer


@case
def wget_continues_a_file(world):
    need("wget")
    text = noise(700_000)
    world.origin.on("/file.bin", serve_file(text))
    world.origin.clear()
    with tempfile.TemporaryDirectory() as folder:
        with open(f"{folder}/file.bin", "wb") as file:
            file.write(text[:250_000])
        command = ["wget", "--continue", "--tries=1", "--timeout=40", "--no-config", world.url("/file.bin")]
        run = ran(command, cwd=folder, env=proxy_environment())
        equal(run.returncode, 0, f"wget's status, which says {run.stderr.decode(errors='replace')}")
        with open(f"{folder}/file.bin", "rb") as file:
            came = file.read()
    equal(hashlib.sha256(came).hexdigest(), hashlib.sha256(text).hexdigest(), "the digest of the file")
    (ask,) = world.origin.asked
    # from the front of the chunk that has this byte
    equal(ask.field(b"range"), b"bytes=249856-", "the range that the origin is asked for")


@case
def curl_gets_a_part_of_a_file(world):
    text = noise(10_000)
    world.origin.on("/part.bin", serve_file(text))
    run = curl("--include", "--range", "9000-", "--user-agent", "it", world.url("/part.bin"))
    fields = [b'etag: "v1"', DATE.replace(b"Date", b"date"), VIA, b"content-range: bytes 9000-9999/10000", b"content-length: 1000"]
    equal(run.stdout, reply_head(*fields, status=b"206 Partial Content") + text[9000:])


@case
def curl_reuses_its_connection(world):
    world.origin.on("/length", Answer(response(b"hello")))
    world.origin.on("/chunked", Answer(lines(b"HTTP/1.1 200 OK", b"Transfer-Encoding: chunked") + chunked(b"hello")))
    urls = [world.url("/length"), world.url("/chunked")] * 5
    run = curl("--write-out", "%{stderr}%{num_connects} ", *urls)
    equal(run.returncode, 0, "curl's status")
    equal(run.stdout, b"hello" * 10)
    equal(run.stderr, b"1 " + b"0 " * 9, "how many connections each of them took")


@case
def curl_puts_a_file_and_deletes_it(world):
    body = noise(70_000)
    world.origin.on("/file", Answer(lines(b"HTTP/1.1 204 No Content")))
    world.origin.clear()
    run = curl("--upload-file", "-", "-H", "Expect:", "-H", "Transfer-Encoding:", "-H", f"Content-Length: {len(body)}",
               world.url("/file"), input=body)
    equal(run.returncode, 0, "curl's status")
    run = curl("--request", "DELETE", world.url("/file"))
    equal(run.returncode, 0, "curl's status")
    put, delete = world.origin.asked
    equal(put.head.split(b" ")[0], b"PUT", "the method")
    equal((put.length, put.digest()), (len(body), hashlib.sha256(body).hexdigest()), "length and digest")
    equal(delete.head.split(b" ")[0], b"DELETE", "the method")


@case
def curl_is_told_that_a_chunked_upload_needs_a_length(world):
    world.origin.clear()
    run = curl("--include", "--upload-file", "-", "-H", "Expect:", world.url("/file"), input=b"hello")
    equal(run.stdout.split(b"\r\n")[0], b"HTTP/1.1 411 Length Required")
    equal(world.origin.asked, [], "the asks")


@case
def curl_speaks_the_older_version(world):
    world.origin.on("/chunked", Answer(lines(b"HTTP/1.1 200 OK", b"Transfer-Encoding: chunked") + chunked(b"he", b"llo")))
    run = curl("--http1.0", "--include", "--header", "Proxy-Connection:", world.url("/chunked"))
    equal(run.returncode, 0, "curl's status")
    equal(run.stdout, reply_head(VIA, connection=b"close") + b"hello")


BROWSER = [
    b"User-Agent: Mozilla/5.0 (X11; Linux x86_64; rv:128.0) Gecko/20100101 Firefox/128.0",
    b"Accept: text/html,application/xhtml+xml,*/*;q=0.8",
    b"Accept-Language: de,en;q=0.5",
    b"Accept-Encoding: gzip, deflate",
    b"Proxy-Connection: keep-alive",
    b"Cookie: session=0123456789abcdef; theme=dark",
]
PARTS = 30
CONNECTIONS = 6


def part_of_page(number):
    """A part of a page: the text, and the fields of its response."""
    text = gzip.compress(b"part %d of a page\n" % number * (50 * number + 1), mtime=0)
    fields = [b'ETag: "part-%d"' % number, b"Content-Encoding: gzip", DATE]
    if number % 3 == 0:
        fields.append(b"Vary: Accept-Encoding")
    if number % 5 == 0:
        fields.append(b"Set-Cookie: part=%d; Path=/" % number)
    return text, fields


def load_parts(world, numbers):
    """One connection of a browser: it asks for all of its parts at once."""
    with Client(port=world.port) as client:
        client.say(b"".join(world.request(f"/part/{number}", *BROWSER) for number in numbers))
        for number in numbers:
            text, fields = part_of_page(number)
            names = [name.lower() + b": " + value for name, _, value in (field.partition(b": ") for field in fields)]
            if number % 2 == 0:
                client.expect(reply(text, *names), f"the reply of part {number}")
            else:
                client.expect(reply_head(*names, VIA, b"transfer-encoding: chunked"), f"the head of part {number}")
                equal(client.hear_chunks(), text, f"part {number}")
            holds(gzip.decompress(text).startswith(b"part %d " % number), "a text that can be read")


def send_form(world, form):
    with Client(port=world.port) as client:
        fields = [*BROWSER, b"Content-Type: application/x-www-form-urlencoded", b"Content-Length: %d" % len(form)]
        client.say(world.request("/form", *fields, method="POST") + form)
        client.expect(reply(b"thanks"), "the reply to the form")


def load_page(world):
    """Six connections load all parts at once, and one sends a form."""
    for number in range(PARTS):
        text, fields = part_of_page(number)
        whole = response(text, *fields)
        if number % 2:
            whole = lines(b"HTTP/1.1 200 OK", *fields, b"Transfer-Encoding: chunked")
            whole += chunked(text[:10], text[10:100], text[100:]) if len(text) > 100 else chunked(text)
        world.origin.on(f"/part/{number}", Answer(whole, piece=1_000, pause=0.02))
    world.origin.on("/form", Answer(response(b"thanks")))
    world.origin.clear()
    form = noise(300)

    def job(load, *words):
        def one():
            load(world, *words)

        return one

    jobs = [job(load_parts, range(first, PARTS, CONNECTIONS)) for first in range(CONNECTIONS)]
    equal(together([*jobs, job(send_form, form)]), [], "failures")
    equal(len(world.origin.asked), PARTS + 1, "how many asks there were")
    for ask in world.origin.asked:
        equal(ask.field(b"cookie"), b"session=0123456789abcdef; theme=dark", "the cookie")
        equal(ask.field(b"proxy-connection"), None, "the field of the connection")
        equal(ask.body, form if ask.path == "/form" else b"", "the body of the ask")
    holds(world.origin.most_open <= 8, f"at most 8 connections to the host (there were {world.origin.most_open})")


@case
def a_browser_loads_a_page(world):
    with world.anew() as fresh:
        load_page(fresh)


@case
def curl_unpacks_what_was_passed(world):
    text = b"a long text\n" * 1_000
    packed = gzip.compress(text, mtime=0)
    world.origin.on("/gzip", Answer(response(packed, b"Content-Encoding: gzip")))
    run = curl("--compressed", world.url("/gzip"))
    equal(run.stdout, text)


@case
def curl_sends_a_form_in_parts(world):
    world.origin.on("/form", Answer(response(b"thanks")))
    world.origin.clear()
    run = curl("--include", "--form", "name=value", "--form", "file=@-", "-H", "Expect: 100-continue",
               world.url("/form"), input=b"x" * 5_000)
    equal(run.stdout, CONTINUE + reply(b"thanks"))
    (ask,) = world.origin.asked
    holds(b"x" * 5_000 in ask.body, "the file in the form")
