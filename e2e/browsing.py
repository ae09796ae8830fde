"""Downloads and films as their users have them: broken off, gone on with, skipped through."""

import pathlib
import tempfile
import threading

from flows import Flows
from harness import case, environment, equal, holds, need, ran, together
from origin import Answer, noise, response, span_of
from real_hosts import FRESH, MB, TAG, endless
from rules import rule
from world import PATIENCE, Client

LENGTH = 8 * MB
FILE = noise(LENGTH)


def run(world, folder, *words):
    proxy = f"http://127.0.0.1:{world.port}/"
    done = ran(words, cwd=folder, env=environment(http_proxy=proxy, LC_ALL="C"))
    equal(done.returncode, 0, f"the status of {words[0]}, which says {done.stderr[-300:]!r}")


def go_on(world, path, name):
    """Has this program go on with a file of which it has 6 MB and a byte."""
    commands = {
        "curl": ["curl", "-sS", "-C", "-", "-o", "file", world.url(path)],
        "wget": ["wget", "-q", "--continue", "--tries=1", "--no-config", "-O", "file", world.url(path)],
    }
    need(name)
    with tempfile.TemporaryDirectory() as folder:
        file = pathlib.Path(folder, "file")
        file.write_bytes(FILE[: 6 * MB + 1])
        run(world, folder, *commands[name])
        holds(file.read_bytes() == FILE, f"the whole file of {name}")


@case
def curl_and_wget_go_on_with_a_file_that_has_no_tag(world):
    for name in ["curl", "wget"]:
        dated = b"Last-Modified: Sun, 06 Nov 1994 08:49:37 GMT"
        flows = Flows(world.origin, f"/plain-file/{name}", LENGTH, dated, b"Accept-Ranges: bytes")
        go_on(world, f"/plain-file/{name}", name)
        equal(flows.asked[-1], b"bytes=%d-" % (6 * MB + 1), f"the range that is passed to {name}")


@case
def curl_and_wget_go_on_with_a_file_that_has_a_tag(world):
    flows = Flows(world.origin, "/tagged-file", LENGTH, TAG, FRESH)
    for name in ["curl", "wget"]:
        go_on(world, "/tagged-file", name)
    equal(flows.asked, [b"bytes=%d-" % (6 * MB)], "one ask for both, from the front of the chunk")
    equal(flows.wait(), [2 * MB], "bytes that are sent")


@case
def a_player_skips_through_a_film(world):
    # it asks from where it is to the end, or for the end alone, and goes when it is moved elsewhere
    Flows(world.origin, "/film", LENGTH, TAG, FRESH)
    for asked in [b"0-", b"-65536", b"5242880-", b"2097152-", b"7340109-", b"5742880-", b"1-", b"-400000"]:
        first, last = span_of(asked, LENGTH)
        with Client() as player:
            player.say(world.request("/film", b"Range: bytes=" + asked))
            head = player.hear_until(b"\r\n\r\n")
            holds(b"content-range: bytes %d-%d/%d" % (first, last, LENGTH) in head, f"the place in {head!r}")
            count = min(300_000, LENGTH - first)
            equal(player.hear(count), FILE[first : first + count], f"the bytes from {first} on")


@case
@rule("gone-clients")
def five_come_to_a_radio_and_go_and_a_page_is_read_meanwhile(world):
    with world.anew() as proxy:
        flows, is_over = [], threading.Event()

        def tune_in(ask):
            flows.append(endless())
            return flows[-1]

        proxy.origin.on("/radio", tune_in)
        proxy.origin.on("/page", Answer(response(b"a page")))

        def listen():
            for _ in range(3):
                with Client(port=proxy.port) as client:
                    client.say(proxy.request("/radio"))
                    client.hear_until(b"\r\n\r\n")
                    holds(len(client.hear(2_000)) == 2_000, "some sound")

        def listen_all():
            try:
                equal(together([listen] * 5), [], "failures")
            finally:
                is_over.set()

        def read():
            while not is_over.is_set():
                with Client(port=proxy.port) as client:
                    client.say(proxy.last_request("/page"))
                    holds(client.hear_all().endswith(b"a page"), "the page")

        equal(together([listen_all, read]), [], "failures")
        holds(all(flow.is_over.wait(PATIENCE) for flow in flows), "no stream that goes on for nobody")
        equal(len(flows), 15, "asks for the radio")
        holds(proxy.origin.most_open <= 8, "at most 8 connections to the host")


@case
@rule("host-connections")
def five_listen_to_a_radio_and_a_page_is_read_meanwhile(world):
    with world.anew() as proxy:
        for number in range(5):
            proxy.origin.on(f"/station/{number}", endless())
        proxy.origin.on("/page", Answer(response(b"a page")))
        are_listening = threading.Barrier(6)

        def listen_to(number):
            def listen():
                with Client(port=proxy.port) as client:
                    client.say(proxy.request(f"/station/{number}"))
                    client.hear(1_000)
                    are_listening.wait(PATIENCE)
                    client.hear(3_000)

            return listen

        def read():
            are_listening.wait(PATIENCE)
            with Client(port=proxy.port) as client:
                client.say(proxy.last_request("/page"))
                holds(client.hear_all().endswith(b"a page"), "the page")

        failures = together([listen_to(number) for number in range(5)] + [read])
        holds(not failures, f"all served in place of {failures[:2]}")
