"""What the origin is asked for and sends, counted: little where nobody will see it, and nothing twice."""

import socket

from flows import PIECE, Flows
from harness import case, equal, holds
from origin import noise
from rules import rule
from world import PATIENCE, Client

MB = 1 << 20
TAG = b'ETag: "x"'
FRESH = b"Cache-Control: max-age=1000"
CHUNK = 4_096
# What is kept is read on for so much behind its last reader, and what is dropped as it comes for so much.
NEAR = 256 * CHUNK
DROPPED = 65_536
# One read may be under way, and a piece beside it; and it counts in whole chunks.
MORE = 32_768 + 2 * PIECE + CHUNK
TAKEN = 100_000
# So much of a reply the system holds, at most, that its client does not take.
BUFFERS = 6 * MB
LONG_PIECE = 1 << 18


def take_and_go(world, flows, path, go, *fields):
    """A client takes what the origin sends at first, and goes; the origin goes on."""
    with Client() as client:
        client.say(world.request(path, *fields))
        client.hear_until(b"\r\n\r\n")
        equal(len(client.hear(TAKEN)), TAKEN, "the bytes that are taken")
        go(client)
    flows.all[-1].goes_on.set()


GOES = {"reset": Client.reset, "end": Client.end}


@case
@rule("gone-clients")
def what_is_passed_is_read_no_further_for_a_client_that_went(world):
    for name, go in GOES.items():
        path = f"/passed/{name}"
        flows = Flows(world.origin, path, 64 * MB, held_at=TAKEN)
        take_and_go(world, flows, path, go)
        (sent,) = flows.wait()
        holds(sent <= TAKEN + MORE, f"no more than was under way behind its {name} in place of {sent - TAKEN} bytes")


@case
@rule("gone-clients")
def what_is_kept_is_read_on_for_256_chunks_behind_a_client_that_went(world):
    for name, go in GOES.items():
        path = f"/kept/{name}"
        flows = Flows(world.origin, path, 64 * MB, TAG, FRESH, held_at=TAKEN)
        take_and_go(world, flows, path, go)
        (sent,) = flows.wait()
        holds(NEAR <= sent <= TAKEN + NEAR + MORE, f"256 chunks behind its {name} in place of {sent - TAKEN} bytes")
        with Client() as client:
            client.say(world.last_request(path, b"Range: bytes=%d-%d" % (NEAR - 100, NEAR - 1)))
            equal(client.hear_all().partition(b"\r\n\r\n")[2], noise(100, NEAR - 100), "what was kept of it")
        equal(len(flows.all), 1, f"asks behind its {name}")


@case
def what_is_nearly_whole_is_read_to_its_end_behind_a_client_that_went(world):
    length = TAKEN + NEAR - CHUNK
    for name, go in GOES.items():
        path = f"/nearly/{name}"
        flows = Flows(world.origin, path, length, TAG, FRESH, held_at=TAKEN)
        take_and_go(world, flows, path, go)
        equal(flows.wait(), [length], f"bytes that are sent behind its {name}")
        with Client() as client:
            client.say(world.last_request(path))
            equal(client.hear_all().partition(b"\r\n\r\n")[2], noise(length), "the whole body")
        equal(len(flows.all), 1, f"asks behind its {name}")


@case
@rule("gone-clients")
def a_resume_of_what_has_no_tag_costs_little_more_than_its_rest(world):
    # asked from the front of a chunk on, since it may have a tag; where it has none, the part that is wanted is asked for
    first, length = 32 * MB + 1, 36 * MB
    flows = Flows(world.origin, "/untagged", length)
    with Client() as client:
        client.say(world.last_request("/untagged", b"Range: bytes=%d-" % first))
        equal(client.hear_all().partition(b"\r\n\r\n")[2], noise(length - first, first), "the rest")
    dropped, passed = flows.wait()
    equal(flows.asked[1], b"bytes=%d-" % first, "the range that is passed")
    equal(passed, length - first, "bytes that are passed")
    holds(dropped <= DROPPED + MORE, f"65,536 bytes in place of {dropped} that are dropped")


@case
def a_resume_at_the_front_of_a_chunk_costs_its_rest_alone(world):
    first, length = 32 * MB, 36 * MB
    flows = Flows(world.origin, "/at-a-front", length)
    with Client() as client:
        client.say(world.last_request("/at-a-front", b"Range: bytes=%d-" % first))
        equal(client.hear_all().partition(b"\r\n\r\n")[2], noise(length - first, first), "the rest")
    equal(flows.wait(), [length - first], "bytes that are sent")


@case
@rule("near-bytes")
def what_is_sought_near_is_waited_for_and_what_is_far_is_asked_for(world):
    near, far, length = 200 * CHUNK, 400 * CHUNK, 16 * MB
    flows = Flows(world.origin, "/sought", length, TAG, FRESH, held_at=TAKEN)
    with Client() as player, Client() as near_by, Client() as far_off:
        player.say(world.request("/sought", b"Range: bytes=0-"))
        player.hear_until(b"\r\n\r\n")
        player.hear(TAKEN)
        far_off.say(world.request("/sought", b"Range: bytes=%d-%d" % (far, far + TAKEN - 1)))
        far_off.hear_until(b"\r\n\r\n")
        equal(far_off.hear(TAKEN), noise(TAKEN, far), "what is far, while the first waits")
        near_by.say(world.request("/sought", b"Range: bytes=%d-%d" % (near, near + TAKEN - 1)))
        near_by.expect_silence(0.5)
        flows.all[0].goes_on.set()
        near_by.hear_until(b"\r\n\r\n")
        equal(near_by.hear(TAKEN), noise(TAKEN, near), "what is near, once the first goes on")
    equal(len(flows.all), 2, "asks: for the film, and for what is far")


@case
@rule("near-bytes")
def what_is_far_is_waited_for_where_the_origin_gives_no_ranges(world):
    # it answers each ask with the whole, as it may (RFC 7233, 3.1): to ask again would bring the same from the front on
    far, length = 400 * CHUNK + 1, 4 * MB
    for name, wanted, end in [("range", b"%d-%d" % (far, far + TAKEN - 1), far + TAKEN), ("resume", b"%d-" % far, length)]:
        path = f"/no-ranges/{name}"
        flows = Flows(world.origin, path, length, TAG, FRESH, gives_ranges=False)
        with Client() as client:
            client.say(world.last_request(path, b"Range: bytes=" + wanted))
            head, _, body = client.hear_all().partition(b"\r\n\r\n")
        holds(head.startswith(b"HTTP/1.1 206 "), f"a part in place of {head}")
        equal(body, noise(end - far, far), f"what is far, by a {name}")
        equal(len(flows.all), 1, f"asks of a {name}")


@case
@rule("gone-clients")
@rule("near-bytes")
def each_seek_of_a_player_costs_what_it_plays_and_256_chunks(world):
    flows = Flows(world.origin, "/film", 200 * MB, TAG, FRESH, held_at=TAKEN)
    for first in [0, 150 * MB, 50 * MB]:
        take_and_go(world, flows, "/film", Client.reset, b"Range: bytes=%d-" % first)
        sent = flows.wait()
    equal(len(sent), 3, "asks")
    holds(all(count <= TAKEN + NEAR + MORE for count in sent), f"256 chunks behind each place in place of {sent}")


@case
@rule("left-places")
def what_is_fetched_for_one_place_ends_though_its_readers_were_last_elsewhere(world):
    # the last that left was elsewhere: what comes from the front on is not near there
    flows = Flows(world.origin, "/long-film", 200 * MB, TAG, FRESH, held_at=TAKEN)
    with Client() as player, Client() as elsewhere:
        for client, first in [(player, 0), (elsewhere, 150 * MB)]:
            client.say(world.request("/long-film", b"Range: bytes=%d-" % first))
            client.hear_until(b"\r\n\r\n")
            client.hear(TAKEN)
        player.reset()
        elsewhere.reset()
    for flow in flows.all:
        flow.goes_on.set()
    sent = flows.wait()
    holds(all(count <= TAKEN + NEAR + MORE for count in sent), f"256 chunks behind each place in place of {sent}")


@case
@rule("gone-clients")
@rule("near-bytes")
def a_seek_made_before_the_old_connection_goes_has_nothing_between_fetched(world):
    flows = Flows(world.origin, "/seeked-film", 200 * MB, TAG, FRESH, held_at=TAKEN)
    with Client() as old, Client() as new:
        for client, first in [(old, 0), (new, 150 * MB)]:
            client.say(world.request("/seeked-film", b"Range: bytes=%d-" % first))
            client.hear_until(b"\r\n\r\n")
            equal(client.hear(TAKEN), noise(TAKEN, first), "the bytes that are taken")
        old.reset()
        flows.all[0].goes_on.set()
        holds(flows.all[0].is_over.wait(PATIENCE), "an end of what comes for the place that was left, while the new one is read")
        new.reset()
    flows.all[1].goes_on.set()
    left, sought = flows.wait()
    holds(left <= TAKEN + MORE, f"no more than was under way behind the place that was left in place of {left - TAKEN} bytes")
    holds(sought <= TAKEN + NEAR + MORE, f"256 chunks behind the last place in place of {sought - TAKEN} bytes")


@case
@rule("near-bytes")
def what_comes_for_a_slow_reader_waits_for_it_though_another_reads_far_ahead(world):
    # both take what comes at first, and no more: what was fetched for each is read so far ahead of it, and no further
    far = 150 * MB
    flows = Flows(world.origin, "/two-readers", 200 * MB, TAG, FRESH, piece=LONG_PIECE)
    with Client() as slow, Client() as far_off:
        for client, first in [(slow, 0), (far_off, far)]:
            client.socket.setsockopt(socket.SOL_SOCKET, socket.SO_RCVBUF, 65_536)
            client.say(world.request("/two-readers", b"Range: bytes=%d-" % first))
            client.hear_until(b"\r\n\r\n")
            equal(client.hear(TAKEN), noise(TAKEN, first), "the bytes that are taken")
        sent = flows.at_rest()
        most = TAKEN + BUFFERS + NEAR + MORE + 2 * LONG_PIECE
        equal(len(sent), 2, "asks: for each reader")
        holds(all(count <= most for count in sent), f"{most} bytes at most, so far ahead of a reader that takes no more, in place of {sent}")
