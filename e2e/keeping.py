"""What is kept in the folder of the cache outlives the program, and a fault of the folder costs no client anything."""

import hashlib
import os
import pathlib
import random
import re
import subprocess
import tempfile
import threading
import time

from caching import now, said
from folders import PUBLISHED, TRACE, called, calls_in, entry, small
from harness import Failed, case, equal, holds, lasting, need, ran, together
from kills import CHUNK, GATES_AT, extent_in, gates_in, kept_in
from network import free_port
from origin import Answer, lines, noise, part, response, span_of
from world import Client

TAG = b'"x"'
FRESH = b"Cache-Control: max-age=3600"
ONLY_KEPT = b"Cache-Control: only-if-cached"
CHECKED = b"Cache-Control: no-cache"
NO_DISK = b"polipo: cannot list the cache folder\n"
MOVED = b"polipo: the disk cache was moved, and nothing more is kept\n"
# So many kills, in so many seconds at most; KILLS=200 in the environment makes more of them.
KILLS = int(os.environ.get("KILLS", 12))
KILLING_SECONDS = 4 * KILLS


def fresh(body, date):
    return response(body, b"Date: " + date, b"ETag: " + TAG, FRESH)


def cache_of(world):
    """The folder of its cache, which a word may name."""
    named = [word.removeprefix("diskCacheRoot=") for word in world.words if word.startswith("diskCacheRoot=")]
    return pathlib.Path(world.folder.name) / (named or ["polipo-cache"])[-1]


def file_of(world, path):
    return cache_of(world) / hashlib.md5(world.url(path).encode()).hexdigest()


def entries(folder):
    """How much of each body a folder vouches for, and these bytes, by file name: read by the format alone."""
    return {path.name: kept_in(path) for path in folder.iterdir() if len(path.name) == 32}


def extent_of(world, path):
    return extent_in(file_of(world, path))


def wait_for_extent(world, path, least):
    """Waits until so many bytes of a body are in the folder."""
    deadline = time.monotonic() + 10
    while extent_of(world, path) < least:
        holds(time.monotonic() < deadline, f"{least} bytes of {path} in the folder within seconds")
        time.sleep(0.01)


def body_of(text):
    return text.partition(b"\r\n\r\n")[2]


def serve_whole(world, path, body, **pace):
    """The origin has this body: whole, or the range that it is asked for (RFC 7233, section 4), sent at once or at this pace."""
    date = now()

    def answer(ask):
        wanted = ask.field(b"range")
        if wanted is None:
            return Answer(fresh(body, date), **pace)
        first, last = span_of(wanted, len(body))
        if first > last:
            return Answer(response(b"", b"Content-Range: bytes */%d" % len(body), status=b"416 Range Not Satisfiable"))
        return Answer(part(body, wanted, b"Date: " + date, b"ETag: " + TAG, FRESH), **pace)

    world.origin.on(path, answer)
    return date


def fetch(world, path, body):
    """The origin has this body, and a client is said it."""
    serve_whole(world, path, body)
    equal(body_of(said(world, path)[0]), body, f"the body of {path}")


def keep(world, path, body):
    """The same, and all of it comes to be in the folder."""
    fetch(world, path, body)
    wait_for_extent(world, path, len(body))


def serve_all(world, lengths, **pace):
    """The origin has a body of each of these lengths, at this pace."""
    bodies = {f"/{number}": noise(length, 97 * number) for number, length in enumerate(lengths)}
    for path, body in bodies.items():
        serve_whole(world, path, body, **pace)
    return bodies


def asked_for(world, path):
    return [ask for ask in world.origin.asked if ask.path == path]


# ---- from one life to the next


@case
def what_was_kept_is_served_after_a_kill_without_being_asked_again(world):
    bodies = {"/small": b"hello", "/chunk": noise(4096), "/run": noise(65_536, 1), "/more": noise(65_537, 2), "/long": noise(2_000_000, 3)}
    with world.anew() as proxy:
        for path, body in bodies.items():
            keep(proxy, path, body)
        proxy.restart()
        proxy.origin.clear()
        for path, body in bodies.items():
            equal(kept_in(file_of(proxy, path)), (len(body), body), f"the entry of {path}")
            text, age = said(proxy, path, ONLY_KEPT)
            equal(body_of(text), body, f"the body of {path} from the disk")
            holds(age is not None and age < 60, f"an age of some seconds in place of {age}")
            equal(body_of(said(proxy, path, ONLY_KEPT, b"Range: bytes=1-3")[0]), body[1:4], f"a part of {path}")
        equal(asked_for(proxy, "/small") + asked_for(proxy, "/long"), [], "asks of the origin")


@case
def a_partial_body_goes_on_from_the_disk(world):
    body = noise(400_000)
    with world.anew() as proxy:
        date, goes_on = now(), threading.Event()
        whole = fresh(body, date)
        proxy.origin.on("/big", Answer(whole, cuts=[len(whole) - 200_000], goes_on=goes_on))
        with Client(port=proxy.port) as client:
            client.say(proxy.request("/big"))
            client.hear_until(b"\r\n\r\n")
            equal(client.hear(100_000), body[:100_000], "what came first")
            wait_for_extent(proxy, "/big", 131_072)
            proxy.stop()
        goes_on.set()
        kept_bytes = extent_of(proxy, "/big")
        proxy.origin.clear()
        serve_whole(proxy, "/big", body)
        proxy.start()
        equal(body_of(said(proxy, "/big")[0]), body, "the whole body")
        first, last = span_of(asked_for(proxy, "/big")[0].field(b"range"), len(body))
        equal((first, last), (kept_bytes, len(body) - 1), "the range that is missing")
        equal(len(asked_for(proxy, "/big")), 1, "asks of the origin")


@case
def a_version_that_was_replaced_is_not_found_again(world):
    with world.anew() as proxy:
        for number in (1, 2):
            body = b"version %d" % number
            proxy.origin.on("/a", Answer(response(body, b"Date: " + now(), b'ETag: "%d"' % number, FRESH)))
            equal(body_of(said(proxy, "/a", CHECKED)[0]), body, f"body {number}")
            wait_for_extent(proxy, "/a", len(body))
        proxy.restart()
        equal(kept_in(file_of(proxy, "/a"))[1], b"version 2", "the entry")


@case
def an_entry_is_checked_and_replaced_as_a_row_in_memory_is(world):
    with world.anew() as proxy:
        fields = [b"Date: " + now(), b'ETag: "1"', FRESH]
        proxy.origin.on("/a", Answer(response(b"version 1", *fields)))
        equal(body_of(said(proxy, "/a")[0]), b"version 1", "the body")
        wait_for_extent(proxy, "/a", 9)
        proxy.restart()
        proxy.origin.clear()
        proxy.origin.on("/a", Answer(lines(b"HTTP/1.1 304 Not Modified", *fields)))
        equal(body_of(said(proxy, "/a", CHECKED)[0]), b"version 1", "the body that was checked")
        equal([ask.field(b"if-none-match") for ask in asked_for(proxy, "/a")], [b'"1"'], "what the asks name")
        proxy.restart()
        proxy.origin.on("/a", Answer(response(b"version two", b"Date: " + now(), b'ETag: "2"', FRESH)))
        equal(body_of(said(proxy, "/a", CHECKED)[0]), b"version two", "the body that replaced it")
        equal(kept_in(file_of(proxy, "/a")), (11, b"version two"), "the entry")


@case
def a_page_that_each_use_must_check_is_not_written_anew_at_each(world):
    with world.anew() as proxy:
        proxy.origin.on("/a", lambda ask: Answer(response(b"hello", b"Date: " + now(), b"ETag: " + TAG, b"Cache-Control: no-cache")))
        for number in range(1, 41):
            equal(body_of(said(proxy, "/a")[0]), b"hello", f"body {number}")
        equal(len(asked_for(proxy, "/a")), 40, "asks of the origin")
        equal(list(cache_of(proxy).iterdir()), [], "what is in the folder")


@case
def what_a_request_changes_loses_its_entry_behind_a_restart_too(world):
    with world.anew() as proxy:
        for path in ("/a", "/b"):
            keep(proxy, path, b"hello")
        proxy.restart()
        proxy.origin.clear()
        proxy.origin.on("/a", Answer(response(b"changed", b"Content-Location: /b")))
        with Client(port=proxy.port) as client:
            client.say(proxy.last_request("/a", b"Content-Length: 0", method="POST"))
            equal(body_of(client.hear_all()), b"changed", "the answer")
        for path in ("/a", "/b"):
            holds(not file_of(proxy, path).exists(), f"no entry of {path}")
            equal(said(proxy, path, ONLY_KEPT)[0].split(b" ")[1], b"504", f"the status for {path}")


@case
def heads_conditions_and_parts_are_answered_from_the_disk(world):
    body = noise(100_000)
    with world.anew() as proxy:
        keep(proxy, "/a", body)
        proxy.restart()
        proxy.origin.clear()
        with Client(port=proxy.port) as client:
            client.say(proxy.last_request("/a", method="HEAD"))
            head, _, rest = client.hear_all().partition(b"\r\n\r\n")
            holds(head.startswith(b"HTTP/1.1 200 ") and b"content-length: 100000" in head, f"its head in place of {head!r}")
            equal(rest, b"", "no body")
        equal(said(proxy, "/a", b'If-None-Match: "x"')[0].split(b" ")[1], b"304", "the status of what has it")
        for first, last in ((0, 0), (4_095, 4_096), (70_000, 99_999)):
            part_of = said(proxy, "/a", b"Range: bytes=%d-%d" % (first, last))[0]
            equal(body_of(part_of), body[first : last + 1], f"the part from {first} on")
        equal(said(proxy, "/a", b"Range: bytes=100000-")[0].split(b" ")[1], b"416", "the status of what is behind it")
        equal(asked_for(proxy, "/a"), [], "asks of the origin")


@case
def bodies_larger_than_memory_are_read_from_the_disk_by_many(world):
    body, marks = noise(6_000_000), ("chunkLowMark=512", "chunkHighMark=512", "chunkCriticalMark=1024")
    with world.anew(*marks) as proxy:
        keep(proxy, "/a", body)
        proxy.restart()
        proxy.origin.clear()

        def reads(first):
            equal(body_of(said(proxy, "/a", b"Range: bytes=%d-" % first)[0]), body[first:], f"the bytes from {first} on")

        readers = [lambda first=first: reads(first) for first in (0, 1, 2_000_000, 4_000_001)]
        for number, reader in enumerate(readers):
            reader.__name__ = f"reader {number}"
        equal(together(readers), [], "failures")
        equal(asked_for(proxy, "/a"), [], "asks of the origin")


# ---- readers at random


def random_load(world, bodies, choose, is_over):
    """Reads random bodies and parts until it is over, and sees that no byte is wrong, and until then none missing."""
    while not is_over.is_set():
        path = choose.choice(list(bodies))
        body = bodies[path]
        first = choose.randrange(len(body))
        last = min(len(body) - 1, first + choose.choice((10, 5_000, 100_000, len(body))))
        fields = [] if choose.random() < 0.5 else [b"Range: bytes=%d-%d" % (first, last)]
        wanted = body[first : last + 1] if fields else body
        try:
            came = body_of(said(world, path, *fields)[0])
        except OSError:
            holds(is_over.is_set(), f"a reply for {path} before it is over")
            continue
        holds(wanted.startswith(came), f"a front of the bytes of {path} from {first} on in place of {came[:40]!r}..")
        holds(came == wanted or is_over.is_set(), f"the bytes of {path} from {first} on, whole before it is over")


def readers(world, bodies, seed, is_over):
    """Some that read at random until it is over."""

    def reader(number):
        def read():
            random_load(world, bodies, random.Random(seed + number), is_over)

        return read

    return [reader(number) for number in range(4)]


def read_during(job, world, bodies, seed):
    """Some read at random while this is done; no byte is wrong, and none missing."""
    is_over = threading.Event()

    def to_its_end():
        try:
            job()
        finally:
            is_over.set()

    equal(together([to_its_end, *readers(world, bodies, seed, is_over)]), [], f"failures, with seed {seed}")


# ---- kills under load

LENGTHS = [5, 4095, 4096, 4097, 20_000, 65_536, 100_000, 300_000, 1_000_000, 3_000_000]


def watch_folder(world, extents, is_killed):
    """Reads the folder again and again until the program is killed, and notes how much of each body it vouches for: never less
    than before, since no page changes, and so nothing that is kept is replaced or withdrawn."""
    while not is_killed.is_set():
        for path, before in list(extents.items()):
            extent = extent_of(world, path)
            holds(extent >= before, f"{before} bytes of {path} in the folder, as before, in place of {extent}")
            extents[path] = extent
        time.sleep(0.001)


def kill_under_load(world, bodies, extents, choose):
    """Loads the program, watches its folder, and kills it after a random time, or before where so much is kept. Answers how much
    of each body was seen to be acknowledged before that."""
    is_killed, seen = threading.Event(), {}
    enough = choose.randint(sum(extents.values()), sum(map(len, bodies.values())))
    latest = time.monotonic() + choose.uniform(0.02, 0.6)

    def kill():
        while time.monotonic() < latest and sum(extents.values()) < enough:
            time.sleep(0.001)
        seen.update(extents)
        is_killed.set()
        world.stop()

    def watch():
        watch_folder(world, extents, is_killed)

    load = readers(world, bodies, choose.randrange(1 << 32), is_killed)
    equal(together([*load, watch, kill]), [], "failures")
    return seen


def expect_kept(world, bodies, seen):
    """The folder of the stopped program has what was seen in it, and no wrong byte; started, it serves that, and asks nobody for
    it. Answers how much of each body there is."""
    kept, extents = entries(cache_of(world)), {}
    for path, body in bodies.items():
        extents[path], data = kept.get(file_of(world, path).name, (0, b""))
        equal(data, body[: extents[path]], f"what the folder vouches for of {path}")
        holds(extents[path] >= seen[path], f"{seen[path]} bytes of {path}, which were acknowledged, in place of {extents[path]}")
    world.start()
    world.origin.clear()
    for path, extent in extents.items():
        if extent:
            text = said(world, path, ONLY_KEPT, b"Range: bytes=0-%d" % (extent - 1))[0]
            equal(body_of(text), bodies[path][:extent], f"the kept front of {path}")
    equal([ask.path for ask in world.origin.asked if ask.path in bodies], [], "asks of the origin")
    return extents


@case
@lasting(3 * KILLING_SECONDS)
def what_was_acknowledged_outlives_kills_under_load_and_no_reply_has_a_wrong_byte(world):
    seed = random.randrange(1 << 32)
    choose = random.Random(seed)
    kills, growing, demanded, new_bytes = 0, 0, [], 0
    try:
        with world.anew("diskRun=4") as proxy:
            # Slowly enough that a kill finds bodies that came in part, on the fastest disk too.
            bodies = serve_all(proxy, LENGTHS, piece=50_000, pause=0.002)
            extents, deadline = dict.fromkeys(bodies, 0), time.monotonic() + KILLING_SECONDS
            while kills < KILLS and time.monotonic() < deadline:
                if all(extents[path] == len(body) for path, body in bodies.items()):
                    # All is kept: once more from the beginning.
                    proxy.stop()
                    for path in bodies:
                        file_of(proxy, path).unlink()
                    extents = dict.fromkeys(bodies, 0)
                    proxy.start()
                before = sum(extents.values())
                seen = kill_under_load(proxy, bodies, extents, choose)
                extents = expect_kept(proxy, bodies, seen)
                kills, growing = kills + 1, growing + any(0 < seen[path] < len(body) for path, body in bodies.items())
                demanded += [extent for extent in seen.values() if extent]
                new_bytes += sum(seen.values()) - before
    except Failed as failure:
        raise Failed(f"{failure}\n    with seed {seed}")
    holds(growing, "kills while some body was kept in part")
    return (
        f"{kills} kills, {growing} of them where a body was kept in part; demanded {len(demanded)} extents of {sum(demanded)} "
        f"bytes, {new_bytes} of which were acknowledged in the life that was killed"
    )


# ---- folders that cannot be used


def end_with_root(world, root, cwd):
    """How the program ends that is to use this folder."""
    done = ran([world.program, f"proxyPort={free_port()}", f"diskCacheRoot={root}"], cwd=cwd, stdin=subprocess.DEVNULL)
    return done.returncode, done.stdout, done.stderr


@case
def a_folder_that_cannot_be_used_ends_the_program(world):
    with tempfile.TemporaryDirectory() as cwd:
        file = os.path.join(cwd, "file")
        pathlib.Path(file).write_bytes(b"not a folder")
        os.symlink("nowhere/at/all", os.path.join(cwd, "link"))
        for root in (file, "file/below", "not/there", "link", "/proc/polipo", "/dev/null"):
            equal(end_with_root(world, root, cwd), (4, b"", NO_DISK), f"status, output and complaint with the folder {root}")
        equal(pathlib.Path(file).read_bytes(), b"not a folder", "the file")


@case
def a_folder_of_another_program_ends_the_program(world):
    with world.anew() as proxy:
        root = str(cache_of(proxy))
        equal(end_with_root(world, root, proxy.folder.name), (4, b"", NO_DISK), "status, output and complaint")


@case
def a_folder_is_the_users_alone(world):
    with world.anew() as proxy:
        keep(proxy, "/a", b"hello")
        equal(cache_of(proxy).stat().st_mode & 0o777, 0o700, "the folder's mode")
        equal(file_of(proxy, "/a").stat().st_mode & 0o777, 0o600, "a file's mode")


@case
def a_folder_that_is_moved_is_left_with_one_line(world):
    with world.anew() as proxy:
        folder = cache_of(proxy)
        folder.rename(folder.with_name("aside"))
        folder.mkdir()
        deadline = time.monotonic() + 10
        while not proxy.printed() and time.monotonic() < deadline:
            time.sleep(0.05)
        serve_whole(proxy, "/a", b"hello")
        for _time in (1, 2):
            equal(body_of(said(proxy, "/a")[0]), b"hello", "the body, which is not kept")
        time.sleep(2.1)
        equal(proxy.printed(), MOVED, "output and complaints, once")
        equal(list(folder.iterdir()), [], "what is in the folder that nobody locked")
        proxy.output.truncate(0)  # `anew` wants silence at its end


# ---- what clients do not see


@case
def foreign_and_damaged_files_are_passed_over(world):
    body = noise(100_000)
    with world.anew() as proxy:
        keep(proxy, "/a", body)
        proxy.stop()
        whole = file_of(proxy, "/a").read_bytes()
        foreign = {
            "0" * 32: b"",
            "1" * 32: b"12345",
            "2" * 32: bytes(20_000),
            "3" * 32: noise(20_000),
            "4" * 32: whole,
            "notes": b"mine",
            "draft.old": b"x",
        }
        for name, data in foreign.items():
            (cache_of(proxy) / name).write_bytes(data)
        choose = random.Random(11)
        cuts = [0, 1, 8_191, 8_192, 8_193, 12_287, 12_288, 12_289, 20_000, len(whole) - 1] + [choose.randrange(len(whole)) for _ in range(3)]
        for cut in cuts:
            file_of(proxy, "/a").write_bytes(whole[:cut])
            proxy.start()
            proxy.origin.clear()
            equal(body_of(said(proxy, "/a")[0]), body, f"the body where the entry has {cut} bytes")
            proxy.stop()
        for name, data in foreign.items():
            equal((cache_of(proxy) / name).read_bytes(), data, f"the file {name}")
        proxy.start()


@case
def a_full_disk_is_seen_by_no_client(world):
    bodies = {f"/{number}": noise(length, number) for number, length in enumerate((5, 30_000, 300_000))}
    with world.anew() as proxy:
        proxy.stop()
        limit = 10_000
        if why := proxy.launch(f"ulimit -f {limit // 512}; trap '' XFSZ"):
            raise Failed(f"    {why}")
        for _time in (1, 2):
            for path, body in bodies.items():
                fetch(proxy, path, body)
        equal(len(proxy.origin.asked), len(bodies), "asks of the origin: what is in memory is served from there")
        for path in bodies:
            holds(extent_of(proxy, path) == 0, f"nothing of {path} in the folder")


@case
def a_file_that_goes_away_is_seen_by_no_client(world):
    body = noise(300_000)
    with world.anew() as proxy:
        keep(proxy, "/a", body)
        proxy.restart()
        file_of(proxy, "/a").unlink()
        equal(body_of(said(proxy, "/a")[0]), body, "the body whose file is gone")


@case
def a_disk_that_is_full_keeps_what_it_has_and_goes_on_where_there_is_room(world):
    bodies = {f"/{number}": noise(20_000, number) for number in range(20)}
    with small("256k") as place, world.anew(f"diskCacheRoot={place}/cache") as proxy:
        for path, body in bodies.items():
            fetch(proxy, path, body)
        proxy.restart()
        proxy.origin.clear()
        served = [path for path, body in bodies.items() if body_of(said(proxy, path, ONLY_KEPT)[0]) == body]
        holds(0 < len(served) < len(bodies), f"some bodies from the disk, and not all ({len(served)})")
        equal([ask for ask in proxy.origin.asked if ask.path in bodies], [], "asks of the origin")
        holds(called("mount", "-o", "remount,size=4m", place), "more room")
        # A draft that failed is followed by none before the next tick.
        time.sleep(1.5)
        for path, body in bodies.items():
            fetch(proxy, path, body)
        kept = entries(cache_of(proxy))
        for path, body in bodies.items():
            equal(kept.get(file_of(proxy, path).name), (len(body), body), f"the entry of {path}")


@case
def a_folder_that_may_not_be_written_any_more_is_seen_by_no_client(world):
    bodies = {f"/{number}": noise(20_000, number) for number in range(6)}
    with small("4m") as place, world.anew(f"diskCacheRoot={place}/cache") as proxy:
        for path, body in list(bodies.items())[:3]:
            fetch(proxy, path, body)
        proxy.stop()
        holds(called("mount", "-o", "remount,ro", place), "a file system that is not written")
        proxy.start()
        for path, body in list(bodies.items())[:3]:
            equal(body_of(said(proxy, path, ONLY_KEPT)[0]), body, f"the body of {path} from the disk")
        for path, body in list(bodies.items())[3:]:
            serve_whole(proxy, path, body)
            for _time in (1, 2):
                equal(body_of(said(proxy, path)[0]), body, f"the body of {path}, which is not kept")


def put_entry(world, path, body):
    """Writes an entry of at most one chunk by the format alone."""
    text = (
        f'HTTP/1.1 200 OK\r\netag: "x"\r\ndate: {now().decode()}\r\ncache-control: max-age=3600\r\n'
        f"X-Polipo-Location: {world.url(path)}\r\nX-Polipo-Date: {int(time.time())}\r\nX-Polipo-Age: 0\r\n"
        f"X-Polipo-Length: {len(body)}\r\nX-Polipo-Body-Offset: 12288\r\n\r\n"
    )
    file_of(world, path).write_bytes(entry(text.encode(), b"\1", body))


@case
def more_entries_than_rows_in_memory_are_all_served(world):
    paths = [f"/{number}" for number in range(1_100)]
    with world.anew() as proxy:
        proxy.stop()
        for path in paths:
            put_entry(proxy, path, path.encode())
        proxy.start()
        with Client(port=proxy.port) as client:
            for path in paths:
                client.say(proxy.request(path, ONLY_KEPT))
                head = client.hear_until(b"\r\n\r\n")
                holds(head.startswith(b"HTTP/1.1 200 "), f"a reply of 200 for {path} in place of {head!r}")
                equal(client.hear(len(path)), path.encode(), f"the body of {path}")


# ---- flipped bits

TWO_CHUNKS = 2 * CHUNK
# In these a flipped bit may make another entry: what its origin said, and numbers that are the proxy's own.
MAY_BE_OTHERS = re.compile(rb'etag: "(.)"|(date: [^\r]*|cache-control: [^\r]*)|X-Polipo-(?:Date|Age|Length): (\d+)')
# All bits of these are flipped, and one bit of each other byte.
ALL_BITS = re.compile(rb"(etag: [^\r]*|X-Polipo-Length: [^\r]*|\r\n\r\n)")
PLAIN = (None, None, None)


def places(pattern, text):
    """The places of what the groups of a pattern find in a text."""
    spans = [found.span(group) for found in pattern.finditer(text) for group in range(1, pattern.groups + 1) if found[group]]
    return {at for first, end in spans for at in range(first, end)}


def block_that_it_writes(proxy):
    """The head block that the program writes for /0000, with a body of two chunks; it is stopped behind that."""
    keep(proxy, "/0000", noise(TWO_CHUNKS))
    proxy.stop()
    return file_of(proxy, "/0000").read_bytes()[:GATES_AT]


def put_flipped(world, path, data, at, bit):
    flipped = bytearray(data)
    flipped[at] ^= 1 << bit
    file_of(world, path).write_bytes(flipped)
    return bytes(flipped)


def conditions(asks):
    """What these ask for, and under which conditions: PLAIN where they ask for the whole."""
    return [(ask.field(b"range"), ask.field(b"if-range"), ask.field(b"if-none-match")) for ask in asks]


@case
@lasting(120)
def a_bit_that_flips_in_the_head_of_a_kept_entry_makes_no_byte_of_a_reply_wrong(world):
    seed = random.randrange(1 << 32)
    choose, others, longer = random.Random(seed), 0, 0
    try:
        with world.anew() as proxy:
            block = block_that_it_writes(proxy)
            text = block.rstrip(b"\0")
            every_bit, may_be_other = places(ALL_BITS, text), places(MAY_BE_OTHERS, text)
            flips = [(at, bit) for at in range(len(text)) for bit in (range(8) if at in every_bit else [choose.randrange(8)])]
            flips += [(len(text), 0), (GATES_AT - 1, 0)]
            bodies = {f"/{number:04}": noise(TWO_CHUNKS, 97 * number) for number in range(1, len(flips) + 1)}
            for (path, body), flip in zip(bodies.items(), flips):
                serve_whole(proxy, path, body)
                put_flipped(proxy, path, entry(block.replace(b"/0000", path.encode()), b"\1\1", body), *flip)
            proxy.start()
            proxy.origin.clear()
            for (path, body), (at, bit) in zip(bodies.items(), flips):
                of_what = f"behind a flip of bit {bit} of byte {at} of {text!r}"
                reply = said(proxy, path)[0]
                equal(body_of(reply), body, f"the body {of_what}")
                if (asks := conditions(asked_for(proxy, path))) != [PLAIN]:
                    holds(at in may_be_other, f"an ask anew for what is no entry, {of_what}, in place of {asks}")
                    others += 1
                if b"content-length: %d\r\n" % TWO_CHUNKS not in reply:
                    # An entry of a longer body, of which nobody has more: the reply is cut behind these chunks.
                    holds(text.index(b"X-Polipo-Length") < at < text.index(b"X-Polipo-Body"), f"the length {of_what}")
                    longer += 1
                    again = said(proxy, path)[0]
                    equal(body_of(again), body, f"the next body {of_what}")
                    holds(b"content-length: %d\r\n" % TWO_CHUNKS in again, f"the length of the next {of_what}")
                wait_for_extent(proxy, path, TWO_CHUNKS)
                equal(kept_in(file_of(proxy, path))[1], body, f"what is kept {of_what}")
    except Failed as failure:
        raise Failed(f"{failure}\n    with seed {seed}")
    return f"of {len(flips)} flips {others} make another entry, {longer} of them of a longer body"


def flips_of_gates(chunks, choose):
    """How many gates are open, how many chunks of the body are there, which gate is changed, and in which bit: each gate, and one
    behind them, where the file ends with its extent, and where a crash left more."""
    for opened in range(chunks + 1):
        for there in {opened, chunks}:
            for at in range(chunks + 1):
                for bit in (0, choose.randrange(1, 8)):
                    yield opened, there, at, bit


@case
@lasting(120)
def a_gate_that_changes_in_a_kept_entry_makes_no_byte_of_a_reply_wrong_but_what_it_opens(world):
    chunks, length, seed = 5, 5 * CHUNK - 100, random.randrange(1 << 32)
    files, none, taken = {}, 0, 0
    try:
        with world.anew() as proxy:
            block = block_that_it_writes(proxy).rstrip(b"\0")
            block = block.replace(b"X-Polipo-Length: %d\r" % TWO_CHUNKS, b"X-Polipo-Length: %d\r" % length)
            for number, (opened, there, at, bit) in enumerate(flips_of_gates(chunks, random.Random(seed)), start=1):
                path, body = f"/{number:04}", noise(length, 97 * number)
                serve_whole(proxy, path, body)
                # What stands behind the extent is none of the body's bytes.
                written = body[: opened * CHUNK].ljust(min(length, there * CHUNK), b"?")
                data = entry(block.replace(b"/0000", path.encode()), b"\1" * opened, written)
                data = put_flipped(proxy, path, data, GATES_AT + at, bit)
                files[path] = body, written, data, f"behind {opened} gates, {there} chunks and a flip of bit {bit} of gate {at}"
                taken += there > opened == at and bit == 0
            proxy.start()
            proxy.origin.clear()
            for path, (body, written, data, of_what) in files.items():
                extent, gates = gates_in(data)[0], data[GATES_AT : GATES_AT + chunks]
                if extent > len(written):
                    extent, asks, none = 0, [PLAIN], none + 1
                else:
                    leading = -(-extent // CHUNK)
                    gates = gates[:leading] + gates[leading:].replace(b"\1", b"\0")
                    asks = [(b"bytes=%d-%d" % (extent, length - 1), TAG, None)] if extent < length else []
                equal(file_of(proxy, path).read_bytes()[GATES_AT : GATES_AT + chunks], gates, f"the gates {of_what}")
                wanted = written[:extent] + body[extent:]
                equal(body_of(said(proxy, path)[0]), wanted, f"the body {of_what}")
                equal(conditions(asked_for(proxy, path)), asks, f"the asks {of_what}")
                wait_for_extent(proxy, path, length)
                equal(kept_in(file_of(proxy, path))[1], wanted, f"what is kept {of_what}")
            equal((none, taken), (chunks, chunks), "how many make it no entry, and how many open a chunk that was being sealed")
    except Failed as failure:
        raise Failed(f"{failure}\n    with seed {seed}")
    return f"of {len(files)} changes {none} make it no entry, and {taken} open a chunk that was being sealed"


# ---- what is called, and in which order


@case
def what_is_kept_is_synced_in_order_and_a_hit_from_memory_calls_no_file(world):
    need("strace")
    with tempfile.TemporaryDirectory() as place:
        trace, traced = pathlib.Path(place) / "trace", pathlib.Path(place) / "traced"
        # The tracer stands beside the program, so that a kill is the program's.
        traced.write_text(f"#!/bin/sh\nexec {' '.join(TRACE)} {trace} -D {world.program} \"$@\"\n")
        traced.chmod(0o700)
        proxy = type(world)(str(traced), free_port())
        try:
            calls = lambda: calls_in(trace.read_text(), "polipo-cache")
            before = calls()
            equal(before, ["sync folder"], "the calls of the opening")
            keep(proxy, "/small", b"hello")
            small_calls = ["open draft", "write draft 12293", *PUBLISHED]
            equal(calls()[len(before) :], small_calls, "the calls for a small body")
            long = noise(16 * CHUNK + 100)
            keep(proxy, "/long", long)
            before += small_calls
            wanted = [
                "close",
                *["open draft", "write draft 12288", *PUBLISHED],
                *["write draft 65536 at 12288", "sync draft", "write draft 16 at 8192", "sync draft"],
                *["write draft 100 at 77824", "sync draft", "write draft 1 at 8208", "sync draft"],
            ]
            came = calls()[len(before) :]
            equal(sorted(came), sorted(wanted), "the calls for a long body")
            equal([call for call in came if call != "close"], wanted[1:], "the calls for a long body, in order")
            before += came
            for _hit in range(50):
                equal(body_of(said(proxy, "/small")[0]), b"hello", "a hit")
            equal(calls()[len(before) :], [], "the calls for hits")
        finally:
            proxy.stop()
