"""What a machine may do to the program while it serves: it is refused memory, its disk fills up, and its files go away. It serves
on, and tells no client a wrong byte; or it says why it ends."""

import contextlib
import itertools
import os
import pathlib
import random
import re
import resource
import shutil
import socket
import subprocess
import threading
import time

from caching import now, said
from flows import Flows
from folders import called, mounted, on_a_device_that_runs_out, small
from harness import case, equal, holds, together
from idling import has_news
from keeping import (
    FRESH, MOVED, TAG, asked_for, body_of, cache_of, entries, expect_kept, extent_of, file_of, fresh, keep, put_entry,
    read_during, serve_all,
)
from kills import GATES_AT
from origin import Answer, noise, plain
from words import USAGE
from world import BAD_GATEWAY, INTERNAL_ERROR, Client, passed, reply

NO_MEMORY = (3, b"polipo: out of memory\n")
NOTHING = b""
MB = 1 << 20

# ---- memory


def held_by(proxy, what="VmData"):
    """How many bytes it has: of memory that it asked for, or of addresses (`VmSize`), which `ulimit -v` limits."""
    text = pathlib.Path(f"/proc/{proxy.process.pid}/status").read_text()
    return int(re.search(rf"{what}:\s+(\d+) kB", text)[1]) * 1024


def let_have(proxy, count):
    """From now on it is given no more bytes than these. Its stack is not counted, as it is by `ulimit -v`: the system ends a
    program by a signal whose stack may not grow, and no program can answer that."""
    resource.prlimit(proxy.process.pid, resource.RLIMIT_DATA, (count, resource.RLIM_INFINITY))


def is_loaded(proxy, limit):
    """Whether the system can start the program within this limit: it refuses a word that is none."""
    words = ["sh", "-c", f'{limit}; exec "$@"', "sh", proxy.program, "nonsense"]
    done = subprocess.run(words, capture_output=True, cwd=proxy.folder.name)
    return (done.returncode, done.stderr) == (2, USAGE)


@case
def started_with_less_memory_it_serves_or_ends_with_a_line(world):
    with world.anew() as proxy:
        proxy.stop()
        for number in range(300):
            put_entry(proxy, f"/{number}", b"hello")
        proxy.start()
        whole, asked_for = held_by(proxy, "VmSize") // 1024, held_by(proxy) // 1024
        proxy.stop()
        ends = serves = 0
        # Close to what it holds, its stack is not counted: `ulimit -v` does, and the system ends a program whose stack may not grow.
        limits = [f"ulimit -v {kilobytes}" for kilobytes in range(3_000, whole - 1_000, 4_000)]
        limits += [f"ulimit -d {kilobytes}" for kilobytes in range(asked_for - 200, asked_for + 600, 100)]
        for limit in itertools.dropwhile(lambda limit: not is_loaded(proxy, limit), limits):
            if proxy.launch(limit):
                equal((proxy.process.returncode, proxy.printed()), NO_MEMORY, f"the end behind {limit}")
                ends += 1
            else:
                serves += 1
                for number in range(8):
                    with Client(port=proxy.port) as client:
                        heard = client.reply_to(proxy.request(f"/{number}"))
                    is_right = heard.startswith(b"HTTP/1.1 200 ") and heard.endswith(b"\r\n\r\nhello")
                    holds(is_right or heard in (INTERNAL_ERROR, NOTHING), f"5 bytes, a refusal or an end in place of {heard}")
                equal((proxy.process.poll(), proxy.printed()), (None, b""), f"its end, and output, behind {limit}")
                proxy.stop()
        proxy.start()
        holds(ends and serves, f"some that end, and some that serve ({ends}, {serves})")
        return f"{ends} end, {serves} serve"


class Lack:
    """What clients are told while memory is refused, and afterwards: what is right, a refusal, or nothing."""

    def __init__(self, proxy):
        self.proxy, self.date = proxy, now()
        self.told = {"right": 0, "refused": 0, "nothing": 0}

    def serve(self, path, body):
        """The origin has this body."""
        self.proxy.origin.on(path, Answer(fresh(body, self.date)))
        return reply(body, b"etag: " + TAG, b"date: " + self.date, FRESH.lower())

    def count(self, heard, right, of_what):
        told = "right" if heard == right else "refused" if heard == INTERNAL_ERROR else "nothing"
        if told == "nothing":
            equal(heard, NOTHING, f"{of_what}, where it is neither right nor refused")
        self.told[told] += 1


@case
def memory_that_is_refused_while_it_serves_costs_a_refusal_or_a_client_and_no_byte(world):
    # each of these rows takes memory for its key alone of 7,000 bytes
    paths = {f"/{number}/{'k' * 7_000}": b"body %d" % number * 50 for number in range(100)}
    with world.anew() as proxy:
        lack = Lack(proxy)
        rights = {path: lack.serve(path, body) for path, body in paths.items()}
        hit = lack.serve("/hit", b"hello")
        seated = [Client(port=proxy.port) for _ in range(20)]
        for client in seated:
            equal(client.reply_to(proxy.request("/hit")), hit, "a reply before the lack")

        def ask_for_all():
            for number, (path, right) in enumerate(rights.items()):
                lack.count(seated[number % len(seated)].reply_to(proxy.request(path)), right, f"the reply for {path[:9]}")
            for client in seated:
                lack.count(client.reply_to(proxy.request("/hit")), hit, "a hit")
            newcomers = [Client(port=proxy.port) for _ in range(40)]
            for client in newcomers:
                lack.count(client.reply_to(proxy.request("/hit")), hit, "the reply to a newcomer")
                client.socket.close()

        let_have(proxy, held_by(proxy))
        ask_for_all()
        told = dict(lack.told)
        holds(told["refused"] and told["nothing"], f"refusals, and clients that were turned away, in place of {told}")
        let_have(proxy, resource.RLIM_INFINITY)
        lack.told = dict.fromkeys(told, 0)
        ask_for_all()
        equal(lack.told, {"right": 160, "refused": 0, "nothing": 0}, "what is told once the lack is over")
        for client in seated:
            client.socket.close()
        bodies = {file_of(proxy, path).name: (len(body), body) for path, body in [*paths.items(), ("/hit", b"hello")]}
        for name, entry in entries(cache_of(proxy)).items():
            equal(entry, bodies[name], "an entry in the folder")
        return f"{told['right']} right, {told['refused']} refused, {told['nothing']} turned away"


@case
def a_long_body_for_whose_table_memory_is_refused_is_refused_and_comes_once_it_is_there(world):
    # 12 bytes a chunk of 4,096: 3 MiB
    with world.anew() as proxy, Client(port=proxy.port) as client:
        proxy.origin.on("/hit", Answer(plain(b"hello")))
        flows = Flows(proxy.origin, "/long", 1 << 30, b"ETag: " + TAG, FRESH)
        equal(client.reply_to(proxy.request("/hit")), passed(b"hello"), "a reply before the lack")
        let_have(proxy, held_by(proxy))
        for _time in (1, 2):
            equal(client.reply_to(proxy.request("/long")), INTERNAL_ERROR, "the reply under the lack")
        equal(len(flows.all), 2, "asks of the origin")
        let_have(proxy, resource.RLIM_INFINITY)
        client.say(proxy.request("/long"))
        holds(b"\r\ncontent-length: 1073741824\r\n" in client.hear_until(b"\r\n\r\n"), "the whole length")
        equal(client.hear(100_000), noise(100_000), "what comes of it")


@case
def memory_that_comes_and_goes_under_load_costs_no_wrong_byte(world):
    seed = random.randrange(1 << 32)
    choose = random.Random(seed)
    with world.anew() as proxy:
        lack, lock, is_over = Lack(proxy), threading.Lock(), threading.Event()
        rights = {f"/{number}/{'k' * 1_000}": None for number in range(300)}
        for number, path in enumerate(rights):
            rights[path] = lack.serve(path, noise((1 << number % 18) + number, number))
        whole = held_by(proxy)

        def squeeze():
            end = time.monotonic() + 3
            while time.monotonic() < end:
                let_have(proxy, whole + choose.choice([0, 0, 100_000, MB, 4 * MB]))
                time.sleep(choose.uniform(0, 0.2))
                let_have(proxy, resource.RLIM_INFINITY)
                time.sleep(choose.uniform(0, 0.05))
            is_over.set()

        def reader(number):
            mine = random.Random(seed + number)

            def read():
                while not is_over.is_set():
                    with Client(port=proxy.port) as client:
                        for path in mine.choices(list(rights), k=mine.randrange(1, 8)):
                            heard = client.reply_to(proxy.request(path))
                            with lock:
                                lack.count(heard, rights[path], f"the reply for {path[:9]}")
                            if heard == NOTHING:
                                break

            return read

        equal(together([squeeze, *(reader(number) for number in range(8))]), [], f"failures, with seed {seed}")
        for path, right in rights.items():
            with Client(port=proxy.port) as client:
                equal(client.reply_to(proxy.request(path)), right, f"the reply for {path[:9]} once it is over, with seed {seed}")
    return ", ".join(f"{count} {told}" for told, count in lack.told.items())


@case
def with_few_handles_who_finds_none_is_told_502_or_waits_and_all_are_served_once_others_leave(world):
    with world.anew() as proxy:
        proxy.stop()
        equal(proxy.launch("ulimit -n 60"), None, "why it does not listen")
        proxy.origin.on("/a", Answer(plain(b"hello")))
        clients = [Client(port=proxy.port) for _ in range(100)]
        for client in clients:
            client.say(proxy.request("/a"))
        time.sleep(1.5)
        told = [client.hear_reply() for client in clients if has_news(client)]
        holds(all(heard in (passed(b"hello"), BAD_GATEWAY) for heard in told), f"the body or 502 in place of {set(told)}")
        holds(0 < len(told) < len(clients), f"some that are answered, and some that wait ({len(told)})")
        for client in clients:
            client.socket.close()


# ---- a disk that fills up

SIZES = [5, 4_096, 20_000, 65_537, 100_000, 200_000, 300_000, 400_000] * 3


@case
def a_file_system_that_fills_up_under_load_is_seen_by_no_client(world):
    seed = random.randrange(1 << 32)
    with small("2m") as place, world.anew(f"diskCacheRoot={place}/cache", "diskRun=4") as proxy:
        other = pathlib.Path(place) / "other"
        bodies = serve_all(proxy, SIZES)
        whole = dict.fromkeys(bodies, 0)

        def fill_and_free():
            # another program takes what is left, and gives it back
            for _time in range(3):
                time.sleep(0.4)
                whole.update((path, len(body)) for path, body in bodies.items() if extent_of(proxy, path) == len(body))
                with contextlib.suppress(OSError), open(other, "wb", buffering=0) as file:
                    while file.write(bytes(4_096)):
                        pass
                time.sleep(0.2)
                other.unlink()
            time.sleep(0.5)

        read_during(fill_and_free, proxy, bodies, seed)
        proxy.stop()
        holds(any(whole.values()), "bodies that were kept whole before the disk was full")
        extents = expect_kept(proxy, bodies, whole)
        holds(0 < sum(extents.values()) < 2 * MB, f"some bytes that are kept, and not all ({sum(extents.values())})")
        holds(called("mount", "-o", "remount,size=16m", place), "more room")
        # behind this start no name is closed
        read_during(lambda: time.sleep(0.5), proxy, bodies, seed)
        for path, body in bodies.items():
            equal(body_of(said(proxy, path)[0]), body, f"the body of {path}")
        deadline = time.monotonic() + 10
        while any(extent_of(proxy, path) < len(body) for path, body in bodies.items()):
            holds(time.monotonic() < deadline, "all in the folder, once there is room")
            time.sleep(0.05)
        return f"{sum(extents.values())} bytes kept of {sum(map(len, bodies.values()))}"


@case
def a_device_whose_blocks_run_out_is_seen_by_no_client(world):
    seed = random.randrange(1 << 32)
    with on_a_device_that_runs_out("6m") as (below, folder):
        root = pathlib.Path(folder) / "cache"
        with world.anew(f"diskCacheRoot={root}", "diskRun=4") as proxy:
            bodies = serve_all(proxy, SIZES * 2)
            read_during(lambda: time.sleep(2), proxy, bodies, seed)
            proxy.stop()
            # what the device took is all that counts from here on
            holds(called("umount", folder), "it is mounted no more")
            holds(called("mount", "-o", "remount,size=64m", below), "a device with room")
            with mounted("-o", "loop", os.path.join(below, "image")) as again:
                files = entries(pathlib.Path(again) / "cache").values()
                for extent, data in files:
                    holds(any(body.startswith(data) for body in bodies.values()), f"{extent} bytes of a body that was sent")
            proxy.words = ()
            proxy.start()
        kept, whole = sum(extent for extent, _ in files), sum(map(len, bodies.values()))
        holds(0 < kept < whole, f"some bytes on the device, and not all {whole}, in place of {kept}")
        return f"{kept} bytes kept of {whole}"


# ---- files that go away


def replaced_by_a_folder(file):
    file.unlink()
    file.mkdir()


def replaced_by_a_pipe(file):
    file.unlink()
    os.mkfifo(file)


def replaced_by_a_link(file):
    file.unlink()
    file.symlink_to("nowhere/at/all")


# What is done to a file.
WAYS = {
    "it is removed": lambda file: file.unlink(),
    "it is moved": lambda file: file.rename(file.with_name("aside." + file.name)),
    "it is emptied": lambda file: os.truncate(file, 0),
    "it is cut in its head": lambda file: os.truncate(file, 100),
    "it is cut in its gates": lambda file: os.truncate(file, GATES_AT + 1),
    "it is cut in its body": lambda file: os.truncate(file, 12_288 + 50_000),
    "a short file replaces it": lambda file: file.write_bytes(b"not an entry"),
    "a folder replaces it": replaced_by_a_folder,
    "a pipe replaces it": replaced_by_a_pipe,
    "a link to nowhere replaces it": replaced_by_a_link,
}
# Less than what is kept on the disk, so that it is read back.
SMALL_POOL = ("chunkLowMark=512", "chunkHighMark=512", "chunkCriticalMark=1024")
LONG = 500_000


def kept_on_disk(proxy, paths, length=LONG):
    """The origin has a body of this length on each of these paths, and the program keeps them, and has them in its memory no
    more: it asked for nothing yet."""
    bodies = {path: noise(length, 97 * number) for number, path in enumerate(paths)}
    for path, body in bodies.items():
        keep(proxy, path, body)
    proxy.restart()
    proxy.origin.clear()
    return bodies


@case
def files_that_go_away_beneath_it_are_seen_by_no_client(world):
    # of each way one file that was read before, and maybe is held open, and one that was not
    paths = {f"/{number}/{state}": way for number, way in enumerate(WAYS) for state in ("read", "new")}
    with world.anew(*SMALL_POOL) as proxy:
        bodies = kept_on_disk(proxy, paths)
        for path, way in paths.items():
            if path.endswith("read"):
                equal(body_of(said(proxy, path, b"Range: bytes=0-99")[0]), bodies[path][:100], f"a part of {path}")
            WAYS[way](file_of(proxy, path))
        for time_of in ("first", "second"):
            for path, way in paths.items():
                equal(body_of(said(proxy, path)[0]), bodies[path], f"the body of {path}, where {way}, the {time_of} time")
        proxy.restart()
        for path, way in paths.items():
            equal(body_of(said(proxy, path)[0]), bodies[path], f"the body of {path}, where {way}, in the next life")


@case
def a_file_that_goes_away_while_it_is_read_costs_its_reader_nothing(world):
    ways = ["it is removed", "it is cut in its body"]
    # more than the system holds for a client that takes little
    length = 7 * MB
    with world.anew(*SMALL_POOL) as proxy:
        bodies = kept_on_disk(proxy, [f"/{number}" for number in range(len(ways))], length)
        for (path, body), way in zip(bodies.items(), ways):
            with Client(port=proxy.port) as client:
                client.socket.setsockopt(socket.SOL_SOCKET, socket.SO_RCVBUF, 4_096)
                client.say(proxy.last_request(path))
                client.hear_until(b"\r\n\r\n")
                front = client.hear(10_000)
                WAYS[way](file_of(proxy, path))
                client.socket.setsockopt(socket.SOL_SOCKET, socket.SO_RCVBUF, MB)
                equal(front + client.hear_all(), body, f"the body of {path}, where {way} while it is read")
        counts = [len(asked_for(proxy, path)) for path in bodies]
        # a handle goes on where its name is gone, but not where the bytes are
        equal(counts, [0, 1], "asks of the origin")


@case
def a_folder_that_is_removed_is_left_with_one_line(world):
    with world.anew(*SMALL_POOL) as proxy:
        bodies = kept_on_disk(proxy, [f"/{number}" for number in range(6)])
        for path, body in bodies.items():
            equal(body_of(said(proxy, path, b"Range: bytes=0-99")[0]), body[:100], f"a part of {path}")
        shutil.rmtree(cache_of(proxy))
        for path, body in bodies.items():
            equal(body_of(said(proxy, path)[0]), body, f"the body of {path}")
        time.sleep(2.2)
        for path, body in bodies.items():
            equal(body_of(said(proxy, path)[0]), body, f"the body of {path}, which is not kept")
        equal(proxy.printed(), MOVED, "output and complaints, once")
        holds(not cache_of(proxy).exists(), "no folder made anew")
        # the next start makes it
        proxy.restart()
        keep(proxy, "/0", bodies["/0"])
