"""What is kept in a folder outlives the program that keeps it: it is killed at random moments, and started again."""

import hashlib
import os
import pathlib
import random
import select
import signal
import subprocess
import tempfile
import time

from harness import TOOL_SECONDS, Failed, case, equal, holds

# Keeps bodies of a known pattern in a folder, and prints a line for each extent that is acknowledged.
KEEPER = pathlib.Path(__file__).resolve().parent.parent / "crates/pp_keeper/out/pp_keeper"
CHUNK = 4096
GATES_AT = 8192
# The block and the gates of the longest body.
FRONT = GATES_AT + (1 << 14)
# So many times it is killed at least, in so many folders at most.
KILLS = 10
FOLDERS = 10


def pattern(number, length):
    """The body of the entry with this number."""
    cycle = bytes((number * 31 + offset) % 251 for offset in range(251))
    return (cycle * (length // 251 + 1))[:length]


def file_name(number):
    return hashlib.md5(b"http://h/%d" % number).hexdigest()


def gates_in(front):
    """How much of a body an entry's gates vouch for, and where the body stands: read from the front of its file by the format
    alone."""
    head = front[:GATES_AT].rstrip(b"\0").split(b"\r\n")
    own = dict(line.split(b": ", 1) for line in head[1:] if line)
    length, body_at = int(own[b"X-Polipo-Length"]), int(own[b"X-Polipo-Body-Offset"])
    gates = front[GATES_AT : GATES_AT + -(-length // CHUNK)]
    leading = len(gates) - len(gates.lstrip(b"\1"))
    return min(length, leading * CHUNK), body_at


def kept_in(path):
    """How much of a body an entry's file vouches for, and these bytes."""
    data = path.read_bytes()
    extent, body_at = gates_in(data)
    return extent, data[body_at : body_at + extent]


def extent_in(path):
    """How much of a body an entry's file vouches for, 0 where there is no file: its body is not read."""
    try:
        with open(path, "rb") as file:
            return gates_in(file.read(FRONT))[0]
    except FileNotFoundError:
        return 0


def keeper(*words):
    if not os.access(KEEPER, os.X_OK):
        raise Failed(f"    wanted: a program {KEEPER.name}")
    return subprocess.Popen([KEEPER, *map(str, words)], stdout=subprocess.PIPE, stderr=subprocess.STDOUT)


def lines_until(process, deadline):
    """The whole lines that it printed before this moment, or before its end, and whether it was killed then."""
    text = b""
    while time.monotonic() < deadline:
        ready, _, _ = select.select([process.stdout], [], [], max(0, deadline - time.monotonic()))
        more = os.read(process.stdout.fileno(), 65536) if ready else b""
        if ready and not more:
            break
        text += more
    process.kill()
    text += process.stdout.read()
    process.stdout.close()
    is_killed = process.wait() == -signal.SIGKILL
    return text[: text.rfind(b"\n") + 1].decode().splitlines(), is_killed


def output_of(process):
    """What it prints up to its end, which comes within 15 seconds."""
    try:
        return process.communicate(timeout=TOOL_SECONDS)[0]
    finally:
        process.kill()


def acknowledged(lines, extents):
    """The extents that these lines acknowledge, over those from before."""
    for line in lines:
        word, number, extent = line.split()
        equal(word, "kept", "the program's word")
        extents[int(number)] = int(extent)
    return extents


def found(folder, count):
    """What the program finds in the folder."""
    process = keeper("list", folder, count)
    lines = output_of(process).decode().splitlines()
    equal(process.returncode, 0, "its status")
    equal(len(lines), count, "how many lines it prints")
    sights = [line.split() for line in lines]
    holds(all(sight[0] in ("found", "none") for sight in sights), "no chunk that differs from its body")
    return {int(sight[1]): int(sight[2]) for sight in sights if sight[0] == "found"}


def fill_and_kill(folder, choose, count, length):
    """Starts and kills it until all bodies are kept, and sees each time that nothing was lost. Answers how often it was
    killed."""
    extents, kills = {}, 0
    while extents != {number: length for number in range(count)}:
        process = keeper("fill", folder, count, length)
        lines, is_killed = lines_until(process, time.monotonic() + choose.uniform(0.002, 0.08))
        extents, kills = acknowledged(lines, extents), kills + is_killed
        now = found(folder, count)
        for number, extent in extents.items():
            holds(now.get(number, 0) >= extent, f"entry {number} up to {extent}")
        for number, extent in now.items():
            path = pathlib.Path(folder) / file_name(number)
            equal(kept_in(path), (extent, pattern(number, extent)), f"entry {number}")
        extents = dict(now)
    return kills


@case
def what_was_acknowledged_outlives_kills_at_random_moments(world):
    seed = random.randrange(1 << 32)
    choose, kills = random.Random(seed), 0
    try:
        for _ in range(FOLDERS):
            with tempfile.TemporaryDirectory() as folder:
                kills += fill_and_kill(folder, choose, 6, 300_000)
            if kills >= KILLS:
                return f"{kills} kills"
    except Failed as failure:
        raise Failed(f"{failure}\n    with seed {seed}")
    raise Failed(f"    wanted: {KILLS} kills at least (there were {kills})")


@case
def a_second_program_does_not_share_the_folder(world):
    with tempfile.TemporaryDirectory() as folder:
        first = keeper("fill", folder, 1, 1 << 26)
        try:
            first.stdout.readline()
            second = keeper("list", folder, 1)
            printed = output_of(second)
            equal((second.returncode, printed), (4, b"cannot use the folder\n"), "status and output")
        finally:
            first.kill()
            first.communicate()


@case
def foreign_files_are_left_as_they_are(world):
    with tempfile.TemporaryDirectory() as folder:
        foreign = {
            file_name(0): b"",
            file_name(1): b"12345",
            file_name(2): bytes(20_000),
            file_name(3): random.Random(7).randbytes(20_000),
            "notes.txt": b"not an entry",
        }
        for name, data in foreign.items():
            (pathlib.Path(folder) / name).write_bytes(data)
        equal(found(folder, 4), {}, "the entries")
        for name, data in foreign.items():
            equal((pathlib.Path(folder) / name).read_bytes(), data, name)
