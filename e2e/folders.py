"""A folder that fails, is full, or holds what nobody wrote: a line or a closed name comes of it, never a wrong byte, and never
a start that takes long."""

import contextlib
import os
import pathlib
import re
import resource
import shutil
import subprocess
import tempfile
import time

from harness import TOOL_SECONDS, Skipped, case, equal, holds, need
from kills import CHUNK, GATES_AT, KEEPER, file_name, found, kept_in, pattern

LENGTH = 20_000
FAILED = (5, b"the disk failed\n")
REFUSED = (4, b"cannot use the folder\n")


def kept(*words, **options):
    """Runs the keeper to its end. Answers its status, and what it printed of its failure."""
    ran = subprocess.run([KEEPER, *map(str, words)], stdout=subprocess.PIPE, stderr=subprocess.PIPE, timeout=TOOL_SECONDS, **options)
    return ran.returncode, ran.stderr


def sound(folder, count):
    """What the program finds, each byte of which is its body's: by the program, and by the format alone."""
    entries = found(folder, count)
    for number, extent in entries.items():
        equal(kept_in(pathlib.Path(folder) / file_name(number)), (extent, pattern(number, extent)), f"entry {number}")
    return entries


def there(folder, number):
    return (pathlib.Path(folder) / file_name(number)).exists()


def head(number, length, fields="", body_at=12288):
    """The text of an entry's head."""
    return (
        f'HTTP/1.1 200 OK\r\netag: "x"\r\n{fields}date: Thu, 01 Jan 1970 00:00:00 GMT\r\n'
        f"X-Polipo-Location: http://h/{number}\r\nX-Polipo-Date: 0\r\nX-Polipo-Age: 0\r\n"
        f"X-Polipo-Length: {length}\r\nX-Polipo-Body-Offset: {body_at}\r\n\r\n"
    ).encode()


def entry(text, gates, body, body_at=12288):
    """A file of this head, these gates and this body."""
    return text.ljust(GATES_AT, b"\0") + gates.ljust(body_at - GATES_AT, b"\0") + body


def whole_entry(number, length, fields=""):
    return entry(head(number, length, fields), b"\1" * -(-length // CHUNK), pattern(number, length))


# ---- a file system of its own


def called(*words):
    return subprocess.run(words, capture_output=True, timeout=TOOL_SECONDS).returncode == 0


@contextlib.contextmanager
def mounted(*words):
    """A folder on a file system that is mounted by these words. Not everybody may mount one."""
    with tempfile.TemporaryDirectory() as place:
        if os.geteuid() != 0 or not called("mount", *words, place):
            raise Skipped("leave to mount a file system")
        try:
            yield place
        finally:
            called("umount", place)


@contextlib.contextmanager
def small(size, *more):
    """A file system in memory of this size."""
    options = ",".join((f"size={size}", *more))
    with mounted("-t", "tmpfs", "-o", options, "none") as place:
        yield place


@contextlib.contextmanager
def on_a_device_that_runs_out(size):
    """A file system on a device that takes only so many bytes, though it has room for more by its own word: where the device's
    bytes stand, and where the file system does."""
    with small(size) as below, tempfile.TemporaryDirectory() as place:
        image = os.path.join(below, "image")
        with open(image, "wb") as file:
            file.truncate(1 << 26)
        if not called("mkfs.ext4", "-q", "-F", "-J", "size=4", "-E", "lazy_itable_init=1,nodiscard", image):
            raise Skipped("mkfs.ext4")
        if not called("mount", "-o", "loop", image, place):
            raise Skipped("a loop device")
        try:
            yield below, place
        finally:
            called("umount", place)


# ---- what is called, and in which order

CALL = re.compile(r"^(?:\[pid +\d+\] |\d+ +)?(\w+)\((.*)\) += (-?\d+)")


# What traces a program's calls, as far as they change files, into a file whose name follows.
TRACE = ["strace", "-f", "-s", "64", "-e", "trace=openat,write,pread64,pwrite64,fsync,fdatasync,rename,unlink,close", "-o"]


def calls_of(folder, *words):
    """The calls by which the keeper changes files."""
    need("strace")
    with tempfile.NamedTemporaryFile() as trace:
        ran = subprocess.run([*TRACE, trace.name, KEEPER, *map(str, words)], capture_output=True, timeout=TOOL_SECONDS)
        equal(ran.returncode, 0, "its status")
        return [call for call in calls_in(trace.read().decode(), folder) if call != "read"]


def calls_in(text, folder):
    """The calls of a trace by which files of the folder are changed: what is done, to which handle, and where; handles by what
    they were opened for."""
    handles, calls = {"1": "output"}, []
    for line in text.splitlines():
        if not (match := CALL.match(line)):
            continue
        call, told, result = match.groups()
        first = told.split(", ")[0]
        if call == "openat":
            path = told.split('"')[1]
            if path.startswith(str(folder)):
                handles[result] = "draft" if path.endswith("/draft") else "folder" if path.rstrip("/") == str(folder) else path
                if handles[result] == "draft":
                    calls.append("open draft")
        elif call in ("rename", "unlink"):
            calls.append(call)
        elif first in handles:
            if call == "close":
                if handles.pop(first) not in ("folder", "output"):
                    calls.append("close")
            elif call == "pwrite64":
                size, at = told.rsplit(", ", 2)[1:]
                calls.append(f"write {handles[first]} {size} at {at}")
            elif call == "write" and handles[first] == "output":
                calls.append("print")
            elif call == "write":
                calls.append(f"write {handles[first]} {result}")
            elif call == "pread64":
                calls.append("read")
            else:
                calls.append(f"sync {handles[first]}")
    return calls


OPENED = ["sync folder"]
PUBLISHED = ["sync draft", "rename", "sync folder"]


@case
def what_was_written_is_synced_by_the_handle_that_wrote_it_and_in_order(world):
    with tempfile.TemporaryDirectory() as folder:
        # The draft becomes the entry, and its handle writes on.
        sealed = [
            [f"write draft 4096 at {12288 + CHUNK * i}", "sync draft", f"write draft 1 at {8192 + i}", "sync draft", "print"]
            for i in range(2)
        ]
        wanted = [*OPENED, "open draft", "write draft 12288", *PUBLISHED, *sealed[0], *sealed[1], "close"]
        equal(calls_of(folder, "fill", folder, 1, 2 * CHUNK), wanted, "the calls")


@case
def a_run_is_sealed_by_two_syncs_and_a_small_body_is_published_whole_by_two(world):
    with tempfile.TemporaryDirectory() as folder:
        runs = [
            ["write draft 65536 at 12288", "sync draft", "write draft 16 at 8192", "sync draft", "print"],
            ["write draft 100 at 77824", "sync draft", "write draft 1 at 8208", "sync draft", "print"],
        ]
        wanted = [*OPENED, "open draft", "write draft 12288", *PUBLISHED, *runs[0], *runs[1], "close"]
        equal(calls_of(folder, "fill", folder, 1, 16 * CHUNK + 100, 16), wanted, "the calls")
    with tempfile.TemporaryDirectory() as folder:
        wanted = [*OPENED, "open draft", f"write draft {12288 + 16 * CHUNK}", *PUBLISHED, "print", "close"]
        equal(calls_of(folder, "fill", folder, 1, 16 * CHUNK, 16), wanted, "the calls")


def failing(call, error, folder, *words):
    """The keeper, whose calls of this kind all fail. Answers its status and what it printed of its failure."""
    need("strace")
    with tempfile.NamedTemporaryFile() as trace:
        traced = ["strace", "-f", "-o", trace.name, "-e", f"trace={call}", "-e", f"inject={call}:error={error}"]
        ran = subprocess.run([*traced, KEEPER, *map(str, words)], capture_output=True, timeout=TOOL_SECONDS)
    return ran.returncode, ran.stderr


@case
def a_folder_that_cannot_be_synced_is_refused_at_the_start(world):
    with tempfile.TemporaryDirectory() as folder:
        # Folders are synced by fsync, files by fdatasync.
        equal(failing("fsync", "EINVAL", folder, "fill", folder, 2, LENGTH), REFUSED, "status and output")
        equal(found(folder, 2), {}, "the entries")


@case
def a_sync_that_fails_acknowledges_nothing(world):
    with tempfile.TemporaryDirectory() as folder:
        equal(failing("fdatasync", "EIO", folder, "fill", folder, 2, LENGTH), FAILED, "status and output")
        equal(found(folder, 2), {}, "the entries")
        equal(kept("fill", folder, 2, LENGTH), (0, b""), "the next life")
        equal(sound(folder, 2), {0: LENGTH, 1: LENGTH}, "the entries")


@case
def a_folder_below_one_that_may_be_passed_and_not_read_is_used(world):
    nobody = 65534 if os.geteuid() == 0 else None
    with tempfile.TemporaryDirectory() as above:
        program, folder = shutil.copy(KEEPER, above), os.path.join(above, "cache")
        os.mkdir(folder, 0o700)
        if nobody:
            os.chown(folder, nobody, nobody)
        os.chmod(above, 0o311)
        try:
            equal(kept("fill", folder, 2, LENGTH, executable=program, user=nobody), (0, b""), "status and output")
        finally:
            os.chmod(above, 0o700)
        equal(sound(folder, 2), {0: LENGTH, 1: LENGTH}, "the entries")
        holds(os.stat(os.path.join(folder, file_name(0))).st_mode & 0o777 == 0o600, "files for their user alone")


# ---- what runs out


def fills_until_it_fails(folder, count):
    """Fills a folder in which not all has room, twice. Answers what is found."""
    for _ in range(2):
        equal(kept("fill", folder, count, LENGTH), FAILED, "status and output")
        entries = sound(folder, count)
    return entries


@case
def a_full_disk_keeps_what_it_has_and_goes_on_where_there_is_room(world):
    with small("256k") as folder:
        entries = fills_until_it_fails(folder, 20)
        holds(0 < len(entries) < 20, "some entries, and not all")
        holds(called("mount", "-o", "remount,size=4m", folder), "more room")
        equal(kept("fill", folder, 20, LENGTH), (0, b""), "status and output")
        equal(sound(folder, 20), {number: LENGTH for number in range(20)}, "the entries")


@case
def a_disk_without_inodes_keeps_what_it_has(world):
    with small("4m", "nr_inodes=6") as folder:
        entries = fills_until_it_fails(folder, 20)
        holds(0 < len(entries) < 20, "some entries, and not all")


@case
def of_a_folder_that_may_not_be_written_what_is_there_is_found(world):
    with small("4m") as folder:
        equal(kept("fill", folder, 3, LENGTH), (0, b""), "status and output")
        holds(called("mount", "-o", "remount,ro", folder), "a file system that is not written")
        equal(kept("fill", folder, 5, LENGTH), FAILED, "status and output")
        equal(sound(folder, 5), {number: LENGTH for number in range(3)}, "the entries")


@case
def with_few_handles_a_line_says_so_and_what_is_kept_is_right(world):
    statuses = set()
    with tempfile.TemporaryDirectory() as folder:
        for handles in range(3, 12):

            def limited():
                resource.setrlimit(resource.RLIMIT_NOFILE, (handles, handles))

            status, line = kept("fill", folder, 3, LENGTH, preexec_fn=limited)
            holds((status == 0) == (line == b""), f"a line where it fails ({status}, {line})")
            statuses.add(status)
            sound(folder, 3)
        holds(0 in statuses and len(statuses) > 1, f"some that fail, and some that do not ({statuses})")
        equal(sound(folder, 3), {number: LENGTH for number in range(3)}, "the entries")


@case
def on_a_device_whose_blocks_run_out_no_entry_vouches_for_bytes_that_are_not_there(world):
    with on_a_device_that_runs_out("6m") as (below, folder):
        equal(kept("fill", folder, 200, LENGTH), FAILED, "status and output")
        # What the device took is all that counts from here on.
        holds(called("umount", folder), "it is mounted no more")
        holds(called("mount", "-o", "remount,size=64m", below), "a device with room")
        with mounted("-o", "loop", os.path.join(below, "image")) as again:
            extents = {number: kept_in(pathlib.Path(again) / file_name(number)) for number in range(200) if there(again, number)}
        for number, (extent, body) in extents.items():
            equal(body, pattern(number, extent), f"entry {number}")
        holds(0 < len(extents) < 200, "some entries, and not all")
        return f"{len(extents)} entries"


# ---- what nobody wrote


@case
def a_link_a_folder_and_a_pipe_under_the_names_of_entries_are_no_entries(world):
    with tempfile.TemporaryDirectory() as outside, tempfile.TemporaryDirectory() as folder:
        kept_outside = pathlib.Path(outside) / "kept"
        kept_outside.write_bytes(whole_entry(0, LENGTH))
        names = [pathlib.Path(folder) / file_name(number) for number in range(4)]
        names[0].symlink_to(kept_outside)
        names[1].mkdir()
        os.mkfifo(names[2])
        names[3].symlink_to(pathlib.Path(outside) / "nothing")
        equal(found(folder, 4), {}, "the entries")
        holds(names[0].is_symlink() and names[1].is_dir() and names[2].is_fifo(), "they are left as they are")
        # Where its name is needed a link or a pipe gives way, and what it points to stays.
        equal(kept("fill", folder, 1, LENGTH), (0, b""), "over a link")
        equal(kept_outside.read_bytes(), whole_entry(0, LENGTH), "what it points to")
        equal(kept("fill", folder, 2, LENGTH), FAILED, "over a folder")
        names[1].rmdir()
        equal(kept("fill", folder, 4, LENGTH), (0, b""), "over a pipe")
        equal(sound(folder, 4), {number: LENGTH for number in range(4)}, "the entries")


@case
def an_entry_with_two_lengths_in_its_fields_is_none(world):
    fields = ["", "content-length: 20000\r\n", "content-length: 3\r\n", "content-length: 3\r\ncontent-length: 4\r\n"]
    with tempfile.TemporaryDirectory() as folder:
        for number, text in enumerate(fields):
            (pathlib.Path(folder) / file_name(number)).write_bytes(whole_entry(number, LENGTH, text))
        equal(sound(folder, len(fields)), {0: LENGTH}, "the entries")


@case
def a_bit_that_flips_in_the_head_makes_no_byte_wrong(world):
    length, counts = 9_000, {"found": 0, "none": 0}
    text = head(1000, length)
    places = [(at, bit) for at in range(len(text)) for bit in range(8)]
    with tempfile.TemporaryDirectory() as folder:
        for number, (at, bit) in enumerate(places, start=1000):
            flipped = bytearray(whole_entry(number, length))
            flipped[at] ^= 1 << bit
            (pathlib.Path(folder) / file_name(number)).write_bytes(flipped)
        entries = found(folder, 1000 + len(places))
        for number in range(1000, 1000 + len(places)):
            if number in entries:
                body = (pathlib.Path(folder) / file_name(number)).read_bytes()[12288:]
                equal(body[: entries[number]], pattern(number, entries[number]), f"flip {places[number - 1000]}")
                equal(entries[number], length, f"the length behind flip {places[number - 1000]}")
            counts["found" if number in entries else "none"] += 1
    return f"of {len(places)} flips {counts['found']} make an entry with another text"


@case
def the_stray_gates_of_the_longest_body_are_closed_in_time_and_with_one_sync(world):
    length, chunks = 1 << 26, 1 << 14
    with tempfile.TemporaryDirectory() as folder:
        path = pathlib.Path(folder) / file_name(0)
        with open(path, "wb") as file:
            file.write(head(0, length, body_at=24576).ljust(GATES_AT, b"\0") + b"\1\0" * (chunks // 2))
            file.seek(24576)
            file.write(pattern(0, CHUNK))
            file.truncate(24576 + length)
        start = time.monotonic()
        need("strace")
        with tempfile.NamedTemporaryFile() as trace:
            words = ["strace", "-f", "-c", "-o", trace.name, "-e", "trace=pwrite64,fdatasync", KEEPER, "list", folder, "1"]
            said = subprocess.run(words, capture_output=True, timeout=TOOL_SECONDS).stdout
            table = [line.split() for line in trace.read().decode().splitlines()]
        counts = {line[-1]: int(line[3]) for line in table if len(line) >= 5 and line[3].isdigit()}
        equal(said, b"found 0 4096\n", "what is found")
        # One sync as the file is listed, and one behind all that is closed.
        equal((counts["pwrite64"], counts["fdatasync"]), (chunks // 2 - 1, 2), "writes and syncs")
        with open(path, "rb") as file:
            file.seek(GATES_AT)
            equal(file.read(chunks), b"\1".ljust(chunks, b"\0"), "the gates")
        return f"{chunks // 2 - 1} gates in {time.monotonic() - start:.1f} s"
