"""Measures entries kept in a folder: disk.py FOLDER."""

import os
import pathlib
import platform
import shutil
import statistics
import subprocess
import sys
import tempfile
import time

KEEPER = pathlib.Path(__file__).resolve().parent.parent / "crates/pp_keeper/out/pp_keeper"
ROUNDS = 3
CHUNK = 4096
# The length of a body that is kept in runs of so many chunks: with each chunk alone, a disk whose syncs take milliseconds needs
# minutes for the longest.
LARGE = {1: 1 << 22, 64: 1 << 26}
SMALL_COUNT = 500
OPENED_COUNT = 10_000
# How often `seek` asks for each entry.
TIMES = 100
# A file system in memory, whose syncs do nothing.
IN_MEMORY = "/dev/shm"
# What a sync takes on a slow disk, in microseconds.
SLOW_SYNC = 5_000


def timed(function):
    start = time.monotonic()
    function()
    return time.monotonic() - start


def keeper(*words, under=()):
    done = subprocess.run([*under, KEEPER, *map(str, words)], stdout=subprocess.DEVNULL)
    if done.returncode != 0:
        raise SystemExit(f"{KEEPER.name} {words}: status {done.returncode}")


def delayed(microseconds):
    """Words before those of a program, each sync of which then takes so much longer."""
    syncs = "fsync,fdatasync"
    return ["strace", "-f", "--seccomp-bpf", "-o", "/dev/null", "-e", f"trace={syncs}", "-e", f"inject={syncs}:delay_exit={microseconds}"]


def sync_folder(folder):
    place = os.open(folder, os.O_RDONLY)
    os.fsync(place)
    os.close(place)


def plain_entry(folder, number, length, run):
    """The operations of one entry: a draft synced and renamed; each run of chunks written and synced, then its gates."""
    draft, name = os.path.join(folder, "draft"), os.path.join(folder, f"{number:032x}")
    chunks = -(-length // CHUNK)
    body_at = 8192 + -(-chunks // CHUNK) * CHUNK
    with open(draft, "wb", buffering=0) as file:
        file.write(bytes(body_at))
        os.fsync(file.fileno())
    os.rename(draft, name)
    sync_folder(folder)
    data = bytes(CHUNK * run)
    place = os.open(name, os.O_RDWR)
    for first in range(0, chunks, run):
        count = min(run, chunks - first)
        os.pwrite(place, data[: min(length - first * CHUNK, count * CHUNK)], body_at + first * CHUNK)
        os.fsync(place)
        os.pwrite(place, b"\1" * count, 8192 + first)
        os.fsync(place)
    os.close(place)


def plain_entries(folder, count, length, run):
    for number in range(count):
        plain_entry(folder, number, length, run)


def syncs(count, length, run):
    """A sync of the draft and one of the folder an entry, and two a run of chunks."""
    return count * (2 + 2 * -(-length // (CHUNK * run)))


def in_new_folder(top, function):
    folder = tempfile.mkdtemp(dir=top)
    try:
        return function(folder)
    finally:
        shutil.rmtree(folder)


def seconds(top, count, length, run):
    """Medians of both, made in turn."""
    ours, plain = [], []
    for _ in range(ROUNDS):
        ours.append(in_new_folder(top, lambda folder: timed(lambda: keeper("fill", folder, count, length, run))))
        plain.append(in_new_folder(top, lambda folder: timed(lambda: plain_entries(folder, count, length, run))))
    return statistics.median(ours), statistics.median(plain)


def memory(folder):
    """The most bytes of memory that the program had once it opened the folder. It prints more than a pipe holds,
    so it has not ended."""
    process = subprocess.Popen([KEEPER, "list", folder, str(OPENED_COUNT)], stdout=subprocess.PIPE, bufsize=0)
    try:
        if not process.stdout.read(1):
            raise SystemExit(f"{KEEPER.name} list: nothing printed, status {process.wait()}")
        status = pathlib.Path(f"/proc/{process.pid}/status").read_text()
    finally:
        process.kill()
        process.communicate()
    return 1024 * next(int(line.split()[1]) for line in status.splitlines() if line.startswith("VmHWM:"))


def median(function):
    return statistics.median(timed(function) for _ in range(ROUNDS))


def opening(top):
    """Seconds and memory that it takes to open a folder of so many entries, and the memory of an empty one."""

    def measure(folder):
        keeper("fill", folder, OPENED_COUNT, 1, 64)
        return median(lambda: keeper("list", folder, 0)), memory(folder)

    return *in_new_folder(top, measure), in_new_folder(top, memory)


def seeking():
    """Seconds that it takes to find each of so many entries once by its key."""

    def measure(folder):
        keeper("fill", folder, OPENED_COUNT, 1, 64)
        return (median(lambda: keeper("seek", folder, OPENED_COUNT)) - median(lambda: keeper("list", folder, 0))) / TIMES

    return in_new_folder(IN_MEMORY, measure)


def calls(top, length, run):
    """How many system calls it takes to keep one body, and how many of them are syncs."""

    def counted(folder):
        table = os.path.join(folder, "calls")
        words = [KEEPER, "fill", os.path.join(folder, "cache"), "1", str(length), str(run)]
        os.mkdir(words[2])
        subprocess.run(["strace", "-f", "-c", "-o", table, *words], stdout=subprocess.DEVNULL, check=True)
        lines = [line.split() for line in pathlib.Path(table).read_text().splitlines()]
        counts = {line[-1]: int(line[3]) for line in lines if len(line) >= 5 and line[3].isdigit()}
        return counts["total"], counts.get("fsync", 0) + counts.get("fdatasync", 0)

    return in_new_folder(top, counted)


def seal(top, run):
    """System calls, syncs and microseconds of one seal of so many chunks: what a long body has more than one of two seals."""
    two = 2 * CHUNK * run
    seals = (LARGE[run] - two) // (CHUNK * run)
    most, least = calls(top, LARGE[run], run), calls(top, two, run)

    def timed_fill(length):
        return in_new_folder(top, lambda folder: timed(lambda: keeper("fill", folder, 1, length, run)))

    spent = statistics.median(timed_fill(LARGE[run]) - timed_fill(two) for _ in range(ROUNDS))
    return (most[0] - least[0]) / seals, (most[1] - least[1]) / seals, 1e6 * spent / seals


def small_entries(top, count, run, under=()):
    """Entries of one chunk a second."""

    def once():
        return in_new_folder(top, lambda folder: timed(lambda: keeper("fill", folder, count, CHUNK, run, under=under)))

    return count / statistics.median(once() for _ in range(ROUNDS))


def report_small_entries(top):
    """A line for each kind of sync: the entries a second that are published whole, and those that are published and then sealed."""
    kinds = [("this disk", top, SMALL_COUNT, ()), ("no time", IN_MEMORY, 20 * SMALL_COUNT, ())]
    if shutil.which("strace"):
        kinds.append((f"{SLOW_SYNC / 1e3:.0f} ms", IN_MEMORY, SMALL_COUNT // 5, delayed(SLOW_SYNC)))
    for label, place, count, under in kinds:
        whole, sealed = (small_entries(place, count, run, under) for run in (64, 1))
        print(f"entries of 4 KiB a second, a sync of {label}: {whole:.0f} published whole, {sealed:.0f} sealed; {whole / sealed:.2f}")


def report(label, ours, plain, amount, count):
    """A line: how much a second in either way, their ratio, and the syncs."""
    print(f"{label:34} {amount / ours:10.1f} {amount / plain:10.1f} {plain / ours:6.2f} {count:7}")


def main():
    top = pathlib.Path(sys.argv[1]).resolve()
    if not os.access(KEEPER, os.X_OK):
        raise SystemExit(f"there is no program {KEEPER}: (cd crates/pp_keeper && rt run)")
    load = f"load {os.getloadavg()[0]:.1f}"
    print(f"{platform.machine()}, {os.cpu_count()} processors, {load}; medians of {ROUNDS} rounds")
    print(f"{'':34} {'kept':>10} {'plain':>10} {'ratio':>6} {'syncs':>7}")
    for run, length in LARGE.items():
        label = f"{length >> 20} MiB, {run} chunk{'s' * (run > 1)} a seal, MB/s"
        report(label, *seconds(top, 1, length, run), length / 1e6, syncs(1, length, run))
    if shutil.which("strace"):
        for run in LARGE:
            count, syncs_of_one, spent = seal(top, run)
            print(f"a seal of {run} chunk{'s' * (run > 1)}: {count:.1f} system calls, {syncs_of_one:.1f} of them syncs; {spent:.0f} microseconds")
    label = "entries of 4 KiB, per second"
    report(label, *seconds(top, SMALL_COUNT, CHUNK, 1), SMALL_COUNT, syncs(SMALL_COUNT, CHUNK, 1))
    report_small_entries(top)
    opened, most, least = opening(top)
    most, least = f"{most / 1e6:.1f} MB", f"{least / 1e6:.1f} MB"
    print(f"a folder of {OPENED_COUNT} entries opened in {opened:.2f} s, with {most}; an empty one with {least}")
    print(f"each of these {OPENED_COUNT} found once by its key in {1e3 * seeking():.2f} ms")


if __name__ == "__main__":
    main()
