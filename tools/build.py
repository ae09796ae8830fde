"""Builds the program where its sources are other than those of the last build, and shows how far it is.

build.py          proves each crate that the program stands on, and builds it
build.py stamp    puts on record that what stands in out/ was built of the sources as they are (for the gate)
"""

import collections
import contextlib
import hashlib
import os
import pathlib
import re
import shutil
import signal
import subprocess
import sys
import tempfile
import threading
import time

TOP = pathlib.Path(__file__).resolve().parent.parent
PROGRAM = TOP / "crates/polipo/out/polipo"
STAMP = TOP / "crates/polipo/out/built"
# Where the copy stands in which the crates are proved.
ROOM = pathlib.Path(tempfile.gettempdir()) / f"polipo-{os.getuid()}-{hashlib.sha256(bytes(TOP)).hexdigest()[:16]}"


def crates():
    """Each crate of crates.txt, with the crates of this repository that it stands on."""
    lines = (line.split("#")[0].split(":") for line in (TOP / "crates.txt").read_text().splitlines())
    listed = {line[0].split()[0]: line[1].split() for line in lines if len(line) == 2}
    return {name: [dep for dep in deps if dep in listed] for name, deps in listed.items()}


def below(name, listed):
    """A crate, and all that it stands on."""
    found, wanted = set(), [name]
    while wanted:
        name = wanted.pop()
        if name not in found:
            found.add(name)
            wanted += listed[name]
    return found


def sources(names):
    """The files that these crates are proved of."""
    parts = (TOP / "crates" / name / part for name in names for part in ("src", "specs", "proofs"))
    return [file for part in parts for file in part.rglob("*") if file.is_file()]


def copied(names, room, without=()):
    """Copies these crates into a folder, as a repository that has no other; what was proved there stays."""
    room.mkdir(parents=True, exist_ok=True)
    lines = (TOP / "crates.txt").read_text().splitlines(True)
    (room / "crates.txt").write_text("".join(line for line in lines if line.split(":")[0].strip() in names))
    shutil.copy(TOP / "HANDLES", room)
    for name in names:
        for part in (room / "crates" / name).glob("*"):
            if part.is_dir() and part.name != "out":
                shutil.rmtree(part)
        shutil.copytree(TOP / "crates" / name, room / "crates" / name, ignore=shutil.ignore_patterns("out", *without), dirs_exist_ok=True)


def checksum(names):
    """Of the sources, and of the toolchain that proves them."""
    files = [TOP / "crates.txt", TOP / "HANDLES", *sources(names)]
    total = hashlib.sha256(subprocess.run(["rt", "version"], capture_output=True, check=False).stdout)
    for file in sorted(files):
        total.update(str(file.relative_to(TOP)).encode() + b"\0" + file.read_bytes() + b"\0")
    return total.hexdigest()


class Progress:
    """How far the build is, on standard error: on a terminal one line that changes, else a line for each crate."""

    def __init__(self, of):
        self.of, self.crates, self.functions, self.last, self.begun = of, 0, 0, "", time.monotonic()
        self.is_over = threading.Event()
        self.redraws = sys.stderr.isatty()

    def line(self):
        minutes, seconds = divmod(int(time.monotonic() - self.begun), 60)
        return f"polipo: {self.crates} of {self.of} crates proved{self.last}, {self.functions} functions, {minutes} min {seconds:02} s"

    def show(self):
        sys.stderr.write(f"\r\033[K{self.line()}" if self.redraws else f"{self.line()}\n")
        sys.stderr.flush()

    def tick(self):
        while not self.is_over.wait(1):
            self.show()

    def proved(self, name, functions):
        self.crates, self.functions, self.last = self.crates + 1, self.functions + functions, f" ({name})"
        self.show()

    def __enter__(self):
        if self.redraws:
            threading.Thread(target=self.tick, daemon=True).start()
        self.show()
        return self

    def __exit__(self, *_):
        self.is_over.set()
        if self.redraws:
            sys.stderr.write("\n")


def follow(rt, progress):
    """Shows which crates are proved, as the run tells of them; gives the last lines that it told."""
    told, functions = collections.deque(maxlen=40), 0
    for line in rt.stdout:
        told.append(line)
        if counted := re.match(r"logic=proved functions=(\d+)", line):
            functions = int(counted[1])
        elif proved := re.match(r"rt: (\w+) (?:proved|is kept)", line):
            progress.proved(proved[1], functions)
            functions = 0
    return "".join(told)


def take(rt, built, is_taken):
    """Ends the run once the program is linked, and notes that. What would come is the gate's: what the program can call of the system, the
    program by the second compiler, and what both of them print."""
    last = None
    while rt.poll() is None:
        with contextlib.suppress(FileNotFoundError, ProcessLookupError):
            found = built.stat()
            if found == last and os.access(built, os.X_OK):
                is_taken.set()
                return os.killpg(rt.pid, signal.SIGTERM)
            last = found
        time.sleep(0.5)


def build(names):
    """Proves and builds as the gate does, in a copy that has the crates of the program alone, without wrong bodies; gives the last lines
    of what went wrong, or none. rt keeps what it proved, and takes it where that is asked for again."""
    PROGRAM.unlink(missing_ok=True)
    copied(names, ROOM, without=("must-fail", "wrong"))
    built = ROOM / "crates/polipo/out/polipo"
    built.unlink(missing_ok=True)
    is_taken = threading.Event()
    with Progress(len(names)) as progress:
        rt = subprocess.Popen(["rt", "ci"], cwd=ROOM, stdout=subprocess.PIPE, stderr=subprocess.STDOUT, text=True, errors="replace", start_new_session=True)
        threading.Thread(target=take, args=(rt, built, is_taken), daemon=True).start()
        try:
            told = follow(rt, progress)
        finally:
            if rt.poll() is None:
                with contextlib.suppress(ProcessLookupError):
                    os.killpg(rt.pid, signal.SIGTERM)
        if is_taken.is_set() and progress.crates < len(names):
            progress.proved("polipo", 0)
    if (rt.wait() and not is_taken.is_set()) or not built.exists():
        return told or "rt ended without a word\n"
    PROGRAM.parent.mkdir(exist_ok=True)
    shutil.copy(built, PROGRAM)
    shutil.rmtree(ROOM, ignore_errors=True)
    return ""


def main():
    names = below("polipo", crates())
    total = checksum(names)
    if sys.argv[1:] == ["stamp"]:
        STAMP.write_text(total)
        return 0
    if PROGRAM.exists() and STAMP.exists() and STAMP.read_text() == total:
        return 0
    try:
        tail = build(names)
    except KeyboardInterrupt:
        print("polipo: interrupted; the next build goes on from here", file=sys.stderr)
        return 1
    if tail:
        print("polipo: it is not built:", tail, sep="\n", end="", file=sys.stderr)
        return 1
    STAMP.write_text(total)
    return 0


if __name__ == "__main__":
    sys.exit(main())
