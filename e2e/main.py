"""Runs the end-to-end tests over one program: main.py PROGRAM [WORDS OF A SENTENCE].

Each subject is a process of its own, with a program and an origin of its own, and some run side by side. What they print stands
in the order of SUBJECTS all the same.
"""

import concurrent.futures
import importlib
import json
import os
import pathlib
import re
import signal
import subprocess
import sys

import harness
from network import raise_loopback

# In this order they are printed.
SUBJECTS = [
    "passing",
    "methods",
    "framings",
    "connections",
    "refusals",
    "smuggling",
    "broken_origins",
    "useless_answers",
    "hostile_clients",
    "many_clients",
    "hardship",
    "failing_calls",
    "random_exchanges",
    "tools",
    "packages",
    "words",
    "household",
    "access",
    "kills",
    "folders",
    "caching",
    "keeping",
    "one_answer",
    "hostile_origins",
    "judged",
    "real_origins",
    "real_hosts",
    "costs",
    "idling",
    "clocks",
    "browsing",
    "readme",
]
# These take longest, and are begun first.
LONGEST = ["hostile_origins", "keeping", "hardship", "clocks", "packages", "idling", "real_hosts"]
# Most of them wait most of the time.
AT_ONCE = 5


def speaks_of(subject, wanted):
    """Whether a sentence of this subject has this in it: seen without running it."""
    text = pathlib.Path(__file__).with_name(f"{subject}.py").read_text()
    return any(wanted in name.replace("_", " ") for name in re.findall(r"^def (\w+)\(world\)", text, re.MULTILINE))


class Subjects:
    """The subjects that run, each a process, and what they say."""

    def __init__(self, program, wanted):
        self.program, self.wanted = program, wanted
        self.is_over = False
        self.running = set()

    def run(self, subject):
        """What a subject says of its tests, and how it ends."""
        words = [sys.executable, "-B", __file__, "--subject", subject, self.program, self.wanted]
        if self.is_over or not speaks_of(subject, self.wanted):
            return [], None
        with subprocess.Popen(words, stdin=subprocess.DEVNULL, stdout=subprocess.PIPE, stderr=subprocess.PIPE) as process:
            self.running.add(process)
            said, complaint = process.communicate()
            self.running.discard(process)
        end = f"it ended with {process.returncode}: {complaint.decode(errors='replace')[-2_000:]}" if process.returncode else None
        return [json.loads(line) for line in said.splitlines()], end

    def stop(self):
        self.is_over = True
        for process in list(self.running):
            process.terminate()


def run_all(program, wanted):
    """Runs all subjects, and prints each test's verdict. Answers how many passed and failed."""
    counts = {"passed": 0, "FAILED": 0, "skipped": 0}
    subjects = Subjects(program, wanted)
    with concurrent.futures.ThreadPoolExecutor(AT_ONCE) as pool:
        first = LONGEST + [subject for subject in SUBJECTS if subject not in LONGEST]
        runs = {subject: pool.submit(subjects.run, subject) for subject in first}
        try:
            for subject in SUBJECTS:
                verdicts, end = runs[subject].result()
                for verdict, sentence, beside in verdicts + ([["FAILED", subject, end]] if end else []):
                    counts[verdict] += 1
                    print(f"{verdict}: {sentence}: {beside}", flush=True)
        finally:
            subjects.stop()
    if not any(counts.values()):
        print(f"FAILED: no test has {wanted!r} in its sentence")
        return 0, 1
    if counts["skipped"]:
        print(f"{counts['skipped']} skipped")
    return counts["passed"], counts["FAILED"]


def run_subject(subject, program, wanted):
    """Runs the tests of one subject, and says each verdict in a line."""
    importlib.import_module(subject)
    cases = harness.cases(subject, wanted)
    if not cases:
        return 0
    from world import World

    world = World(program)
    try:
        for verdict in harness.run_each(cases, world):
            print(json.dumps(verdict), flush=True)
    finally:
        world.stop()
    return 0


def main():
    signal.signal(signal.SIGTERM, lambda *_: sys.exit(1))
    raise_loopback()
    if sys.argv[1] == "--subject":
        return run_subject(*sys.argv[2:])
    program, wanted = sys.argv[1], " ".join(sys.argv[2:])
    if not os.access(program, os.X_OK):
        print(f"FAILED: there is no program {program}")
        print("0 passed, 1 failed")
        return 1
    passed, failed = run_all(program, wanted)
    print(f"{passed} passed, {failed} failed")
    return int(failed > 0)


if __name__ == "__main__":
    sys.exit(main())
