"""Tests with a time limit each, and what they print where they fail."""

import os
import shutil
import signal
import subprocess
import threading
import time
import traceback

CASE_SECONDS = 60
# So long a tool may take, on a machine that is busy too.
TOOL_SECONDS = 50
SHOWN_BYTES = 600

_cases = []


class Failed(Exception):
    """What was wanted did not come."""


class Skipped(Exception):
    """A tool is missing."""


def case(function):
    """Registers a test. Its name is its sentence; what it answers is printed beside."""
    _cases.append(function)
    return function


def lasting(seconds):
    """Gives a test more time than the others have."""

    def mark(function):
        function.seconds = seconds
        return function

    return mark


def need(tool):
    """Skips the test where the tool is missing."""
    if shutil.which(tool) is None:
        raise Skipped(tool)


def shown(value):
    """A value as a failure prints it, shortened in the middle."""
    text = repr(value)
    if len(text) <= SHOWN_BYTES:
        return text
    half = SHOWN_BYTES // 2
    return f"{text[:half]} .. {text[-half:]} (of {len(value)})"


def equal(came, wanted, of_what="the bytes"):
    if came != wanted:
        raise Failed(f"{of_what}\n    wanted {shown(wanted)}\n    came   {shown(came)}")


def holds(condition, sentence):
    if not condition:
        raise Failed(f"    wanted: {sentence}")


def together(jobs, seconds=40):
    """Runs all jobs at once, for so long at most. Answers the failures."""
    failures = []

    def run(job):
        try:
            job()
        except Exception as failure:
            failures.append(f"{job.__name__}: {failure}")

    threads = [threading.Thread(target=run, args=(job,), daemon=True) for job in jobs]
    for thread in threads:
        thread.start()
    deadline = time.monotonic() + seconds
    for thread in threads:
        thread.join(max(0, deadline - time.monotonic()))
    holds(not any(thread.is_alive() for thread in threads), "all come to their end")
    return failures


def ran(words, **options):
    """Runs a tool to its end. Answers its status, and what it printed."""
    return subprocess.run(words, capture_output=True, timeout=TOOL_SECONDS, **options)


def environment(**variables):
    """The environment without a word on proxies, and with these variables."""
    kept = {name: value for name, value in os.environ.items() if not name.lower().endswith("_proxy")}
    return {**kept, **variables}


def _out_of_time(signum, frame):
    raise Failed(f"    wanted: an end in time, at {frame.f_code.co_name}:{frame.f_lineno}")


def _run(function, world):
    """Runs one test, and then sees that the program printed nothing, and that everyone else is still served."""
    signal.alarm(getattr(function, "seconds", CASE_SECONDS))
    try:
        said = function(world)
        world.check_well()
        return said
    finally:
        signal.alarm(0)


def _judge(function, world):
    """Runs one test. Answers its verdict, and what it says beside."""
    start = time.monotonic()
    try:
        said = _run(function, world)
    except Skipped as missing:
        return "skipped", f"{missing} is missing"
    except Failed as failure:
        return "FAILED", str(failure)
    except Exception:
        return "FAILED", "\n" + traceback.format_exc()
    seconds = f"{time.monotonic() - start:.1f} s"
    return "passed", f"{seconds}, {said}" if said else seconds


def _sentence(function):
    return function.__name__.replace("_", " ")


def cases(subject, wanted=""):
    """The tests of a subject whose sentence has this in it."""
    return [function for function in _cases if function.__module__ == subject and wanted in _sentence(function)]


def run_each(functions, world):
    """Runs these tests. Gives of each its verdict, its sentence, and what it says beside."""
    signal.signal(signal.SIGALRM, _out_of_time)
    for function in functions:
        verdict, beside = _judge(function, world)
        yield verdict, _sentence(function), beside
        if verdict == "FAILED":
            world.restart()
