"""The commands of README.md's transcript print what it shows."""

import contextlib
import pathlib
import re
import socket
import subprocess
import sys

from harness import Failed, Skipped, case, environment, equal, holds, need, ran
from network import wait_until_it_listens
from words import started

TOP = pathlib.Path(__file__).resolve().parent.parent
PROXY_PORT, ORIGIN_PORT = 8123, 8000


def commands(text):
    """The commands that stand in a Markdown text's transcripts, each with what it prints."""
    for block in re.findall(r"^```console\n(.*?)^```", text, re.DOTALL | re.MULTILINE):
        for part in re.split(r"^\$ ", block, flags=re.MULTILINE)[1:]:
            command, _, output = part.partition("\n")
            yield command, output


def need_port(port):
    try:
        socket.create_server(("127.0.0.1", port)).close()
    except OSError:
        raise Skipped(f"a free port {port}")


@contextlib.contextmanager
def hello():
    """The origin of the transcript, while it runs."""
    quiet = subprocess.DEVNULL
    process = subprocess.Popen([sys.executable, "-B", TOP / "e2e/hello.py"], stdin=quiet, stderr=quiet)
    try:
        if why := wait_until_it_listens(process, ORIGIN_PORT):
            raise Failed(f"    {why}")
        yield
    finally:
        process.kill()
        process.wait()


@case
def the_transcript_of_the_readme_is_what_happens(world):
    need("curl")
    for port in (PROXY_PORT, ORIGIN_PORT):
        need_port(port)
    transcript = commands((TOP / "README.md").read_text())
    shown = [(command, output) for command, output in transcript if command.startswith("curl ")]
    holds(len(shown) >= 2, "two commands of curl at least")
    with hello(), started(world, PROXY_PORT, []):
        for command, output in shown:
            done = ran(command, shell=True, text=True, env=environment())
            # a body may end without a line's end, which the next prompt begins with
            printed = done.stdout.replace("\r\n", "\n").rstrip("\n")
            equal(printed, output.rstrip("\n"), f"what is printed by {command}")
            equal(done.stderr, "", f"the complaint of {command}")
