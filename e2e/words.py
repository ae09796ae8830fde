"""Words, the file of settings, and how the program ends. Each program listens on a free port of its own."""

import contextlib
import os
import re
import signal
import socket
import subprocess
import tempfile

from harness import TOOL_SECONDS, Failed, case, equal, holds, ran
from network import free_port, wait_until_it_listens
from origin import Answer, plain
from world import PORT, WORDS, Client

USAGE = b"usage: polipo [-c FILE] [-g SEED] [name=value ...]\n"

# The words, the text of the file f, the status and the line on standard error.
ENDS = [
    (["nonsense"], b"", 2, USAGE),
    (["-c", "f", "-c", "f"], b"", 2, USAGE),
    (["-c"], b"", 2, USAGE),
    (["-g", "x"], b"", 2, USAGE),
    (["-g", "+1"], b"", 2, USAGE),
    (["-g", "7", "proxyPort=1"], b"", 2, USAGE),
    (["--help"], b"", 2, USAGE),
    ([""], b"", 2, USAGE),
    ([b"proxyName=\xff"], b"", 2, USAGE),
    (["-c", "g"], b"", 6, b"polipo: cannot read the configuration\n"),
    (["-c", "."], b"", 6, b"polipo: cannot read the configuration\n"),
    (["-c", "f"], b"#" * 65_537, 6, b"polipo: the configuration is too long\n"),
    (["-c", "f"], b"# x\r\n\r\nproxyPort 9\r\n", 6, b"polipo: configuration line 3 is not understood\n"),
    (["-c", "f"], b"proxyPort = 65536", 6, b"polipo: bad value for proxyPort\n"),
    (["-c", "f"], b"diskCacheRoot=\xff\n", 6, b"polipo: bad value for diskCacheRoot\n"),
    (["-c", "f", "proxyPort=0"], b"diskRun=65\n", 6, b"polipo: bad value for diskRun\n"),
    (["proxyPort=0"], b"", 6, b"polipo: bad value for proxyPort\n"),
    (["proxyAddress=localhost"], b"", 6, b"polipo: bad value for proxyAddress\n"),
    (["-c", "f"], b"proxyAddress = 01.2.3.4\n", 6, b"polipo: bad value for proxyAddress\n"),
    (["accessLog=" + "a" * 256], b"", 6, b"polipo: bad value for accessLog\n"),
    (["-c", "f"], b"accessLog = \xff\n", 6, b"polipo: bad value for accessLog\n"),
    (["allowedClients="], b"", 6, b"polipo: bad value for allowedClients\n"),
    (["allowedClients=1.2.3.4/33"], b"", 6, b"polipo: bad value for allowedClients\n"),
    (["-c", "f"], b"allowedClients = 192.168.1.7/16\n", 6, b"polipo: bad value for allowedClients\n"),
    (["-c", "f"], b"allowedClients = 10.0.0.0/8 127.0.0.1\n", 6, b"polipo: bad value for allowedClients\n"),
    (["allowedClients=" + ",".join(["10.0.0.1"] * 17)], b"", 6, b"polipo: bad value for allowedClients\n"),
    (["proxyAddress=0.0.0.0"], b"", 6, b"polipo: bad value for allowedClients\n"),
    (["-c", "f", "allowedClients=127.0.0.1"], b"proxyAddress = 0.0.0.0\n", 6, b"polipo: bad value for allowedClients\n"),
    (["chunkHighMark=3000", "chunkLowMark=3001"], b"", 6, b"polipo: bad value for chunkHighMark\n"),
]


def end_of(world, words, text=b""):
    """Runs the program in a folder with this file f. Answers its status, output and complaint."""
    with tempfile.TemporaryDirectory() as folder:
        with open(os.path.join(folder, "f"), "wb") as file:
            file.write(text)
        done = ran([world.program, *words], cwd=folder, stdin=subprocess.DEVNULL)
        return done.returncode, done.stdout, done.stderr


@contextlib.contextmanager
def started(world, port, words, text=b""):
    """The program while it listens on that port."""
    with tempfile.TemporaryDirectory() as folder:
        path = os.path.join(folder, "f")
        with open(path, "wb") as file:
            file.write(text)
        words = [path if word == "f" else word for word in words]
        pipe = subprocess.PIPE
        process = subprocess.Popen([world.program, *words], stdin=subprocess.DEVNULL, stdout=pipe, stderr=pipe, cwd=folder)
        try:
            if why := wait_until_it_listens(process, port):
                raise Failed(f"    {why}")
            yield process
        finally:
            process.kill()
            process.communicate()


def hear_end(client):
    """What comes before the connection ends, or breaks."""
    try:
        return client.recv(1)
    except ConnectionResetError:
        return b""


@case
def each_end_has_its_status_and_its_line(world):
    for words, text, status, line in ENDS:
        equal(end_of(world, words, text), (status, b"", line), f"status, output and complaint of {words}")


@case
def the_demo_prints_the_same_five_lines_each_time_and_makes_no_file(world):
    with tempfile.TemporaryDirectory() as folder:
        runs = [ran([world.program, "-g", "1"], cwd=folder, stdin=subprocess.DEVNULL) for _ in range(2)]
        equal(os.listdir(folder), [], "files in the folder that it is started in")
    ends = [(run.returncode, run.stdout, run.stderr) for run in runs]
    equal(ends[1], ends[0], "status, output and complaint of the second run")
    status, output, complaint = ends[0]
    equal((status, complaint), (0, b""), "status and complaint")
    holds(re.fullmatch(rb"lives 5\nreplies [0-9]+\ncuts 0\nasks [0-9]+\nkept [1-9][0-9]*\n", output), f"five lines: {output}")


@case
def after_the_most_turns_it_ends_in_silence(world):
    words = [f"proxyPort={free_port()}", "maxTurns=1"]
    equal(end_of(world, words), (0, b"", b""), "status, output and complaint")


@case
def it_listens_where_words_and_file_say_and_tells_its_name(world):
    world.origin.on("/named", Answer(plain(b"hello")))
    port, other = free_port(), free_port()
    text = b"proxyPort = %d\nproxyName = \"house-1.local\"\n" % other
    with started(world, port, ["-c", "f", f"proxyPort={port}"], text):
        with Client(port=port) as client:
            client.say(world.last_request("/named"))
            heard = client.hear_all()
        holds(b"\r\nvia: 1.1 house-1.local\r\n" in heard.lower(), "its name in Via")
        holds(heard.endswith(b"\r\n\r\nhello"), "the body")


@case
def a_signal_ends_it_at_once_and_in_silence(world):
    port = free_port()
    with started(world, port, [f"proxyPort={port}"]) as process:
        with socket.create_connection(("127.0.0.1", port), timeout=10) as client:
            process.send_signal(signal.SIGTERM)
            output, complaint = process.communicate(timeout=TOOL_SECONDS)
            equal((process.returncode, output, complaint), (-signal.SIGTERM, b"", b""), "status, output and complaint")
            equal(hear_end(client), b"", "what the client hears")


@case
def a_port_that_is_taken_is_complained_of(world):
    wanted = (5, b"", f"polipo: cannot listen on port {PORT}\n".encode())
    equal(end_of(world, WORDS), wanted, "status, output and complaint")
