"""The loopback of a network of our own, which begins down, and its ports."""

import contextlib
import fcntl
import pathlib
import random
import socket
import struct
import time

START_SECONDS = 20
SIOCGIFFLAGS, SIOCSIFFLAGS, IFF_UP = 0x8913, 0x8914, 1


def raise_loopback():
    with socket.socket() as any_socket:
        asked = struct.pack("16sh14x", b"lo", 0)
        flags = struct.unpack("16sh14x", fcntl.ioctl(any_socket, SIOCGIFFLAGS, asked))[1]
        if not flags & IFF_UP:
            fcntl.ioctl(any_socket, SIOCSIFFLAGS, struct.pack("16sh14x", b"lo", flags | IFF_UP))


def free_port():
    """A TCP port of 127.0.0.1 that nobody listens on, and none that the system gives to a connection of its own accord."""
    lowest = int(pathlib.Path("/proc/sys/net/ipv4/ip_local_port_range").read_text().split()[0])
    while True:
        port = random.randrange(10_000, max(lowest, 20_000))
        with socket.socket() as any_socket, contextlib.suppress(OSError):
            any_socket.bind(("127.0.0.1", port))
            return port


def has_ipv6():
    """Whether this machine has ::1."""
    with contextlib.suppress(OSError), socket.socket(socket.AF_INET6) as any_socket:
        any_socket.bind(("::1", 0))
        return True
    return False


@contextlib.contextmanager
def silence_at(address, port):
    """Who connects there has no answer, and is not refused: no more may wait for the listener than wait, and it takes nobody."""
    with contextlib.ExitStack() as stack:
        stack.enter_context(socket.create_server((address, port), backlog=0))
        for _ in range(4):
            waiting = stack.enter_context(socket.socket())
            waiting.setblocking(False)
            waiting.connect_ex((address, port))
        yield


def wait_until_it_listens(process, port, seconds=START_SECONDS):
    """Waits for a program to listen on this port. Answers why it does not, or nothing."""
    deadline = time.monotonic() + seconds
    while time.monotonic() < deadline:
        if process.poll() is not None:
            return f"the program ended with {process.returncode}"
        try:
            socket.create_connection(("127.0.0.1", port), timeout=1).close()
            return None
        except OSError:
            time.sleep(0.02)
    return f"the program does not listen within {seconds} seconds"
