"""An origin, and the ways to it that benchmarks compare: direct, and through proxies that are started where they are there."""

import contextlib
import multiprocessing
import os
import platform
import shutil
import socket
import statistics
import subprocess
import sys

sys.path.insert(0, os.path.join(os.path.dirname(os.path.abspath(__file__)), "..", "e2e"))

from network import free_port, wait_until_it_listens  # noqa: E402

TINYPROXY = """Port {port}
Listen 127.0.0.1
Timeout 60
MaxClients 200
"""

# What squid does with what it could keep.
NOTHING, ALL_IN_MEMORY = "cache deny all", "cache_mem 256 MB\nmaximum_object_size_in_memory 64 MB\nmaximum_object_size 64 MB"
SQUID = """http_port 127.0.0.1:{port}
http_access allow all
{keeps}
access_log none
cache_log /dev/null
pid_filename none
shutdown_lifetime 0 seconds
client_persistent_connections on
server_persistent_connections on
"""


# So that no proxy is slowed by a disk: what it costs to keep on one is for bench/kept.
IN_MEMORY = "/dev/shm"


NGINX = """worker_processes 1;
daemon off;
pid {folder}/nginx.pid;
error_log /dev/null;
events {{ worker_connections 1024; }}
http {{
    access_log off;
    client_body_temp_path {folder}/body;
    proxy_temp_path {folder}/temp;
    proxy_cache_path {folder}/kept keys_zone=kept:10m max_size=1g;
    sendfile on;
    keepalive_requests 1000000;
    upstream origin {{
        server {authority};
        keepalive 32;
    }}
    server {{
        listen 127.0.0.1:{port};
        location / {{
            proxy_pass http://origin;
            proxy_http_version 1.1;
            proxy_set_header Connection "";
            proxy_set_header Host {authority};
            proxy_cache kept;
            proxy_cache_lock on;
            proxy_cache_lock_timeout 60s;
        }}
    }}
}}
"""


def serve(listener, answer_to):
    """One process of an origin: it serves one connection after the other, and sends what the function of a head gives."""
    while True:
        connection, _ = listener.accept()
        connection.setsockopt(socket.IPPROTO_TCP, socket.TCP_NODELAY, 1)
        try:
            waiting = b""
            while more := connection.recv(65536):
                *heads, waiting = (waiting + more).split(b"\r\n\r\n")
                for head in heads:
                    connection.sendall(answer_to(head))
        except OSError:
            pass
        connection.close()


@contextlib.contextmanager
def origin_of(count, answer_to):
    """The address of an origin, while its processes run, so many of them."""
    with socket.create_server(("127.0.0.1", 0), backlog=1024) as listener:
        processes = [multiprocessing.Process(target=serve, args=(listener, answer_to), daemon=True) for _ in range(count)]
        for process in processes:
            process.start()
        try:
            yield listener.getsockname()
        finally:
            for process in processes:
                process.kill()


class Way:
    """How the origin is reached: direct, or through a proxy that was started."""

    def __init__(self, name, address, authority, process=None):
        self.name = name
        self.address = address
        self.authority = authority
        self.process = process
        self.target = "" if process is None else f"http://{authority}"

    def request(self, path):
        return f"GET {self.target}{path} HTTP/1.1\r\nHost: {self.authority}\r\n\r\n".encode()

    def stop(self):
        if self.process is not None:
            stop(self.process)


def stop(process):
    process.terminate()
    process.wait()


def start(name, command, port, ways):
    """Starts a proxy, where it is there."""
    if shutil.which(command[0]) is None:
        print(f"skipped: {name} is missing")
        return
    process = subprocess.Popen(command, stdin=subprocess.DEVNULL, stdout=subprocess.DEVNULL, stderr=subprocess.DEVNULL)
    if why := wait_until_it_listens(process, port, seconds=15):
        stop(process)
        print(f"skipped: {name}: {why}")
    else:
        ways.append(Way(name, ("127.0.0.1", port), ways[0].authority, process))


def configured(folder, name, text, **values):
    """A port, and the file that has this proxy listen on it."""
    port, file = free_port(), f"{folder}/{name}.conf"
    with open(file, "w") as out:
        out.write(text.format(port=port, folder=folder, **values))
    return port, file


def start_polipo(program, folder, ways):
    port = free_port()
    start("polipo", [program, f"proxyPort={port}", f"diskCacheRoot={folder}/polipo"], port, ways)


def start_tinyproxy(folder, ways):
    port, file = configured(folder, "tinyproxy", TINYPROXY)
    start("tinyproxy", ["tinyproxy", "-d", "-c", file], port, ways)


def start_squid(folder, ways, keeps):
    port, file = configured(folder, "squid", SQUID, keeps=keeps)
    start("squid", ["squid", "-N", "-f", file], port, ways)


def start_nginx(folder, ways):
    """One worker, a caching proxy of this one origin: it knows no other form of a forward proxy."""
    port, file = configured(folder, "nginx", NGINX, authority=ways[0].authority)
    start("nginx", ["nginx", "-p", folder, "-c", file], port, ways)


def describe_machine():
    with open("/proc/cpuinfo") as file:
        models = [line.split(":", 1)[1].strip() for line in file if line.startswith("model name")]
    with open("/proc/meminfo") as file:
        memory = int(file.readline().split()[1]) // 1024
    load = ", ".join(f"{value:.1f}" for value in os.getloadavg())
    model = models[0] if models else platform.machine()
    print(f"machine: {os.cpu_count()} x {model}, {memory} MiB, Linux {platform.release()}, load {load}")


def report(title, unit, results):
    print(f"\n{title}")
    direct = statistics.median(results["direct"])
    for name, values in results.items():
        median = statistics.median(values)
        spread = f"{min(values):,.0f} to {max(values):,.0f}"
        print(f"  {name:<10} {median:>10,.0f} {unit}   {median / direct:5.2f} of direct   ({spread})")
