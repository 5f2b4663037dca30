#!/usr/bin/env python3
"""Tries clients of others against `arcus serve --events`.

    python3 compat/run.py [--list] [CLIENT ..]

Without a client it tries all. Each is tried against servers of its own, which are started on free ports of 127.0.0.1 and ended
behind it. It prints what each client's script says, which ends with a line `ok`, and its exit status is that of the first script
that found a wrong answer: 0 where there was none. A client that is not installed is a failure too; the packages are those of
Debian that docs/CLIENTS.md names.

ARCUS names another program than the one that the repository built.
"""

import os
import shutil
import signal
import socket
import subprocess
import sys
import time

HERE = os.path.dirname(os.path.abspath(__file__))
TOP = os.path.dirname(HERE)
PROGRAM = os.environ.get("ARCUS") or os.path.join(TOP, "crates", "arcus", "out", "arcus")
# Debian's own interpreter: its packages of clients are not seen by another.
PYTHON = "/usr/bin/python3"
SECONDS = 120

# Each client: what starts its script, to which the ports of its servers are given; how many servers it has, and their limit in MiB.
CLIENTS = {
    "pymemcache": ([PYTHON, "pymemcache_client.py"], 1, 64),
    "python-memcached": ([PYTHON, "memcache_client.py"], 1, 64),
    "pylibmc": ([PYTHON, "pylibmc_client.py"], 1, 64),
    "php-memcached": (["php", "memcached_client.php"], 1, 64),
    "perl-memcached-fast": (["perl", "memcached_fast_client.pl"], 1, 64),
    "libmemcached-tools": (["sh", "libmemcached_tools.sh"], 1, 64),
    "nginx-memc": (["sh", "nginx_memc.sh"], 1, 64),
    "netcat": (["sh", "netcat.sh"], 1, 64),
    "twemproxy": ([PYTHON, "twemproxy.py"], 3, 1),
}


class Server:
    """One server, on a free port."""

    def __init__(self, limit=64, words=("--workers", "2", "--events")):
        with socket.socket() as chosen:
            chosen.bind(("127.0.0.1", 0))
            self.port = chosen.getsockname()[1]
        self.process = subprocess.Popen(
            [PROGRAM, "serve", "--port", str(self.port), "--limit", str(limit), *words], stdin=subprocess.DEVNULL
        )
        end = time.monotonic() + 10
        while True:
            try:
                socket.create_connection(("127.0.0.1", self.port), 1).close()
                return
            except OSError:
                if self.process.poll() is not None or time.monotonic() > end:
                    self.stop()
                    sys.exit(f"the server did not start: status {self.process.returncode}")
                time.sleep(0.02)

    def stop(self):
        """Ends it, and says whether it was still there."""
        lived = self.process.poll() is None
        if lived:
            self.process.send_signal(signal.SIGTERM)
        self.process.wait(10)
        return lived


def try_client(name):
    argv, count, limit = CLIENTS[name]
    if not shutil.which(argv[0]):
        print(f"{name}: {argv[0]} is not installed")
        return 1
    print(f"== {name}", flush=True)
    servers = [Server(limit) for _ in range(count)]
    try:
        ports = [str(server.port) for server in servers]
        status = subprocess.run([argv[0], os.path.join(HERE, argv[1]), *argv[2:], *ports], timeout=SECONDS).returncode
    except subprocess.TimeoutExpired:
        print(f"{name}: no end within {SECONDS} seconds")
        status = 1
    finally:
        lived = [server.stop() for server in servers]
    if not all(lived):
        print(f"{name}: a server ended by itself")
        status = status or 1
    return status


def main():
    words = sys.argv[1:]
    if words == ["--list"]:
        print("\n".join(CLIENTS))
        return 0
    unknown = [name for name in words if name not in CLIENTS]
    if unknown:
        sys.exit(f"no such client: {' '.join(unknown)}")
    statuses = {name: try_client(name) for name in words or CLIENTS}
    failed = [name for name, status in statuses.items() if status]
    print(f"{len(statuses) - len(failed)} clients answered rightly, {len(failed)} not{': ' + ' '.join(failed) if failed else ''}")
    return next((status for status in statuses.values() if status), 0)


if __name__ == "__main__":
    sys.exit(main())
