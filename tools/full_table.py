#!/usr/bin/env python3
"""Fills the table of descriptors of `arcus serve`, and looks at what it does.

    python3 tools/full_table.py

The server may open 40 files. 60 clients connect and ask. Those for which there is no descriptor have to wait, the others have to be
answered, the server has to say so once on standard error and take next to no processor time while they wait; and when the first ones
have gone those that waited have to be answered. With `--events`, and by workers that serve one connection after another. The exit
status is 0 where it was so. ARCUS names another program than the one that the repository built. It is no part of the gate.
"""

import os
import resource
import signal
import socket
import subprocess
import sys
import time

TOP = os.path.dirname(os.path.dirname(os.path.abspath(__file__)))
PROGRAM = os.environ.get("ARCUS") or os.path.join(TOP, "crates", "arcus", "out", "arcus")
FILES = 40
CLIENTS = 60


def wrong(text):
    sys.exit("WRONG: " + text)


def ask(sock, seconds):
    """Whether the client is answered within this time."""
    sock.settimeout(seconds)
    try:
        return sock.recv(5) == b"END\r\n"
    except socket.timeout:
        return False


def connect(port):
    sock = socket.create_connection(("127.0.0.1", port), 5)
    sock.sendall(b"get none\r\n")
    return sock


def look(name, words):
    with socket.socket() as chosen:
        chosen.bind(("127.0.0.1", 0))
        port = chosen.getsockname()[1]
    server = subprocess.Popen(
        [PROGRAM, "serve", "--port", str(port), *words],
        stdin=subprocess.DEVNULL,
        stderr=subprocess.PIPE,
        preexec_fn=lambda: resource.setrlimit(resource.RLIMIT_NOFILE, (FILES, FILES)),
    )
    try:
        for _ in range(500):
            try:
                socket.create_connection(("127.0.0.1", port), 1).close()
                break
            except OSError:
                time.sleep(0.02)
        time.sleep(0.3)
        clients = [connect(port) for _ in range(CLIENTS)]
        time.sleep(0.5)
        served = [sock for sock in clients if ask(sock, 0.01)]
        waiting = [sock for sock in clients if sock not in served]
        if not served or not waiting:
            wrong(f"{name}: {len(served)} were answered, {len(waiting)} not")
        before = time.clock_gettime((~server.pid << 3) | 2)
        time.sleep(2)
        taken = time.clock_gettime((~server.pid << 3) | 2) - before
        if taken > 0.2:
            wrong(f"{name}: it took {taken:.2f} s of processor in 2 s")
        for sock in served[:5]:
            sock.sendall(b"get none\r\n")
            if not ask(sock, 2):
                wrong(f"{name}: a client that has a connection was not answered")
        # Each that is answered makes place for a further one.
        for sock in served:
            sock.close()
        for sock in waiting:
            if not ask(sock, 5):
                wrong(f"{name}: a client that waited was not answered when there was room")
            sock.close()
    finally:
        server.send_signal(signal.SIGTERM)
        said = server.communicate(timeout=10)[1].decode()
    if said != "arcus: connections wait: Too many open files (os error 24)\n":
        wrong(f"{name}: it said {said!r}")
    print(f"{name}: {len(served)} clients were answered and {len(waiting)} waited, at {1e3 * taken / 2:.1f} ms of processor a second; then these were answered too. It said so once")


look("event workers", ["--workers", "2", "--events"])
look("workers that block", ["--workers", "20"])
