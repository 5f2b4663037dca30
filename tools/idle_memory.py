#!/usr/bin/env python3
"""Measures what an idle connection takes of the memory of `arcus serve --events`.

    python3 tools/idle_memory.py [--connections N] [--workers N]

It opens 1,000 connections, each of which sends one short line and reads its answer, and takes the resident memory of the server
before and behind. Then each sends a `set` and a `get` of 1,000 bytes, and it is taken again; and once more when all have gone and
as many have come again. ARCUS names another program than the one that the repository built. It is no part of the gate.
"""

import argparse
import os
import resource
import signal
import socket
import subprocess
import sys
import time

TOP = os.path.dirname(os.path.dirname(os.path.abspath(__file__)))
PROGRAM = os.environ.get("ARCUS") or os.path.join(TOP, "crates", "arcus", "out", "arcus")
SHORT = b"get none\r\n", b"END\r\n"
VALUE = b"v" * 1000
LONG = b"set some 0 0 1000\r\n%s\r\nget some\r\n" % VALUE, b"STORED\r\nVALUE some 0 1000\r\n%s\r\nEND\r\n" % VALUE


def resident(pid):
    """The resident memory of the server that was started here, in bytes."""
    with open(f"/proc/{pid}/statm") as file:
        return int(file.read().split()[1]) * os.sysconf("SC_PAGE_SIZE")


def ask(sock, exchange):
    text, wanted = exchange
    sock.sendall(text)
    got = b""
    while len(got) < len(wanted):
        piece = sock.recv(len(wanted) - len(got))
        if not piece:
            sys.exit("the server ended a connection")
        got += piece
    if got != wanted:
        sys.exit(f"a wrong answer: {got!r:.100}")


def connect(port, count):
    return [socket.create_connection(("127.0.0.1", port), 10) for _ in range(count)]


def main():
    parser = argparse.ArgumentParser()
    parser.add_argument("--connections", type=int, default=1000)
    parser.add_argument("--workers", type=int, default=2)
    words = parser.parse_args()
    most = resource.getrlimit(resource.RLIMIT_NOFILE)[1]
    resource.setrlimit(resource.RLIMIT_NOFILE, (min(most, 2 * words.connections + 100), most))
    with socket.socket() as chosen:
        chosen.bind(("127.0.0.1", 0))
        port = chosen.getsockname()[1]
    server = subprocess.Popen([PROGRAM, "serve", "--port", str(port), "--workers", str(words.workers), "--events"], stdin=subprocess.DEVNULL)
    try:
        for _ in range(500):
            try:
                first = socket.create_connection(("127.0.0.1", port), 1)
                break
            except OSError:
                time.sleep(0.02)
        ask(first, SHORT)
        time.sleep(0.2)
        begun = resident(server.pid)
        print(f"at first, with one connection: {begun / 1e6:.1f} MB")
        told = lambda name: print(f"{name}: {resident(server.pid) / 1e6:.1f} MB, {(resident(server.pid) - begun) / words.connections:,.0f} bytes a connection", flush=True)
        all_of_them = connect(port, words.connections)
        for sock in all_of_them:
            ask(sock, SHORT)
        told(f"{words.connections} connections that have each sent one short line")
        for sock in all_of_them:
            ask(sock, LONG)
        told("each has stored and read 1,000 bytes")
        for sock in all_of_them:
            sock.close()
        time.sleep(0.5)
        told("all have gone")
        for sock in connect(port, words.connections):
            ask(sock, SHORT)
        told("as many have come again, one after another")
    finally:
        server.send_signal(signal.SIGTERM)
        server.wait(10)


if __name__ == "__main__":
    main()
