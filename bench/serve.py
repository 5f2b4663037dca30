#!/usr/bin/env python3
"""Measures `arcus serve --events` beside memcached, redis, plain Rust, and a server that does nothing.

    python3 bench/serve.py [--runs N] [--seconds S] [--connections N] [--chart FILE] [--only WORD,..]

`get` of 90 and `set` of 10 in 100, 10,000 keys of 14 bytes, values of 100 bytes, 32 connections, at depth 1 and 16 (so many
requests are written in one piece), with one worker and with two. The servers take turns, run by run, so that a machine that is
busier for a while is so for all; ratios are medians of the ratios within a run. README.md says how to read it.

Sections, all where --only names none: rates (wants a quiet machine), instructions (valgrind), calls (strace, arcus alone), spread
(how connections spread over the workers), flood (how long a client waits beside one that floods), pipes (what an insert takes in a
pipe of 500, and sent by itself).
ARCUS names another program than the one that the repository built. Nothing here is a part of the gate.
"""

import argparse
import json
import os
import re
import shutil
import signal
import socket
import statistics
import subprocess
import sys
import tempfile
import time

HERE = os.path.dirname(os.path.abspath(__file__))
TOP = os.path.dirname(HERE)
PARTS = os.path.join(HERE, "serve")
BUILD = os.path.join(PARTS, "out")
ARCUS = os.path.abspath(os.environ.get("ARCUS") or os.path.join(TOP, "crates", "arcus", "out", "arcus"))
LIMIT_MIB = 1024
# A run in which more of the machine's processor time than this was taken by other machines is told.
NOISE = 0.10


def build():
    os.makedirs(BUILD, exist_ok=True)
    for name in ("load", "null"):
        run_or_stop(["gcc", "-O2", "-Wall", "-pthread", "-o", part(name), os.path.join(PARTS, name + ".c")])
    run_or_stop(["gcc", "-O1", "-shared", "-fPIC", "-o", part("no_limit.so"), os.path.join(PARTS, "no_limit.c")])
    if shutil.which("rustc"):
        run_or_stop(["rustc", "-O", "--edition", "2021", "-o", part("plain"), os.path.join(PARTS, "plain.rs")])


def part(name):
    return os.path.join(BUILD, name)


def run_or_stop(words):
    if subprocess.run(words).returncode:
        sys.exit("failed: " + " ".join(words))


def arcus(port, workers):
    return [ARCUS, "serve", "--port", str(port), "--workers", str(workers), "--limit", str(LIMIT_MIB), "--events"]


def memcached(port, workers):
    user = ["-u", "root"] if os.geteuid() == 0 else []
    return ["memcached", *user, "-l", "127.0.0.1", "-p", str(port), "-U", "0", "-m", str(LIMIT_MIB), "-t", str(workers)]


def redis(port, workers):
    # It has one thread for requests, however many workers the others have.
    return ["redis-server", "--port", str(port), "--bind", "127.0.0.1", "--save", "", "--appendonly", "no"]


def plain(port, workers):
    return [part("plain"), "--port", str(port), "--threads", str(workers), "--limit", str(LIMIT_MIB)]


def null(port, workers):
    return [part("null"), "--port", str(port), "--threads", str(workers)]


SERVERS = {"arcus": arcus, "plain Rust": plain, "redis": redis, "memcached": memcached, "null": null}


class Server:
    """A server under measurement, on a free port."""

    def __init__(self, name, workers, prefix=(), environment=None, patience=10):
        self.name = name
        with socket.socket() as chosen:
            chosen.bind(("127.0.0.1", 0))
            self.port = chosen.getsockname()[1]
        words = [*prefix, *SERVERS[name](self.port, workers)]
        quiet = {"stdin": subprocess.DEVNULL, "stdout": subprocess.DEVNULL, "stderr": subprocess.DEVNULL}
        self.process = subprocess.Popen(words, env={**os.environ, **(environment or {})}, **quiet)
        end = time.monotonic() + patience
        while True:
            try:
                socket.create_connection(("127.0.0.1", self.port), 1).close()
                return
            except OSError:
                if self.process.poll() is not None or time.monotonic() > end:
                    self.stop()
                    sys.exit(f"{name} did not start")
                time.sleep(0.02)

    def processor_seconds(self):
        """The processor time of its threads so far, by the process's own clock."""
        return time.clock_gettime((~self.process.pid << 3) | 2)

    def load(self, depth, connections, *more):
        words = [part("load"), "--port", str(self.port), "--protocol", "redis" if self.name == "redis" else "text"]
        words += ["--depth", str(depth), "--connections", str(connections), *map(str, more)]
        if self.name == "null":
            words.append("--canned")
        before = self.processor_seconds()
        got = subprocess.run(words, capture_output=True, text=True, timeout=300)
        if got.returncode:
            sys.exit(f"{self.name}: {got.stdout}{got.stderr}")
        result = json.loads(got.stdout)
        result["processor"] = self.processor_seconds() - before
        return result

    def stop(self):
        if self.process.poll() is None:
            self.process.send_signal(signal.SIGTERM)
        self.process.wait(60)


def installed():
    there = {"memcached": shutil.which("memcached"), "redis": shutil.which("redis-server"), "plain Rust": os.path.exists(part("plain"))}
    return [name for name in SERVERS if there.get(name, True)]


def stolen():
    """The machine's processor time that others took, and all of it, in ticks."""
    with open("/proc/stat") as file:
        ticks = [int(word) for word in file.readline().split()[1:]]
    return ticks[7], sum(ticks[:8])


def middle(values):
    return statistics.median(values)


def rates(words):
    """Operations a second and processor time, the servers in turn."""
    groups = []
    for workers in (1, 2):
        for depth in (1, 16):
            names = installed()
            servers = [Server(name, workers) for name in names]
            for server in servers:
                server.load(16, words.connections, "--fill", "--seconds", 0)
            runs, busy = [], 0
            for _ in range(words.runs):
                taken, whole = stolen()
                runs.append([server.load(depth, words.connections, "--seconds", words.seconds) for server in servers])
                now_taken, now_whole = stolen()
                busy += now_taken - taken > NOISE * (now_whole - whole)
            for server in servers:
                server.stop()
            groups.append({"workers": workers, "depth": depth, "busy": busy, "servers": summed(names, runs)})
            tell_group(groups[-1], len(runs))
    return groups


def summed(names, runs):
    rate = lambda result: result["operations"] / result["seconds"]
    cost = lambda result: 1e6 * result["processor"] / result["operations"]
    servers = {}
    for at, name in enumerate(names):
        mine = [run[at] for run in runs]
        servers[name] = {
            "rate": middle([rate(result) for result in mine]),
            "cost": middle([cost(result) for result in mine]),
            "p50": middle([result["p50"] for result in mine]),
            "p99": middle([result["p99"] for result in mine]),
            "rates": [rate(result) for result in mine],
            "rate_to_arcus": middle([rate(run[0]) / rate(run[at]) for run in runs]),
            "cost_to_arcus": middle([cost(run[0]) / cost(run[at]) for run in runs]),
        }
    return servers


def tell_group(group, runs):
    workers = "one worker" if group["workers"] == 1 else f"{group['workers']} workers"
    print(f"\n### {workers}, depth {group['depth']} ({runs} runs, {group['busy']} of them on a busy machine)\n")
    print("| | operations a second | µs of processor an operation | half wait, 99 of 100 wait at most, µs | rate of arcus to it | processor time of arcus to it |")
    print("|---|---:|---:|---:|---:|---:|")
    for name, it in group["servers"].items():
        print(
            f"| {name} | {it['rate']:,.0f} ({min(it['rates']):,.0f} to {max(it['rates']):,.0f}) | {it['cost']:.2f} | {it['p50']:,.0f}, {it['p99']:,.0f} "
            f"| {it['rate_to_arcus']:.2f} | {it['cost_to_arcus']:.2f} |",
            flush=True,
        )


def instructions(words):
    """User-space instructions an operation: those of a longer load less those of a shorter one, each on a server of its own."""
    if not shutil.which("valgrind"):
        print("\n(no valgrind: no instructions)")
        return {}
    print("\n### Instructions an operation in user space, one worker\n\n| | depth 1 | depth 16 |\n|---|---:|---:|")
    counts = {}
    for name in installed():
        counts[name] = [counted(name, depth, words.connections) for depth in (1, 16)]
        print(f"| {name} | " + " | ".join(f"{count:,.0f}" for count in counts[name]) + " |", flush=True)
    return counts


def counted(name, depth, connections):
    short, long = (2_000, 10_000) if name != "null" else (10_000, 50_000)
    totals = []
    for operations in (short, long):
        with tempfile.TemporaryDirectory() as folder:
            out = os.path.join(folder, "callgrind")
            environment = {"LD_PRELOAD": part("no_limit.so")} if name == "memcached" else None
            prefix = ["valgrind", "--tool=callgrind", f"--callgrind-out-file={out}"]
            server = Server(name, 1, prefix, environment, 60)
            result = server.load(depth, connections, "--fill", "--keys", 2_000, "--operations", operations)
            server.stop()
            with open(out) as file:
                total = next(int(line.split()[1]) for line in file if line.startswith("totals:"))
            totals.append((total, result["operations"]))
    (less, fewer), (more, greater) = totals
    return (more - less) / (greater - fewer)


def calls(words):
    """System calls of arcus an operation, by strace on it."""
    if not shutil.which("strace"):
        print("\n(no strace: no system calls)")
        return {}
    print("\n### System calls of arcus an operation\n")
    told = {}
    for workers in (1, 2):
        for depth in (1, 16):
            server = Server("arcus", workers)
            server.load(16, words.connections, "--fill", "--seconds", 0)
            with tempfile.NamedTemporaryFile("r") as out:
                tracer = subprocess.Popen(["strace", "-f", "-c", "-o", out.name, "-p", str(server.process.pid)], stderr=subprocess.DEVNULL)
                time.sleep(0.5)
                result = server.load(depth, words.connections, "--operations", 20_000)
                tracer.send_signal(signal.SIGINT)
                tracer.wait(10)
                rows = re.findall(r"^\s*[\d.]+\s+[\d.]+\s+\d+\s+(\d+)\s+(?:\d+\s+)?(\w+)$", out.read(), re.M)
            server.stop()
            each = {name: int(count) / result["operations"] for count, name in rows if name != "total"}
            told[f"{workers} {depth}"] = each
            text = ", ".join(f"{name} {count:.4f}" for name, count in sorted(each.items(), key=lambda pair: -pair[1]) if count >= 0.0005)
            print(f"- workers {workers}, depth {depth}: {text}", flush=True)
    return told


def spread(words):
    """How connections spread over workers: with k sessions a worker, each worker ends when it has served k of them."""
    print("\n### How 32 connections spread over workers: the processor time of each thread under the same load of all\n")
    told = []
    for workers in (2, 4):
        for _ in range(4):
            server = Server("arcus", workers)
            server.load(16, words.connections, "--fill", "--seconds", 0)
            result = server.load(1, words.connections, "--seconds", words.seconds, )
            folder = f"/proc/{server.process.pid}/task"
            times = []
            for thread in os.listdir(folder):
                with open(f"{folder}/{thread}/schedstat") as file:
                    times.append(int(file.read().split()[0]) / 1e6)
            server.stop()
            busiest = sorted(times)[-workers:]
            told.append({"workers": workers, "milliseconds": busiest})
            print(f"- {workers} workers, {result['operations']:,} operations: {', '.join(f'{it:.0f} ms' for it in busiest)}", flush=True)
    return told


def pipes(words):
    """User-space instructions of arcus for an insert into one of 100 lists, sent alone and in pipes."""
    if not shutil.which("valgrind"):
        print("\n(no valgrind: no instructions)")
        return {}
    print("\n### Instructions of a `lop insert` of 50 bytes in user space, one worker\n")
    told = {}
    for title, at_once, mark in (("alone, each answered before the next is sent", 1, b""), ("500 at once", 500, b""), ("a pipe of 500", 500, b" pipe")):
        (less, fewer), (more, greater) = (inserts(count, at_once, mark) for count in (5_000, 20_000))
        told[title] = (more - less) / (greater - fewer)
        print(f"- {title}: {told[title]:,.0f}", flush=True)
    return told


def inserts(count, at_once, mark):
    """All instructions of a server that so many inserts come to, so many in one piece, and their number."""
    with tempfile.TemporaryDirectory() as folder:
        out = os.path.join(folder, "callgrind")
        server = Server("arcus", 1, ["valgrind", "--tool=callgrind", f"--callgrind-out-file={out}"], patience=60)
        with socket.create_connection(("127.0.0.1", server.port)) as sock:
            for list_number in range(100):
                sock.sendall(b"lop create list%02d 0 0 0\r\n" % list_number)
                read_exactly(sock, len(b"CREATED\r\n"))
            for first in range(0, count, at_once):
                last = first + at_once - 1
                sock.sendall(b"".join(insert(place, mark if place < last else b"") for place in range(first, last + 1)))
                head, tail = (b"RESPONSE %d\r\n" % at_once, b"END\r\n") if mark else (b"", b"")
                read_exactly(sock, len(head) + at_once * len(b"STORED\r\n") + len(tail))
        server.stop()
        with open(out) as file:
            return next(int(line.split()[1]) for line in file if line.startswith("totals:")), count


def insert(place, mark):
    return b"lop insert list%02d -1 50%s\r\n%s\r\n" % (place % 100, mark, b"v" * 50)


def flood(words):
    """How long a client waits for each answer beside one that sends 40,000 requests at once."""
    print("\n### A client that asks beside one that floods\n")
    told = []
    for title, request, answer in (
        ("40,000 `get` of 100 bytes", b"get some\r\n", 100 + len(b"VALUE some 0 100\r\n\r\nEND\r\n")),
        ("40,000 `set` of 1 byte", b"set other 0 0 1\r\nx\r\n", 8),
        ("2,000 `get` of 1,000,000 bytes", b"get large\r\n", 1_000_000 + len(b"VALUE large 0 1000000\r\n\r\nEND\r\n")),
    ):
        server = Server("arcus", 1)
        with socket.create_connection(("127.0.0.1", server.port)) as sock:
            sock.sendall(b"set some 0 0 100\r\n%s\r\nset large 0 0 1000000\r\n%s\r\n" % (b"v" * 100, b"v" * 1_000_000))
            read_exactly(sock, 16)
        count = 2_000 if b"large" in request else 40_000
        waits = waits_beside(server.port, request * count, answer * count)
        server.stop()
        told.append({"flood": title, "median": middle(waits), "most": max(waits), "asked": len(waits)})
        print(f"- {title}: {len(waits)} answers to the other client, {middle(waits):.2f} ms in the middle, {max(waits):.2f} ms at most", flush=True)
    return told


def read_exactly(sock, count):
    while count:
        got = sock.recv(min(count, 1 << 20))
        if not got:
            sys.exit("the server ended a connection")
        count -= len(got)


def waits_beside(port, text, answer_bytes):
    flooding = subprocess.Popen(
        [sys.executable, "-c", FLOOD, str(port), str(answer_bytes)], stdin=subprocess.PIPE, stdout=subprocess.PIPE
    )
    waits = []
    with socket.create_connection(("127.0.0.1", port)) as sock:
        sock.setsockopt(socket.IPPROTO_TCP, socket.TCP_NODELAY, 1)
        flooding.stdin.write(text)
        flooding.stdin.close()
        while flooding.poll() is None:
            begun = time.perf_counter()
            sock.sendall(b"get none\r\n")
            read_exactly(sock, 5)
            waits.append(1e3 * (time.perf_counter() - begun))
            time.sleep(0.0005)
    if flooding.returncode:
        sys.exit("the client that floods failed")
    return waits


FLOOD = """
import socket, sys, threading
port, count = int(sys.argv[1]), int(sys.argv[2])
text = sys.stdin.buffer.read()
sock = socket.create_connection(("127.0.0.1", port))
sending = threading.Thread(target=sock.sendall, args=(text,))
sending.start()
while count:
    got = sock.recv(min(count, 1 << 20))
    assert got
    count -= len(got)
sending.join()
"""


def chart(groups, path):
    """The rates as bars, a panel for each depth."""
    names = list(groups[0]["servers"])
    colours = {"arcus": "#1f6feb", "plain Rust": "#8b949e", "redis": "#b08800", "memcached": "#6f42c1", "null": "#d0d7de"}
    width, height, left, base = 860, 360, 60, 280
    out = [
        f'<svg xmlns="http://www.w3.org/2000/svg" viewBox="0 0 {width} {height}" font-family="sans-serif" font-size="12">',
        f'<rect width="{width}" height="{height}" fill="white"/>',
        f'<text x="{left}" y="24" font-size="15">Thousand operations a second: 90 get and 10 set of 100, 32 connections</text>',
    ]
    for panel, depth in enumerate((1, 16)):
        mine = [group for group in groups if group["depth"] == depth]
        most = max(it["rate"] for group in mine for it in group["servers"].values())
        x = left + panel * 400
        for group in mine:
            workers = "1 worker" if group["workers"] == 1 else f"{group['workers']} workers"
            out.append(f'<text x="{x + 80}" y="{base + 20}" text-anchor="middle">depth {depth}, {workers}</text>')
            for at, name in enumerate(names):
                rate = group["servers"][name]["rate"]
                tall = 200 * rate / most
                out.append(f'<rect x="{x + at * 33}" y="{base - tall:.1f}" width="28" height="{tall:.1f}" fill="{colours[name]}"/>')
                out.append(f'<text x="{x + at * 33 + 14}" y="{base - tall - 4:.1f}" text-anchor="middle" font-size="10">{rate / 1e3:,.0f}</text>')
            x += 195
        out.append(f'<line x1="{left + panel * 400 - 6}" y1="{base}" x2="{x - 20}" y2="{base}" stroke="#57606a"/>')
    for at, name in enumerate(names):
        out.append(f'<rect x="{left + at * 130}" y="{base + 40}" width="12" height="12" fill="{colours[name]}"/>')
        out.append(f'<text x="{left + at * 130 + 18}" y="{base + 51}">{name}</text>')
    out.append("</svg>")
    with open(path, "w") as file:
        file.write("\n".join(out) + "\n")


def main():
    parser = argparse.ArgumentParser()
    parser.add_argument("--runs", type=int, default=7)
    parser.add_argument("--seconds", type=float, default=0.5)
    parser.add_argument("--connections", type=int, default=32)
    parser.add_argument("--chart")
    parser.add_argument("--only", default="")
    parser.add_argument("--json")
    words = parser.parse_args()
    if not os.access(ARCUS, os.X_OK):
        sys.exit(f"{ARCUS} is not built")
    build()
    sections = {"rates": rates, "instructions": instructions, "calls": calls, "spread": spread, "flood": flood, "pipes": pipes}
    wanted = words.only.split(",") if words.only else list(sections)
    results = {name: sections[name](words) for name in wanted}
    if words.json:
        with open(words.json, "w") as file:
            json.dump(results, file, indent=1)
    if words.chart and "rates" in results:
        chart(results["rates"], words.chart)


if __name__ == "__main__":
    main()
