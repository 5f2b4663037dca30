#!/usr/bin/env python3
"""Measures `arcus many`: what a command pays for the lock that several workers share.

    python3 bench/many.py [PROGRAM]

100 sessions of 2,000 commands each, half of them `set` of 100-byte values under keys of the session's own, and then a `get` of each.
It prints user-space instructions a command, by `valgrind --tool=callgrind`, of `session` on all commands one behind another, and
of `many` with 1, 2 and 4 workers; and the time of each, the shortest of five runs, which take turns. Each output is compared
with what it has to be.
"""

import os
import re
import subprocess
import sys
import tempfile
import time

TOP = os.path.dirname(os.path.dirname(os.path.abspath(__file__)))
PROGRAM = os.path.join(TOP, "crates", "arcus", "out", "arcus")
SESSIONS = 100
KEYS = 1_000
COMMANDS = 2 * KEYS
VALUE_BYTES = 100
RUNS = 5
WORKERS = (1, 2, 4)


def key(session, number):
    return b"s%02d:%06d" % (session, number)


def value(number):
    return (b"%d " % number).ljust(VALUE_BYTES, b"v")


def requests_of(session):
    stored = [b"set %s 0 0 %d\r\n%s\r\n" % (key(session, i), VALUE_BYTES, value(i)) for i in range(KEYS)]
    read = [b"get %s\r\n" % key(session, i) for i in range(KEYS)]
    return b"".join(stored + read)


def replies_of(session):
    found = [b"VALUE %s 0 %d\r\n%s\r\nEND\r\n" % (key(session, i), VALUE_BYTES, value(i)) for i in range(KEYS)]
    return b"STORED\r\n" * KEYS + b"".join(found)


def script_of(requests):
    return b"".join(b"session 1\npiece %d\n%s\n" % (len(it), it) for it in requests) + b"end\n"


def records_of(replies):
    return b"".join(b"session %d ended %d\n%s\n" % (number, len(it), it) for number, it in enumerate(replies))


def seconds_of(program, words, sent, wanted):
    with tempfile.TemporaryFile() as source, tempfile.TemporaryFile() as sink:
        source.write(sent)
        source.seek(0)
        start = time.perf_counter()
        subprocess.run([program, *words], stdin=source, stdout=sink, check=True)
        seconds = time.perf_counter() - start
        sink.seek(0)
        if sink.read() != wanted:
            raise SystemExit(f"{' '.join(words)} does not answer what it should")
        return seconds


def instructions_of(program, words, sent):
    with tempfile.TemporaryDirectory() as folder, open(os.path.join(folder, "in"), "w+b") as source:
        source.write(sent)
        source.seek(0)
        command = ["valgrind", "--tool=callgrind", f"--callgrind-out-file={folder}/out", program, *words]
        ran = subprocess.run(command, stdin=source, stdout=subprocess.DEVNULL, stderr=subprocess.PIPE, check=True)
        return int(re.search(rb"Collected : (\d+)", ran.stderr)[1])


def main():
    program = sys.argv[1] if len(sys.argv) > 1 else PROGRAM
    requests = [requests_of(session) for session in range(SESSIONS)]
    replies = [replies_of(session) for session in range(SESSIONS)]
    jobs = [(["session"], b"".join(requests), b"".join(replies))]
    jobs += [(["many", "--workers", str(n)], script_of(requests), records_of(replies)) for n in WORKERS]
    shortest = [min(times) for times in zip(*([seconds_of(program, *job) for job in jobs] for _ in range(RUNS)))]
    commands = SESSIONS * COMMANDS
    print("| | instructions a command | time a command, ns |")
    print("|---|---:|---:|")
    for (words, sent, _), seconds in zip(jobs, shortest):
        print(f"| `{' '.join(words)}` | {instructions_of(program, words, sent) / commands:,.0f} | {seconds * 1e9 / commands:,.0f} |", flush=True)


if __name__ == "__main__":
    main()
