#!/usr/bin/env python3
"""Measures `arcus session`, beside memcached and redis on loopback where they are installed.

50,000 `set` of 100-byte values under as many keys of 14 bytes, and then a `get` of each key in mixed order; and the
instructions of requests of one kind each, and of sessions on lists, sets and maps. See README.md in this folder for what is printed and how to read it.

With words it counts the instructions of these programs instead, each run as `PROGRAM session`.
"""

import os
import random
import re
import resource
import shutil
import socket
import statistics
import subprocess
import sys
import tempfile
import threading
import time

TOP = os.path.dirname(os.path.dirname(os.path.abspath(__file__)))
PROGRAM = os.path.join(TOP, "crates", "arcus", "out", "arcus")
KEYS = 50_000
VALUE_BYTES = 100
REQUESTS = 2 * KEYS
RUNS = 5
LARGE_BYTES = 100_000
LARGE_VALUES = 500
ELEMENT_BYTES = 50
LIMIT_MIB = 64
# The stated size of such an item: 64 bytes, its key and its value.
ITEM_BYTES = 64 + 14 + VALUE_BYTES


def key(number):
    return b"key:%010d" % number


def value(number):
    return (b"%d " % number).ljust(VALUE_BYTES, b"v")


def sets(count):
    return b"".join(b"set %s 0 0 %d\r\n%s\r\n" % (key(i), VALUE_BYTES, value(i)) for i in range(count))


def mixed_gets():
    order = list(range(KEYS))
    random.Random(1).shuffle(order)
    return order, b"".join(b"get %s\r\n" % key(i) for i in order)


def expected_replies(order):
    stored = b"STORED\r\n" * KEYS
    found = b"".join(b"VALUE %s 0 %d\r\n%s\r\nEND\r\n" % (key(i), VALUE_BYTES, value(i)) for i in order)
    return stored + found


def session_seconds(path):
    """The wall time of one session from the file to a file, and what it wrote."""
    with open(path, "rb") as source, tempfile.TemporaryFile() as sink:
        start = time.perf_counter()
        subprocess.run([PROGRAM, "session"], stdin=source, stdout=sink, check=True)
        seconds = time.perf_counter() - start
        sink.seek(0)
        return seconds, sink.read()


def peer_seconds(port, requests, reply_bytes):
    """The wall time of the same bytes over one connection, and what came back."""
    with socket.create_connection(("127.0.0.1", port)) as connection:
        replies = bytearray()

        def receive():
            while len(replies) < reply_bytes:
                piece = connection.recv(1 << 20)
                if not piece:
                    break
                replies.extend(piece)

        reader = threading.Thread(target=receive)
        start = time.perf_counter()
        reader.start()
        connection.sendall(requests)
        reader.join()
        return time.perf_counter() - start, bytes(replies)


def free_port():
    with socket.socket() as probe:
        probe.bind(("127.0.0.1", 0))
        return probe.getsockname()[1]


def with_peer(command, port, requests, reply_bytes):
    """The shortest of some runs over a server that is started for them, or None where it is not installed."""
    if shutil.which(command[0]) is None:
        return None
    server = subprocess.Popen(command, stdout=subprocess.DEVNULL, stderr=subprocess.DEVNULL)
    try:
        for _ in range(100):
            try:
                socket.create_connection(("127.0.0.1", port)).close()
                break
            except OSError:
                time.sleep(0.05)
        return [peer_seconds(port, requests, reply_bytes) for _ in range(RUNS)]
    finally:
        server.terminate()
        server.wait()


def redis_bytes(order):
    """The same work in redis's own protocol, and its replies."""
    requests = b"".join(b"*3\r\n$3\r\nSET\r\n$14\r\n%s\r\n$%d\r\n%s\r\n" % (key(i), VALUE_BYTES, value(i)) for i in range(KEYS))
    requests += b"".join(b"*2\r\n$3\r\nGET\r\n$14\r\n%s\r\n" % key(i) for i in order)
    replies = b"+OK\r\n" * KEYS + b"".join(b"$%d\r\n%s\r\n" % (VALUE_BYTES, value(i)) for i in order)
    return requests, replies


def workloads():
    """Kinds of requests: a name, what goes before them, the requests, how many they are, and the most bytes of a read."""
    order, gets = mixed_gets()
    stored = sets(KEYS)
    large = b"".join(b"set big:%d 0 0 %d\r\n%s\r\n" % (i, LARGE_BYTES, b"v" * LARGE_BYTES) for i in range(LARGE_VALUES))
    large_gets = b"".join(b"get big:%d\r\n" % i for i in range(LARGE_VALUES))
    numbers = b"".join(b"set %s 0 0 2\r\n10\r\n" % key(i) for i in range(KEYS))
    tens = b"".join(b"get " + b" ".join(key(i) for i in order[at:at + 10]) + b"\r\n" for at in range(0, KEYS, 10))
    return [
        ("a `set` of a new key, with its release at the end", b"", stored, KEYS, None),
        ("a `get`", stored, gets, KEYS, None),
        ("a `set` of a held key", stored, stored, KEYS, None),
        ("a `get` of 10 keys", stored, tens, KEYS // 10, None),
        ("an `incr`", numbers, b"".join(b"incr %s 1\r\n" % key(i) for i in order), KEYS, None),
        ("an `append` of 10 bytes", stored, b"".join(b"append %s 0 0 10\r\n0123456789\r\n" % key(i) for i in order), KEYS, None),
        ("a `delete`, less the release at the end", stored, b"".join(b"delete %s\r\n" % key(i) for i in order), KEYS, None),
        ("a `set` of 100,000 bytes", b"", large, LARGE_VALUES, None),
        ("a `get` of 100,000 bytes", large, large_gets, LARGE_VALUES, None),
        ("sets and gets that come in pieces of 100 bytes", b"", stored + gets, REQUESTS, 100),
    ]


def element(number):
    return (b"%d " % number).ljust(ELEMENT_BYTES, b"v")


def list_requests():
    """Inserts at the head of 100 lists that hold 500 elements at most, and then reads of the first 20."""
    made = b" create 0 0 500"
    requests = [b"lop insert list:%06d 0 %d%s\r\n%s\r\n" % (i % 100, ELEMENT_BYTES, made if i < 100 else b"", element(i)) for i in range(60_000)]
    requests += [b"lop get list:%06d 0..19\r\n" % random.Random(i).randrange(100) for i in range(60_000)]
    return requests


def set_requests():
    """Inserts into 100 sets, each with a look-up; from the 501st element of a set on its oldest one is deleted."""
    requests = []
    for i in range(80_000):
        name, number = b"set:%07d" % (i % 100), i // 100
        requests.append(b"sop insert %s %d%s\r\n%s\r\n" % (name, ELEMENT_BYTES, b"" if number else b" create 0 0 4000", element(number)))
        if number >= 500:
            requests.append(b"sop delete %s %d\r\n%s\r\n" % (name, ELEMENT_BYTES, element(number - 500)))
        requests.append(b"sop exist %s %d\r\n%s\r\n" % (name, ELEMENT_BYTES, element(number // 2)))
    return requests


def map_requests():
    """The same with the fields of 100 maps."""
    requests = []
    for i in range(80_000):
        name, number = b"map:%07d" % (i % 100), i // 100
        requests.append(b"mop insert %s f%010d %d%s\r\n%s\r\n" % (name, number, ELEMENT_BYTES, b"" if number else b" create 0 0 4000", element(number)))
        if number >= 500:
            requests.append(b"mop delete %s 11 1\r\nf%010d\r\n" % (name, number - 500))
        requests.append(b"mop get %s 11 1\r\nf%010d\r\n" % (name, number // 2))
    return requests


def one_collection(count):
    """So many inserts into one collection of each kind, a look-up of each element, and one removal of all."""
    made = b" create 0 0 1000000"
    one = [b"lop insert l -1 %d%s\r\n%s\r\n" % (ELEMENT_BYTES, b"" if i else made, element(i)) for i in range(count)]
    one += [b"lop get l %d\r\n" % i for i in range(count)] + [b"lop delete l 0..-1\r\n"]
    two = [b"sop insert s %d%s\r\n%s\r\n" % (ELEMENT_BYTES, b"" if i else made, element(i)) for i in range(count)]
    two += [b"sop exist s %d\r\n%s\r\n" % (ELEMENT_BYTES, element(i)) for i in range(count)] + [b"sop get s 0 drop\r\n"]
    three = [b"mop insert m f%010d %d%s\r\n%s\r\n" % (i, ELEMENT_BYTES, b"" if i else made, element(i)) for i in range(count)]
    three += [b"mop get m 11 1\r\nf%010d\r\n" % i for i in range(count)]
    fields = [b" ".join(b"f%010d" % i for i in range(at, at + 5_000)) for at in range(0, count, 5_000)]
    three += [b"mop delete m %d 5000\r\n%s\r\n" % (len(names), names) for names in fields]
    return [("a list", one), ("a set", two), ("a map", three)]


def collection_workloads():
    """Sessions on collections, whole: a name, and the requests."""
    sessions = [("lists", list_requests()), ("sets", set_requests()), ("maps", map_requests())]
    for count in (10_000, 20_000, 40_000):
        sessions += [(f"{name} that grows to {count:,} elements, is read and emptied", requests) for name, requests in one_collection(count)]
    return sessions


def collected(program, requests, piece, folder):
    """User-space instructions of one session by callgrind. Reads give at most `piece` bytes, where it is given."""
    out = os.path.join(folder, "callgrind.out")
    command = ["valgrind", "--tool=callgrind", "--callgrind-out-file=" + out, program, "session"]
    if piece is None:
        with tempfile.TemporaryFile() as source:
            source.write(requests)
            source.seek(0)
            run = subprocess.run(command, stdin=source, stdout=subprocess.DEVNULL, stderr=subprocess.PIPE, check=True)
            return int(re.search(rb"Collected : (\d+)", run.stderr).group(1))
    # A read of such a socket gives one packet.
    ours, theirs = socket.socketpair(socket.AF_UNIX, socket.SOCK_SEQPACKET)
    with ours, subprocess.Popen(command, stdin=theirs, stdout=subprocess.DEVNULL, stderr=subprocess.PIPE) as run:
        theirs.close()
        for at in range(0, len(requests), piece):
            ours.sendall(requests[at:at + piece])
        ours.shutdown(socket.SHUT_WR)
        return int(re.search(rb"Collected : (\d+)", run.stderr.read()).group(1))


def tell_instructions(programs, folder):
    """Prints the instructions of a request of each kind, for each program."""
    if shutil.which("valgrind") is None:
        print("instructions: valgrind is not installed")
        return
    print("instructions a request in user space: " + ", ".join(os.path.basename(program) for program in programs))
    for name, before, requests, count, piece in workloads():
        figures = []
        for program in programs:
            both = collected(program, before + requests, piece, folder)
            figures.append((both - collected(program, before, None, folder)) / count)
        print(f"  {name}: " + ", ".join(f"{figure:,.0f}" for figure in figures))
    for name, requests in collection_workloads():
        figures = [collected(program, b"".join(requests), None, folder) / len(requests) for program in programs]
        print(f"  {name}: " + ", ".join(f"{figure:,.0f}" for figure in figures))


def peak_bytes():
    """The process's peak of resident memory with the cache full, and the bytes that are accounted then."""
    count = LIMIT_MIB * (1 << 20) // ITEM_BYTES
    source = tempfile.TemporaryFile()
    source.write(sets(count + count // 4))
    source.seek(0)
    pid = os.fork()
    if pid == 0:
        os.dup2(source.fileno(), 0)
        os.dup2(os.open(os.devnull, os.O_WRONLY), 1)
        os.execv(PROGRAM, [PROGRAM, "session", "--limit", str(LIMIT_MIB)])
    _, status, usage = os.wait4(pid, 0)
    if status != 0:
        sys.exit("the session that fills the cache failed")
    return usage.ru_maxrss * 1024, count * ITEM_BYTES


def tell(name, runs, replies, ours=None):
    """Prints the time per request of the shortest run, and checks what was answered."""
    if runs is None:
        print(f"{name}: not installed")
        return None
    if any(text != replies for _, text in runs):
        sys.exit(f"{name} answered something else")
    shortest = min(seconds for seconds, _ in runs)
    middle = statistics.median(seconds for seconds, _ in runs)
    ratio = "" if ours is None else f", {shortest / ours:.2f} times the session's"
    print(f"{name}: {shortest / REQUESTS * 1e6:.3f} us a request (middle run {middle / REQUESTS * 1e6:.3f}){ratio}")
    return shortest


def main():
    if len(sys.argv) > 1:
        with tempfile.TemporaryDirectory() as folder:
            tell_instructions(sys.argv[1:], folder)
        return
    if not os.path.exists(PROGRAM):
        sys.exit(f"{PROGRAM} is not there: build it by ./arcus")
    order, gets = mixed_gets()
    requests, replies = sets(KEYS) + gets, expected_replies(order)
    with tempfile.TemporaryDirectory() as folder:
        path = os.path.join(folder, "input")
        with open(path, "wb") as file:
            file.write(requests)
        print(f"{KEYS} sets of {VALUE_BYTES}-byte values and as many gets in mixed order; the shortest of {RUNS} runs")
        ours = tell("arcus session, file to file", [session_seconds(path) for _ in range(RUNS)], replies)
        port = free_port()
        tell("memcached, one thread, one connection on loopback", with_peer(
            ["memcached", "-u", "nobody", "-l", "127.0.0.1", "-p", str(port), "-t", "1", "-m", "64", "-U", "0"],
            port, requests, len(replies)), replies, ours)
        redis_requests, redis_replies = redis_bytes(order)
        port = free_port()
        tell("redis, one connection on loopback", with_peer(
            ["redis-server", "--bind", "127.0.0.1", "--port", str(port), "--save", "", "--appendonly", "no"],
            port, redis_requests, len(redis_replies)), redis_replies, ours)
        tell_instructions([PROGRAM], folder)
    peak, accounted = peak_bytes()
    print(f"memory: a peak of {peak / (1 << 20):.1f} MiB with {accounted / (1 << 20):.1f} MiB accounted, a ratio of {peak / accounted:.2f}")


if __name__ == "__main__":
    main()
