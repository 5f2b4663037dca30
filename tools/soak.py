#!/usr/bin/env python3
"""Lets clients come and go in the middle of requests for a minute, and compares what each is answered.

    python3 tools/soak.py [--seconds N] [--connections N] [--workers N] [--blocking] [--seed N]

It starts `arcus serve --events` on a free port (with --blocking without --events, and a worker for each connection). 200 clients
at once each do one of these, then come again with a new connection:

- whole: they send requests, in one piece or cut into many, and read each answer; with `quit` at the end or without;
- half-closed: they send requests, end their side, and then read the answers, up to the end of the connection;
- cut: they go away within a line or within a block, some by a reset;
- deaf: they ask for large values and go away within the answer.

Each connection has keys of its own, so that each answer is known whole. Beside them are one client that asks every 10 ms and takes the time,
and one that asks for large values and never reads: the server has to stop reading from it, and go on with the others.

It prints what was done. The exit status is 0 where all answers were right, the client that never reads was read no further, and
the server lived. It is no part of the gate. ARCUS names another program than the one that the repository built.
"""

import argparse
import asyncio
import itertools
import json
import os
import random
import signal
import socket
import statistics
import struct
import subprocess
import sys
import time

TOP = os.path.dirname(os.path.dirname(os.path.abspath(__file__)))
PROGRAM = os.environ.get("ARCUS") or os.path.join(TOP, "crates", "arcus", "out", "arcus")
LARGE = b"".join(b"%07d " % number for number in range(1 << 17))
SMALL = b"VALUE small 0 1\r\nx\r\nEND\r\n"
# What a client that never reads can send at most: what the sockets of both sides hold, and some.
MOST_UNREAD = 32 << 20
PATIENCE = 20
# A connection that was cut may still be read, so none has the keys of an earlier one.
NUMBERS = itertools.count()


class Wrong(Exception):
    """An answer is not what it has to be."""


class Counts:
    def __init__(self):
        self.done = {}
        self.answers = 0


def requests_of(chance, slot):
    """Some requests on keys of this connection alone, and the whole answer."""
    sent, answer = [], []

    def ask(line, text):
        sent.append(line)
        answer.append(text)

    key = b"slot:%d:%d" % (slot, next(NUMBERS))
    length = chance.choice([0, 1, 10, 100, 1_000, 20_000, 200_000])
    value = bytes(chance.getrandbits(8) for _ in range(min(length, 1_000))) * max(1, length // 1_000)
    ask(b"set %s 7 0 %d\r\n%s\r\n" % (key, len(value), value), b"STORED\r\n")
    for _ in range(chance.randrange(1, 20)):
        ask(b"get %s\r\n" % key, b"VALUE %s 7 %d\r\n%s\r\nEND\r\n" % (key, len(value), value))
    ask(b"set %s.n 0 0 1 noreply\r\n5\r\n" % key, b"")
    ask(b"incr %s.n 2\r\n" % key, b"7\r\n")

    ask(b"lop insert %s.l 0 3 create 0 0 5\r\none\r\n" % key, b"CREATED_STORED\r\n")
    ask(b"lop get %s.l 0..-1\r\n" % key, b"VALUE 0 1\r\n3 one\r\nEND\r\n")
    ask(b"nonsense\r\n", b"ERROR unknown command\r\n")
    ask(b"delete %s\r\n" % key, b"DELETED\r\n")
    return b"".join(sent), b"".join(answer)


def reset(writer):
    """The connection is to end by a reset."""
    writer.get_extra_info("socket").setsockopt(socket.SOL_SOCKET, socket.SO_LINGER, struct.pack("ii", 1, 0))


async def send_cut(chance, writer, text):
    """Sends the text in pieces."""
    at = 0
    while at < len(text):
        size = chance.choice([1, 3, 50, 1_000, 16_384, 100_000])
        writer.write(text[at : at + size])
        await writer.drain()
        at += size
        if chance.random() < 0.05:
            await asyncio.sleep(chance.random() / 100)


async def whole(chance, slot, reader, writer, counts):
    text, answer = requests_of(chance, slot)
    quits = chance.random() < 0.5
    sending = asyncio.create_task(send_cut(chance, writer, text + (b"quit\r\n" if quits else b"")))
    got = await reader.readexactly(len(answer))
    await sending
    if got != answer or quits and await reader.read(1) != b"":
        raise Wrong(f"whole, slot {slot}")
    counts.answers += answer.count(b"\r\n")


async def half_closed(chance, slot, reader, writer, counts):
    text, answer = requests_of(chance, slot)
    within = chance.choice([b"", b"ge", b"set x 0 0 10\r\nabc"])

    async def send():
        await send_cut(chance, writer, text + within)
        writer.write_eof()

    sending = asyncio.create_task(send())
    got = await reader.read(-1)
    await sending
    if got != answer:
        raise Wrong(f"half-closed, slot {slot}: {len(got)} bytes, and not {len(answer)}")
    counts.answers += answer.count(b"\r\n")


async def cut(chance, slot, reader, writer, counts):
    text, _ = requests_of(chance, slot)
    writer.write(text[: chance.randrange(len(text))])
    if chance.random() < 0.5:
        await asyncio.sleep(chance.random() / 100)
    if chance.random() < 0.5:
        reset(writer)


async def deaf(chance, slot, reader, writer, counts):
    writer.write(b"get large\r\n" * 8)
    await reader.read(chance.randrange(1, 100_000))
    if chance.random() < 0.5:
        reset(writer)


async def come_and_go(seed, slot, port, end, counts):
    chance = random.Random(seed * 1_000_003 + slot)
    while time.monotonic() < end:
        act = chance.choice([whole, whole, half_closed, cut, deaf])
        reader, writer = await asyncio.open_connection("127.0.0.1", port)
        try:
            await asyncio.wait_for(act(chance, slot, reader, writer, counts), PATIENCE)
        except ConnectionError as error:
            if act in (whole, half_closed):
                raise Wrong(f"{act.__name__}, slot {slot}: {error}") from error
        except (asyncio.TimeoutError, asyncio.IncompleteReadError) as error:
            raise Wrong(f"{act.__name__}, slot {slot}: {type(error).__name__}") from error
        finally:
            writer.close()
        counts.done[act.__name__] = counts.done.get(act.__name__, 0) + 1


async def take_time(words, port):
    """Has another process ask every 10 ms and take the time of each answer, since this one is busy."""
    asking = await asyncio.create_subprocess_exec(
        sys.executable, "-c", ASKING, str(port), str(words.seconds), stdout=asyncio.subprocess.PIPE
    )
    told, _ = await asking.communicate()
    if asking.returncode:
        raise Wrong("the client that takes the time")
    return json.loads(told)


ASKING = """
import json, socket, sys, time
answer, waits = b"VALUE small 0 1\\r\\nx\\r\\nEND\\r\\n", []
sock = socket.create_connection(("127.0.0.1", int(sys.argv[1])), 20)
end = time.monotonic() + float(sys.argv[2])
while time.monotonic() < end:
    begun = time.perf_counter()
    sock.sendall(b"get small\\r\\n")
    got = b""
    while len(got) < len(answer):
        piece = sock.recv(len(answer) - len(got))
        assert piece
        got += piece
    assert got == answer
    waits.append(time.perf_counter() - begun)
    time.sleep(0.01)
print(json.dumps(waits))
"""


async def never_read(port, end):
    """Asks for large values as long as the system takes it, and never reads. Gives how many bytes were taken."""
    sock = socket.create_connection(("127.0.0.1", port))
    sock.setblocking(False)
    sent, last = 0, time.monotonic()
    while time.monotonic() < end:
        try:
            sent += sock.send(b"get large\r\n" * 1_000)
            last = time.monotonic()
        except BlockingIOError:
            await asyncio.sleep(0.05)
        if sent > MOST_UNREAD:
            raise Wrong("a client that never reads is read on and on")
    blocked = time.monotonic() - last
    sock.close()
    return sent, blocked


async def soak(words, port):
    counts = Counts()
    reader, writer = await asyncio.open_connection("127.0.0.1", port)
    writer.write(b"set large 0 -1 %d\r\n%s\r\nset small 0 -1 1\r\nx\r\n" % (len(LARGE), LARGE))
    if await reader.readexactly(16) != b"STORED\r\nSTORED\r\n":
        raise Wrong("the first two sets")
    end = time.monotonic() + words.seconds
    clients = [come_and_go(words.seed, slot, port, end, counts) for slot in range(words.connections)]
    *_, waits, (sent, blocked) = await asyncio.gather(*clients, take_time(words, port), never_read(port, end))
    writer.write(b"get small\r\nquit\r\n")
    if await reader.read(-1) != SMALL:
        raise Wrong("the client that was there all the time")
    waits.sort()
    print(f"connections that came and went: {sum(counts.done.values()):,} ({', '.join(f'{n} {c:,}' for n, c in sorted(counts.done.items()))})")
    print(f"lines of answers that were compared: {counts.answers:,}, all right")
    print(
        f"the client that asks every 10 ms waited {1e3 * statistics.median(waits):.2f} ms in the middle, "
        f"{1e3 * waits[len(waits) * 99 // 100]:.1f} ms in 99 of 100, {1e3 * waits[-1]:.1f} ms at most"
    )
    print(f"of the client that never reads {sent:,} bytes were taken, the last {blocked:.1f} s before the end")
    if blocked < words.seconds / 2:
        raise Wrong("a client that never reads was still read in the second half")


def start(words):
    with socket.socket() as chosen:
        chosen.bind(("127.0.0.1", 0))
        port = chosen.getsockname()[1]
    kind = ["--workers", str(words.connections + 8)] if words.blocking else ["--workers", str(words.workers), "--events"]
    server = subprocess.Popen([PROGRAM, "serve", "--port", str(port), "--limit", "256", *kind], stdin=subprocess.DEVNULL)
    for _ in range(500):
        try:
            socket.create_connection(("127.0.0.1", port), 1).close()
            return server, port
        except OSError:
            time.sleep(0.02)
    server.kill()
    sys.exit("the server did not start")


def resident(pid):
    """The resident memory of the server that was started here, in MiB."""
    with open(f"/proc/{pid}/statm") as file:
        return int(file.read().split()[1]) * os.sysconf("SC_PAGE_SIZE") / (1 << 20)


def main():
    parser = argparse.ArgumentParser()
    parser.add_argument("--seconds", type=float, default=60)
    parser.add_argument("--connections", type=int, default=200)
    parser.add_argument("--workers", type=int, default=2)
    parser.add_argument("--blocking", action="store_true")
    parser.add_argument("--seed", type=int, default=1)
    words = parser.parse_args()
    server, port = start(words)
    before = resident(server.pid)
    status = 0
    try:
        asyncio.run(soak(words, port))
        if server.poll() is not None:
            raise Wrong(f"the server ended with {server.returncode}")
        print(f"resident memory: {before:.1f} MiB at first, {resident(server.pid):.1f} MiB at the end")
    except Wrong as wrong:
        print(f"WRONG: {wrong}")
        status = 1
    finally:
        if server.poll() is None:
            server.send_signal(signal.SIGTERM)
        server.wait(10)
    return status


if __name__ == "__main__":
    sys.exit(main())
