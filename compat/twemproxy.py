"""twemproxy (nutcracker) in front of three servers, each with a limit of 1 MiB: PORT PORT PORT.

Keys are spread by consistent hashing, so that three caches hold what one cannot.
"""

import os
import signal
import socket
import subprocess
import sys
import tempfile
import time

from pymemcache.client.base import Client

PORTS = [int(word) for word in sys.argv[1:]]
KEYS = 2_000
VALUE_BYTES = 1_000
# The stated size of an item: 64 bytes, its key and its value.
ITEM_BYTES = 64 + 8 + VALUE_BYTES
LIMIT_BYTES = 1 << 20
steps = 0


def check(name, holds, told=""):
    global steps
    if not holds:
        sys.exit(f"twemproxy: {name}: {told}")
    steps += 1


def free_port():
    with socket.socket() as chosen:
        chosen.bind(("127.0.0.1", 0))
        return chosen.getsockname()[1]


def key(number):
    return "key:%04d" % number


def value(number):
    return (b"%d " % number).ljust(VALUE_BYTES, b"v")


def held(client):
    """How many of the keys this cache holds, each with its own value."""
    count = 0
    for first in range(0, KEYS, 100):
        names = [key(number) for number in range(first, first + 100)]
        for name, got in client.get_many(names).items():
            check("the value of " + name, got == value(int(name[4:])), repr(got[:40]))
            count += 1
    return count


def connect(port):
    return Client(("127.0.0.1", port), connect_timeout=5, timeout=5)


def through(proxy, servers):
    for number in range(KEYS):
        check("set", proxy.set(key(number), value(number), noreply=False) is True)
    check(f"all {KEYS} keys are held", held(proxy) == KEYS, f"{held(proxy)} are")
    shares = [held(server) for server in servers]
    check("each key is in one cache", sum(shares) == KEYS, f"{shares}")
    check("no cache has less than a fifth of them", min(shares) * 5 >= KEYS, f"{shares}")
    print(f"  {KEYS} items of {ITEM_BYTES} bytes are {KEYS * ITEM_BYTES:,} bytes, of which one cache holds {LIMIT_BYTES:,}; the three hold {shares}")
    check("add", proxy.add(key(0), b"x", noreply=False) is False)
    got, unique = proxy.gets(key(0))
    check("cas", proxy.cas(key(0), b"41", unique, noreply=False) is True)
    check("incr", proxy.incr(key(0), 1) == 42)
    check("delete", proxy.delete(key(0), noreply=False) is True)
    check("get of no item", proxy.get(key(0)) is None)
    check("touch", proxy.touch(key(1), 100, noreply=False) is True)


def alone(server):
    for number in range(KEYS):
        check("set", server.set(key(number), value(number), noreply=False) is True)
    count = held(server)
    check("one cache alone has evicted", count * ITEM_BYTES <= LIMIT_BYTES < (count + 1) * ITEM_BYTES, f"{count} are held")
    print(f"  the same items in one cache alone: {count} are held, and the others were evicted")


def main():
    listen = free_port()
    with tempfile.TemporaryDirectory() as folder:
        conf = os.path.join(folder, "nutcracker.yml")
        with open(conf, "w") as file:
            servers = "".join(f"   - 127.0.0.1:{port}:1\n" for port in PORTS)
            file.write(
                f"cache:\n  listen: 127.0.0.1:{listen}\n  hash: md5\n  distribution: ketama\n"
                f"  timeout: 2000\n  auto_eject_hosts: false\n  servers:\n{servers}"
            )
        words = ["nutcracker", "-c", conf, "-a", "127.0.0.1", "-s", str(free_port()), "-o", os.path.join(folder, "log")]
        process = subprocess.Popen(words, stdin=subprocess.DEVNULL)
        try:
            end = time.monotonic() + 5
            while True:
                try:
                    socket.create_connection(("127.0.0.1", listen), 1).close()
                    break
                except OSError:
                    if time.monotonic() > end:
                        sys.exit("twemproxy did not start: " + open(os.path.join(folder, "log")).read())
                    time.sleep(0.02)
            through(connect(listen), [connect(port) for port in PORTS])
        finally:
            process.send_signal(signal.SIGTERM)
            process.wait(10)
    alone(connect(PORTS[0]))
    print(f"twemproxy: {steps} steps\nok")


main()
