"""pymemcache over the key-value commands: PORT."""

import sys

from pymemcache.client.base import Client, PooledClient
from pymemcache.client.hash import HashClient
from pymemcache.exceptions import MemcacheClientError, MemcacheError, MemcacheUnknownCommandError

PORT = int(sys.argv[1])
steps = 0


def check(name, got, wanted):
    global steps
    if got != wanted:
        sys.exit(f"pymemcache: {name}: {got!r:.200}, and not {wanted!r:.200}")
    steps += 1


def refused(name, kind, call):
    """The call is answered with an error, which this client tells by its kind."""
    try:
        got = call()
    except kind as error:
        print(f"  {name}: {type(error).__name__} {error}")
        return
    except MemcacheError as error:
        sys.exit(f"pymemcache: {name}: {type(error).__name__}, and not {kind.__name__}")
    sys.exit(f"pymemcache: {name}: {got!r}, and no error")


def key_value(client, prefix):
    key = lambda name: prefix + name
    check("set", client.set(key("a"), b"one", noreply=False), True)
    check("get", client.get(key("a")), b"one")
    check("add", client.add(key("a"), b"two", noreply=False), False)
    check("replace", client.replace(key("a"), b"three", noreply=False), True)
    check("append", client.append(key("a"), b"!", noreply=False), True)
    check("prepend", client.prepend(key("a"), b">", noreply=False), True)
    check("get, behind both", client.get(key("a")), b">three!")
    value, unique = client.gets(key("a"))
    check("gets", value, b">three!")
    check("cas", client.cas(key("a"), b"four", unique, noreply=False), True)
    check("cas with an old unique", client.cas(key("a"), b"five", unique, noreply=False), False)
    many = {key("m%d" % i): b"%d" % i for i in range(200)}
    check("set_many", client.set_many(many, noreply=False), [])
    check("get_many", client.get_many(list(many)), many)
    check("delete_many", client.delete_many(list(many)[:100], noreply=False), True)
    check("get_many, half of them gone", client.get_many(list(many)), dict(list(many.items())[100:]))
    client.set(key("n"), b"41", noreply=False)
    check("incr", client.incr(key("n"), 1), 42)
    check("decr", client.decr(key("n"), 50), 0)
    check("incr of no item", client.incr(key("none"), 1), None)
    check("touch", client.touch(key("a"), 100, noreply=False), True)
    check("touch of no item", client.touch(key("none"), 100, noreply=False), False)
    check("delete", client.delete(key("a"), noreply=False), True)
    check("delete of no item", client.delete(key("a"), noreply=False), False)
    check("get of no item", client.get(key("a")), None)
    large = bytes(range(256)) * 4096
    check("set of 1 MiB", client.set(key("large"), large, noreply=False), True)
    check("get of 1 MiB", client.get(key("large")), large)
    check("set without a reply", client.set(key("quiet"), b"x", noreply=True), True)
    check("get behind it", client.get(key("quiet")), b"x")
    check("an exptime below 0", client.set(key("gone"), b"x", expire=-2, noreply=False), True)
    check("get of it", client.get(key("gone")), None)


def main():
    single = Client(("127.0.0.1", PORT), connect_timeout=5, timeout=5)
    key_value(single, "single.")
    key_value(PooledClient(("127.0.0.1", PORT), max_pool_size=4, connect_timeout=5, timeout=5), "pool.")
    key_value(HashClient([("127.0.0.1", PORT)], connect_timeout=5, timeout=5), "hash.")
    check("version", single.version(), b"arcus-profile-2")
    # What this client can send and this server leaves out, with its answer. The client closes its connection behind an error.
    refused("flush_all, which it sends with a delay of 0", MemcacheClientError, lambda: single.flush_all(noreply=False))
    refused("stats", MemcacheUnknownCommandError, single.stats)
    refused("cache_memlimit", MemcacheUnknownCommandError, lambda: single.cache_memlimit(64))
    check("get behind the errors", single.get("single.quiet"), b"x")
    print(f"pymemcache: {steps} steps\nok")


main()
