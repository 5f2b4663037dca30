"""pylibmc, a client over libmemcached, with the text protocol: PORT."""

import sys

import pylibmc

PORT = sys.argv[1]
steps = 0


def check(name, got, wanted):
    global steps
    if got != wanted:
        sys.exit(f"pylibmc: {name}: {got!r:.200}, and not {wanted!r:.200}")
    steps += 1


def refused(name, call):
    try:
        got = call()
    except pylibmc.Error as error:
        print(f"  {name}: {type(error).__name__} {error}")
        return
    sys.exit(f"pylibmc: {name}: {got!r}, and no error")


def key_value(client, prefix):
    key = lambda name: prefix + name
    check("set", client.set(key("a"), "one"), True)
    check("get", client.get(key("a")), "one")
    check("set of a number", client.set(key("number"), 41), True)
    check("set of an object", client.set(key("object"), {"list": [1, 2, 3]}), True)
    check("get of an object", client.get(key("object")), {"list": [1, 2, 3]})
    check("add", client.add(key("a"), "two"), False)
    check("replace", client.replace(key("a"), b"three"), True)
    check("append", client.append(key("a"), b"!"), True)
    check("prepend", client.prepend(key("a"), b">"), True)
    check("get, behind both", client.get(key("a")), b">three!")
    many = {key("m%d" % i): "value %d" % i for i in range(200)}
    check("set_multi", client.set_multi(many), [])
    check("get_multi", client.get_multi(list(many)), many)
    check("delete_multi", client.delete_multi(list(many)[:100]), True)
    check("get_multi, half of them gone", client.get_multi(list(many)), dict(list(many.items())[100:]))
    check("incr", client.incr(key("number")), 42)
    check("decr", client.decr(key("number"), 50), 0)
    check("touch", client.touch(key("a"), 100), True)
    check("touch of no item", client.touch(key("none"), 100), False)
    check("delete", client.delete(key("a")), True)
    check("delete of no item", client.delete(key("a")), False)
    check("get of no item", client.get(key("a")), None)
    large = bytes(range(256)) * 4000
    check("set of 1,024,000 bytes", client.set(key("large"), large), True)
    check("get of 1,024,000 bytes", client.get(key("large")), large)


def main():
    plain = pylibmc.Client(["127.0.0.1:" + PORT])
    key_value(plain, "plain.")
    key_value(pylibmc.Client(["127.0.0.1:" + PORT], behaviors={"tcp_nodelay": True, "ketama": True, "no_block": True}), "ketama.")
    cas = pylibmc.Client(["127.0.0.1:" + PORT], behaviors={"cas": True})
    cas.set("a", "one")
    value, unique = cas.gets("a")
    check("gets", value, "one")
    check("cas", cas.cas("a", "two", unique), True)
    check("cas with an old unique", cas.cas("a", "three", unique), False)
    quiet = pylibmc.Client(["127.0.0.1:" + PORT], behaviors={"_noreply": True})
    quiet.set("quiet", "x")
    check("get behind a set without a reply, on the same connection", quiet.get("quiet"), "x")
    check("flush_all", plain.flush_all(), True)
    check("get behind it", plain.get("plain.large"), None)
    # What this server leaves out, with its answer, as this client tells it.
    refused("stats", plain.get_stats)
    print(f"pylibmc: {steps} steps\nok")


main()
