"""python-memcached over the key-value commands: PORT."""

import socket
import sys

import memcache

PORT = sys.argv[1]
steps = 0


def check(name, got, wanted):
    global steps
    if got != wanted:
        sys.exit(f"python-memcached: {name}: {got!r:.200}, and not {wanted!r:.200}")
    steps += 1


def main():
    client = memcache.Client(["127.0.0.1:" + PORT], debug=0, socket_timeout=2, cache_cas=True)
    check("set", client.set("a", "one"), True)
    check("get", client.get("a"), "one")
    check("set of a number", client.set("number", 41), True)
    check("get of a number", client.get("number"), 41)
    check("set of an object", client.set("object", {"list": [1, 2, 3]}), True)
    check("get of an object", client.get("object"), {"list": [1, 2, 3]})
    # This client tells a refusal as False or 0.
    check("add", client.add("a", "two"), False)
    check("replace", client.replace("a", "three"), True)
    check("append", client.append("a", "!"), True)
    check("prepend", client.prepend("a", ">"), True)
    check("get, behind both", client.get("a"), ">three!")
    check("gets", client.gets("a"), ">three!")
    check("cas", client.cas("a", "four"), True)
    check("cas with an old unique", client.cas("a", "five"), False)
    many = {"m%d" % i: "value %d" % i for i in range(200)}
    check("set_multi", client.set_multi(many), [])
    check("get_multi", client.get_multi(many), many)
    check("delete_multi", client.delete_multi(list(many)[:100]), 1)
    check("get_multi, half of them gone", client.get_multi(many), dict(list(many.items())[100:]))
    check("incr", client.incr("number"), 42)
    check("decr", client.decr("number", 50), 0)
    check("incr of no item", client.incr("none"), None)
    check("touch", client.touch("a", 100), 1)
    check("touch of no item", client.touch("none", 100), 0)
    check("delete", client.delete("a"), 1)
    check("delete of no item is right to this client too", client.delete("a"), 1)
    check("get of no item", client.get("a"), None)
    compressed = "text " * 100_000
    check("set of a value that is compressed", client.set("long", compressed, min_compress_len=1000), True)
    check("get of it", client.get("long"), compressed)
    check("set without a reply", client.set("quiet", "x", noreply=True), True)
    check("get behind it", client.get("quiet"), "x")
    # It sends flush_all without a delay, and reads one line.
    client.flush_all()
    check("get behind flush_all", client.get("quiet"), None)
    # What this server leaves out: this client looks for `END` behind the answer until its time is over.
    try:
        client.get_stats()
        sys.exit("python-memcached: stats: no error")
    except socket.timeout:
        print("  stats: ERROR unknown command, behind which the client waits for END: socket.timeout after its 2 seconds")
    client.disconnect_all()
    check("get behind it", client.get("quiet"), None)
    print(f"python-memcached: {steps} steps\nok")


main()
