#!/usr/bin/env python3
"""Runs sessions of the program with each allocation failing in turn.

For N = 1, 2, .. the Nth allocation of the process fails (`rt try --fail-alloc N`), until a run of so many N in a row has
gone as if memory were there. Each outcome has to be one of these:

- the session's output, as where memory is there;
- `SERVER_ERROR no memory from the system` in the place of one reply, and behind it the answers of a machine on which that
  request left nothing changed;
- exit status 10, which is `NoMemory`, and a front of such an output.

The machine is the few lines of `Machine` below: items in the order of their use, and a limit. Ends with 0 where all
outcomes are such, and with 1 at the first that is not.
"""

import os
import re
import subprocess
import sys
import tempfile

TOP = os.path.dirname(os.path.dirname(os.path.abspath(__file__)))
PROGRAM = os.path.join(TOP, "crates", "arcus")
LIMIT_MIB = 1
# With so many runs in a row as where memory is there, no allocation is left to fail.
QUIET_RUNS = 4
NO_MEMORY = b"SERVER_ERROR no memory from the system\r\n"
NO_MEMORY_STATUS = 10

# Each session: its commands, a line and its block or None. (`rt try` takes at most 1,048,576 bytes of output.)
SESSIONS = {
    "set_and_get": [("set a 5 0 3", b"abc"), ("get a", None)],
    "evicted_by_recency": [
        ("set a 0 0 500000", b"x" * 500_000),
        ("set b 0 0 548446", b"y" * 548_446),
        ("get a", None),
        ("set c 0 0 0", b""),
        ("get b", None),
    ],
    "used_and_held": [
        ("set a 0 0 500000", b"x" * 500_000),
        ("set b 0 0 548446", b"y" * 548_446),
        ("get a", None),
        ("set c 0 0 0", b""),
        ("get a", None),
    ],
    "sticky_items_stay": [
        ("set a 0 -1 500000", b"x" * 500_000),
        ("set b 0 -1 548446", b"y" * 548_446),
        ("set c 0 0 0", b""),
        ("get a b c", None),
    ],
    "touched_to_be_sticky": [
        ("set a 0 0 1", b"x"),
        ("touch a -1", None),
        ("set b 0 0 1048445", b"z" * 1_048_445),
        ("set c 0 0 0", b""),
        ("get a", None),
        ("get b", None),
    ],
}


class Machine:
    """`set`, `get` and `touch` on items that never expire."""

    def __init__(self, limit):
        self.limit = limit
        # By key: flags, whether sticky, value; the least recently used first.
        self.items = {}

    def used(self, key):
        self.items[key] = self.items.pop(key)

    def total(self, items):
        return sum(64 + len(key) + len(value) for key, (_, _, value) in items.items())

    def set(self, key, flags, sticky, value):
        items = dict(self.items)
        items.pop(key, None)
        items[key] = (flags, sticky, value)
        for other in [k for k, (_, is_sticky, _) in items.items() if k != key and not is_sticky]:
            if self.total(items) <= self.limit:
                break
            del items[other]
        if self.total(items) > self.limit:
            return b"SERVER_ERROR out of memory\r\n"
        self.items = items
        return b"STORED\r\n"

    def get(self, keys):
        text = b""
        for key in keys:
            if key in self.items:
                flags, _, value = self.items[key]
                text += b"VALUE %s %d %d\r\n%s\r\n" % (key.encode(), flags, len(value), value)
                self.used(key)
        return text + b"END\r\n"

    def touch(self, key, sticky):
        if key not in self.items:
            return b"NOT_FOUND\r\n"
        flags, _, value = self.items[key]
        self.items[key] = (flags, sticky, value)
        self.used(key)
        return b"TOUCHED\r\n"

    def answer(self, line, block):
        verb, *words = line.split()
        if verb == "set":
            return self.set(words[0], int(words[1]), words[2] == "-1", block)
        if verb == "get":
            return self.get(words)
        return self.touch(words[0], words[1] == "-1")


def output(commands, refused):
    """The text of a session in which memory is refused for the command at this place, or for none."""
    machine = Machine(LIMIT_MIB << 20)
    return b"".join(
        NO_MEMORY if place == refused else machine.answer(line, block) for place, (line, block) in enumerate(commands)
    )


def input_of(commands):
    return b"".join(line.encode() + b"\r\n" + (b"" if block is None else block + b"\r\n") for line, block in commands)


def outcome(commands, status, text):
    """What an outcome is, or None where it may not be."""
    if status == 0 and text == output(commands, None):
        return "as with memory"
    for place, (line, _) in enumerate(commands):
        if status == 0 and text == output(commands, place):
            return f"no memory for `{line}`"
    texts = [output(commands, place) for place in [None, *range(len(commands))]]
    if status == NO_MEMORY_STATUS and any(whole.startswith(text) for whole in texts):
        return "NoMemory" + (f" behind {len(text)} bytes" if text else "")
    return None


def run(number, folder):
    """Status and output of each session with this allocation failing."""
    ran = subprocess.run(
        ["rt", "try", "--fail-alloc", str(number), "--seconds", "100", "--cases", folder, "--", "session", "--limit", str(LIMIT_MIB)],
        cwd=PROGRAM,
        stdout=subprocess.PIPE,
        stderr=subprocess.STDOUT,
    )
    found = {}
    for name in SESSIONS:
        start = ran.stdout.find(b"== %s\n" % name.encode())
        end = re.search(rb"^case=%s run=ended status=(\d+)" % name.encode(), ran.stdout, re.M)
        if start < 0 or end is None:
            sys.exit(f"N = {number}: {name} did not run to its end:\n{ran.stdout[-2000:].decode(errors='replace')}")
        text = ran.stdout[ran.stdout.index(b"\n", start) + 1 : end.start()]
        found[name] = (int(end[1]), text)
    return found


def without_notes(text):
    """The program's output, without what `rt try` and the program's own status line say behind it."""
    text = re.sub(rb"(?m)^allocations: (?:at least )?\d+\n", b"", text)
    return re.sub(rb"(?m)^arcus: no memory\n", b"", text)


def main():
    quiet = 0
    number = 0
    with tempfile.TemporaryDirectory() as folder:
        for name, commands in SESSIONS.items():
            with open(os.path.join(folder, name), "wb") as file:
                file.write(input_of(commands))
        while quiet < QUIET_RUNS:
            number += 1
            seen = {}
            for name, (status, text) in run(number, folder).items():
                seen[name] = outcome(SESSIONS[name], status, without_notes(text))
                if seen[name] is None:
                    print(f"N = {number}, {name}: status {status} and {len(text)} bytes that may not be: {text[:300]!r}")
                    return 1
            print(f"N = {number}: " + "; ".join(f"{name}: {what}" for name, what in seen.items()), flush=True)
            quiet = quiet + 1 if all(what == "as with memory" for what in seen.values()) else 0
    print(f"{number} numbers, {len(SESSIONS)} sessions each: no other outcome")
    return 0


if __name__ == "__main__":
    sys.exit(main())
