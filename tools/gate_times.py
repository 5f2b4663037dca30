#!/usr/bin/env python3
"""Measures where the time of the gate goes, and prints it as the table of docs/GATE.md.

    python3 tools/gate_times.py [CRATE ..]

For each crate, in the order of crates.txt, it takes the processor time of `rt verdict`, which proves the crate from nothing with
its tests, and of `rt must-fail`, which tries its edits. The libraries below are built first and are not counted. Processor time
hardly depends on what else the machine does; the gate has as many processors at work as there are.
"""

import os
import re
import resource
import subprocess
import sys

TOP = os.path.dirname(os.path.dirname(os.path.abspath(__file__)))


def all_crates():
    """The names in crates.txt, in its order."""
    with open(os.path.join(TOP, "crates.txt"), encoding="utf-8") as file:
        return [found[1] for found in map(re.compile(r"(\w+)[ :]").match, file) if found]


def processor_seconds():
    """What all commands that have ended took."""
    used = resource.getrusage(resource.RUSAGE_CHILDREN)
    return used.ru_utime + used.ru_stime


def run(crate, command):
    """Whether a command ends well in a crate's folder."""
    folder = os.path.join(TOP, "crates", crate)
    return subprocess.run(["rt", *command], cwd=folder, stdout=subprocess.DEVNULL, stderr=subprocess.DEVNULL).returncode == 0


def minutes(crate, *command):
    """How many processor minutes a command takes, or that it failed."""
    begun = processor_seconds()
    return f"{(processor_seconds() - begun) / 60:.1f}" if run(crate, command) else "failed"


def edits(crate):
    """How many edits the crate has."""
    folder = os.path.join(TOP, "crates", crate, "must-fail")
    return len(os.listdir(folder)) if os.path.isdir(folder) else 0


def main():
    print("| Crate | proofs and tests | edits | their number |\n|---|---:|---:|---:|")
    failed = False
    for crate in sys.argv[1:] or all_crates():
        failed = not run(crate, ["check"]) or failed
        count = edits(crate)
        row = [minutes(crate, "verdict"), minutes(crate, "must-fail", "--anew") if count else "", str(count or "")]
        failed = failed or "failed" in row
        print(f"| {crate} | {' | '.join(row)} |", flush=True)
    return 1 if failed else 0


if __name__ == "__main__":
    sys.exit(main())
