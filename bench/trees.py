#!/usr/bin/env python3
"""Measures operations on trees, in instructions and memory. See README.md in this folder.

The program is made from bench/trees as a crate in a scratch folder, since it is no part of the repository's crates.
"""

import os
import re
import shutil
import subprocess
import sys

TOP = os.path.dirname(os.path.dirname(os.path.abspath(__file__)))
SCRATCH = sys.argv[1] if len(sys.argv) > 1 else "/tmp/trees_bench"
NEEDED = ("arc_core", "eflag_filter", "btree_nodes", "btree_scan")
PROGRAM = os.path.join(SCRATCH, "crates", "trees_bench", "out", "trees_bench")
# The stated size of an element with a number as bkey and a value of 100 bytes.
STATED = 156


def read(*path):
    with open(os.path.join(*path)) as file:
        return file.read()


def write(text, *path):
    path = os.path.join(*path)
    os.makedirs(os.path.dirname(path), exist_ok=True)
    with open(path, "w") as file:
        file.write(text)


def copy_crate(name):
    """Copies a crate, and keeps what an earlier run proved in its folder `out`."""
    for folder in ("src", "specs", "proofs"):
        there = os.path.join(SCRATCH, "crates", name, folder)
        shutil.rmtree(there, ignore_errors=True)
        here = os.path.join(TOP, "crates", name, folder)
        if os.path.isdir(here):
            shutil.copytree(here, there)


def picks(function, clause, body, use=""):
    return f"{use}use Rattle.trees_bench.proofs.{function}.Given as goal\n\nabbrev pub {clause} : goal.{clause}\n{clause} {body}\n"


def make():
    """A repository of the crates that are needed, and the program's crate."""
    lines = [line for line in read(TOP, "crates.txt").splitlines() if line.split(":")[0] in NEEDED]
    for name in NEEDED:
        copy_crate(name)
    write("\n".join(lines + ["trees_bench: arc_core btree_nodes btree_scan"]) + "\n", SCRATCH, "crates.txt")
    shutil.copy(os.path.join(TOP, "HANDLES"), SCRATCH)
    crate = os.path.join(SCRATCH, "crates", "trees_bench")
    source = os.path.join(TOP, "bench", "trees")
    write(read(source, "main.rt.txt"), crate, "src", "main.rt")
    write("pub mod Numbers\n", crate, "specs", "Lib.antt")
    write(read(source, "numbers.txt"), crate, "specs", "Numbers.antt")
    write("pub mod NumberLemmas\n", crate, "proofs", "Lib.antt")
    write(read(source, "number_lemmas.txt"), crate, "proofs", "NumberLemmas.antt")
    has = "use Rattle.trees_bench.specs.Numbers.{HasNumbers}\n"
    for function, clause, body, use in (
        ("answer_of", "ghosts-measure", "a = record { name = a.blank.name; parts = a.blank.parts }", ""),
        ("tree_of", "invariant-loop-number", "g l = HasNumbers l.tree.elements", has),
        ("roll", "invariant-loop-i", "g l = HasNumbers l.tree.elements", has),
    ):
        write(picks(function, clause, body, use), crate, "proofs", function, "Invariants.antt")


def build():
    """Proves and builds the program."""
    with open(os.path.join(SCRATCH, "build.log"), "w") as log:
        subprocess.run(["rt", "run", "--", "roll", "1", "1"], cwd=os.path.join(SCRATCH, "crates", "trees_bench"), stdout=log, stderr=log, check=True)


def instructions(mode, elements, times):
    words = ["valgrind", "--tool=callgrind", "--callgrind-out-file=/dev/null", PROGRAM, mode, str(elements), str(times)]
    return int(re.search(r"Collected : (\d+)", subprocess.run(words, capture_output=True, text=True, check=True).stderr).group(1))


def resident(*words):
    child = subprocess.Popen([PROGRAM, *map(str, words)], stdout=subprocess.DEVNULL)
    return os.wait4(child.pid, 0)[2].ru_maxrss * 1024


def memory():
    # Between two counts of trees, since the smallest figure that is given is this script's own size.
    for elements, trees in ((5, 40_000), (50, 4_000), (5_000, 40)):
        each = (resident("hold", elements, 3 * trees) - resident("hold", elements, trees)) / (2 * elements * trees)
        print(f"trees of {elements}: {each:.0f} bytes an element, {each / STATED:.2f} times the stated size", flush=True)


def operations(elements, times):
    # Between two counts of times, so that building the tree and letting it go count for nothing.
    roll, position, cursor, opened = (
        (instructions(mode, elements, 2 * times) - instructions(mode, elements, times)) / times for mode in ("roll", "position", "cursor", "open")
    )
    removed = min(elements // 2, 1_000)
    range_each = (instructions("range", elements, removed) - instructions("range", elements, 0)) / removed
    print(f"{elements} elements: insert and removal {roll:.0f}, position {position:.0f}, opening a cursor {opened:.0f},", end=" ")
    print(f"one element of it {(cursor - opened) / 20:.0f}, one of a range of {removed} that is removed {range_each:.0f}", flush=True)


if __name__ == "__main__":
    make()
    build()
    memory()
    for elements, times in ((100, 2_000), (500, 2_000), (1_000, 2_000), (1_000_000, 20_000)):
        operations(elements, times)
