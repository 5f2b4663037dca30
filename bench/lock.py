#!/usr/bin/env python3
"""Measures the turn lock beside a mutex of the standard library, in the same run. See README.md in this folder.

The program is made anew from bench/lock and the tests' executor, as a crate in a scratch folder, since it is no part of the
repository's crates.
"""

import os
import re
import resource
import shutil
import statistics
import subprocess
import sys

TOP = os.path.dirname(os.path.dirname(os.path.abspath(__file__)))
SCRATCH = sys.argv[1] if len(sys.argv) > 1 else "/tmp/lock_bench"
NEEDED = ("arc_core", "turn_lock")


def read(path):
    with open(path) as file:
        return file.read()


def write(path, text):
    os.makedirs(os.path.dirname(path), exist_ok=True)
    with open(path, "w") as file:
        file.write(text)


def crate_line(name):
    return next((line for line in read(os.path.join(TOP, "crates.txt")).splitlines() if re.match(name + r"[ :]", line)), None)


def make():
    """A repository of the crates that are needed, and the program's crate."""
    shutil.rmtree(os.path.join(SCRATCH, "crates"), ignore_errors=True)
    lines = []
    for name in NEEDED:
        if crate_line(name):
            lines.append(crate_line(name))
            shutil.copytree(os.path.join(TOP, "crates", name), os.path.join(SCRATCH, "crates", name), ignore=shutil.ignore_patterns("out"))
    lines.append("lock_bench: arc_core turn_lock")
    write(os.path.join(SCRATCH, "crates.txt"), "\n".join(lines) + "\n")
    shutil.copy(os.path.join(TOP, "HANDLES"), SCRATCH)
    bench = os.path.join(SCRATCH, "crates", "lock_bench")
    lock = os.path.join(TOP, "crates", "turn_lock")

    def renamed(text):
        return text.replace("Rattle.turn_lock.specs.Trials", "Rattle.lock_bench.specs.Trials").replace(
            "Rattle.turn_lock.proofs", "Rattle.lock_bench.proofs"
        )

    for name in ("main.rt", "slow.rt"):
        write(os.path.join(bench, "src", name), read(os.path.join(TOP, "bench", "lock", name + ".txt")))
    write(os.path.join(bench, "src", "vacant.rt"), renamed(read(os.path.join(lock, "src", "vacant.rt"))))
    write(os.path.join(bench, "specs", "Lib.antt"), "pub mod Trials\n")
    write(os.path.join(bench, "specs", "Trials.antt"), renamed(read(os.path.join(lock, "specs", "Trials.antt"))))
    write(os.path.join(bench, "proofs", "Lib.antt"), "pub mod Trials\n")
    write(os.path.join(bench, "proofs", "Trials.antt"), renamed(read(os.path.join(lock, "proofs", "Trials.antt"))))
    for method in ("execute", "keeps_the_rules"):
        path = os.path.join("proofs", "vacant", "VacantExecutor", method, "Answers.antt")
        write(os.path.join(bench, path), renamed(read(os.path.join(lock, path))))
    for name, goal in (("ask", "execute-requires-clause-request g c"), ("ask_mutex", "execute-requires g c"), ("ask_bare", "execute-requires c")):
        clause = goal.split()[0]
        write(
            os.path.join(bench, "proofs", name, "Answers.antt"),
            f"use Rattle.lock_bench.proofs.Trials.{{spelled}}\nuse Rattle.lock_bench.proofs.{name}.Goals as goal\n\npub {clause} : goal.{clause}\n{goal} = spelled\n",
        )
    write(
        os.path.join(bench, "proofs", "calls", "Invariants.antt"),
        "use Rattle.lock_bench.specs.Trials.{Stays}\nuse Rattle.lock_bench.proofs.calls.Given as goal\n\n"
        "abbrev pub invariant-loop : goal.invariant-loop\ninvariant-loop g l = Stays l.initial.seat l.seat\n",
    )
    for cycle, name in (("team", "+fn-team-join+arg2+team"), ("crowd", "+crowd+fn-crowd-join+arg2")):
        write(
            os.path.join(bench, "proofs", name, "Invariants.antt"),
            f"use Rattle.std.proofs.Common.{{◌+◌, ◌*◌}}\nuse Rattle.lock_bench.proofs.{name}.Given as goal\n\n"
            f"abbrev pub decreases-join+arg2 : goal.decreases-join+arg2\ndecreases-join+arg2 g l = 2 * l.more\n\n"
            f"abbrev pub decreases-{cycle} : goal.decreases-{cycle}\ndecreases-{cycle} g l = 2 * l.more + 1\n",
        )


PROGRAM = os.path.join(SCRATCH, "crates", "lock_bench", "out", "lock_bench")
# How often a step turns its number, which takes about 300 ns, and how often a thread does outside, about 700 ns.
STEP = 200
OUTSIDE = 470
CALLS = 400_000
RUNS = 7


def build():
    """Proves and builds the program."""
    folder = os.path.join(SCRATCH, "crates", "lock_bench")
    with open(os.path.join(SCRATCH, "build.log"), "w") as log:
        subprocess.run(["rt", "run", "--", "bare", "1", "1", "0", "1"], cwd=folder, stdout=log, stderr=log, check=True)


def run(mode, threads, step, outside, calls, *timed):
    """Wall and processor time of a call in nanoseconds, and the longest call where it is timed."""
    words = [PROGRAM, mode, *map(str, (threads, step, outside, calls)), *timed]
    before = resource.getrusage(resource.RUSAGE_CHILDREN)
    wall, longest = subprocess.run(words, capture_output=True, text=True, check=True).stdout.split()
    after = resource.getrusage(resource.RUSAGE_CHILDREN)
    seconds = after.ru_utime + after.ru_stime - before.ru_utime - before.ru_stime
    made = threads * calls
    return int(wall) / made, seconds * 1e9 / made, int(longest)


def median_of(runs, place):
    return statistics.median(run[place] for run in runs)


def contention():
    print("threads outside | lock ns, mutex ns, throughput ratio | processor ns, ratio | longest call ms: lock, mutex")
    for outside in (0, OUTSIDE):
        for threads in (1, 2, 4, 8, 32):
            calls = CALLS // threads
            runs = {"lock": [], "mutex": []}
            for _ in range(RUNS):
                for mode, results in runs.items():
                    results.append(run(mode, threads, STEP, outside, calls))
            wall = {mode: median_of(results, 0) for mode, results in runs.items()}
            processor = {mode: median_of(results, 1) for mode, results in runs.items()}
            longest = {mode: run(mode, threads, STEP, outside, calls // 4, "timed")[2] / 1e6 for mode in runs}
            print(
                f"{threads:7} {outside and '700 ns' or 'nothing':7} | {wall['lock']:6.0f} {wall['mutex']:6.0f} {wall['mutex'] / wall['lock']:5.2f} |"
                f" {processor['lock']:6.0f} {processor['lock'] / processor['mutex']:5.2f} | {longest['lock']:6.1f} {longest['mutex']:6.1f}",
                flush=True,
            )


def instructions(mode, calls):
    words = ["valgrind", "--tool=callgrind", "--callgrind-out-file=/dev/null", PROGRAM, mode, "1", "0", "0", str(calls)]
    return int(re.search(r"Collected : (\d+)", subprocess.run(words, capture_output=True, text=True, check=True).stderr).group(1))


def alone():
    """User-space instructions of a call without contention, more than those of its step."""
    per_call = {mode: (instructions(mode, 101_000) - instructions(mode, 1_000)) / 100_000 for mode in ("bare", "lock", "mutex")}
    print(f"instructions more than the step: lock {per_call['lock'] - per_call['bare']:.0f}, mutex {per_call['mutex'] - per_call['bare']:.0f}")


if __name__ == "__main__":
    make()
    build()
    contention()
    if shutil.which("valgrind"):
        alone()
