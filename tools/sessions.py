#!/usr/bin/env python3
"""Runs the sessions that the documents show, and prints what differs from what stands there.

    python3 tools/sessions.py [--list] [DOCUMENT ..]

Without a document it reads README.md and docs/PROTOCOL.md. It runs the program that `rt ci` or `./arcus` has built.

A session is a fenced block of one of two kinds.

`session`: its first line is the command, and then each line that begins with `> ` is sent with CR LF, and each that begins with
`< ` is answered with CR LF. The program is run once for each place where answers end, on all that was sent up to there, and
what it writes has to be all answers up to there: so an answer is compared at its place. A last line `! STATUS TEXT` says how
the whole session ends, by its exit status and the line on standard error; without it the status is 0 and there is no line.

    $ ./arcus session --limit 1
    > get a
    < END

`console`: a line that begins with `$ ` is given to a shell, and the lines up to the next one are what it writes. Only lines that
name `./arcus` are run.

Where all is as it stands nothing is printed and the exit status is 0; `--list` prints a line for each session. Else what differs
is printed, the last line counts the sessions that passed and failed, and the exit status is 1. A document without a session is
a failure, so that a session that is no longer found does not pass.
"""

import difflib
import os
import re
import shlex
import subprocess
import sys

TOP = os.path.dirname(os.path.dirname(os.path.abspath(__file__)))
PROGRAM = os.path.join(TOP, "crates", "arcus", "out", "arcus")
DOCUMENTS = ["README.md", "docs/PROTOCOL.md"]
SECONDS = 60
FENCE = re.compile(r"^```(session|console)$")


class Differs(Exception):
    """What a session gave is not what stands there."""


def blocks_of(text):
    """The fenced blocks of both kinds: each with its kind, the number of its first line, and its lines."""
    kind, first, lines = None, 0, []
    for number, line in enumerate(text.splitlines(), 1):
        if kind is None:
            found = FENCE.match(line)
            if found:
                kind, first, lines = found[1], number + 1, []
        elif line == "```":
            yield kind, first, lines
            kind = None
        else:
            lines.append(line)
    if kind is not None:
        raise Differs(f"the block that begins at line {first} has no end")


def run(words, sent=b"", shell=False):
    """What a command writes on standard output and standard error, and its exit status."""
    ran = subprocess.run(words, input=sent, capture_output=True, cwd=TOP, shell=shell, timeout=SECONDS)
    return ran.stdout, ran.stderr, ran.returncode


def compare(what, wanted, got):
    """Raises where two texts differ, with their lines side by side."""
    if wanted != got:
        lines = [it.decode(errors="backslashreplace").replace("\r\n", "\n").splitlines() for it in (wanted, got)]
        told = list(difflib.unified_diff(*lines, "as it stands", "as it is", lineterm="")) or ["the line ends differ"]
        raise Differs("\n".join([what, *told]))


def crlf(lines):
    return b"".join(it.encode() + b"\r\n" for it in lines)


def play(lines):
    """Runs a block of the kind `session`."""
    if not lines or not lines[0].startswith("$ ./arcus"):
        raise Differs("its first line is not `$ ./arcus ..`")
    words = [PROGRAM, *shlex.split(lines[0][2:])[1:]]
    sent, answered, ends = [], [], (0, "")
    # Each place where answers end: how many lines were sent and were answered by then.
    places = []
    for line in lines[1:]:
        if line.startswith("! "):
            status, _, text = line[2:].partition(" ")
            ends = (int(status), text)
        elif line[:2] == "> " or line == ">":
            sent.append(line[2:])
        elif line[:2] == "< " or line == "<":
            answered.append(line[2:])
            if places and places[-1][0] == len(sent):
                places.pop()
            places.append((len(sent), len(answered)))
        else:
            raise Differs(f"this line is neither sent nor answered: {line}")
    for told, heard in places:
        output, _, _ = run(words, crlf(sent[:told]))
        compare(f"after the line {sent[told - 1] if told else words!r}:", crlf(answered[:heard]), output)
    output, error, status = run(words, crlf(sent))
    compare("at the end:", crlf(answered), output)
    compare("on standard error:", (ends[1] + "\n").encode() if ends[1] else b"", error)
    compare("exit status:", str(ends[0]).encode(), str(status).encode())


def type_in(lines):
    """Runs a block of the kind `console`. Answers whether one of its commands was run."""
    commands = []
    for line in lines:
        if line.startswith("$ "):
            commands.append((line[2:], []))
        elif commands:
            commands[-1][1].append(line)
    ran = [it for it in commands if "./arcus" in it[0]]
    for command, wanted in ran:
        output, error, _ = run(command.replace("./arcus", shlex.quote(PROGRAM)), shell=True)
        text = (output + error).replace(b"\r\n", b"\n")
        compare(f"$ {command}", "".join(it + "\n" for it in wanted).encode(), text)
    return bool(ran)


def main():
    words = sys.argv[1:]
    is_listed = "--list" in words
    documents = [it for it in words if it != "--list"] or DOCUMENTS
    passed, failed = 0, 0
    if not os.access(PROGRAM, os.X_OK):
        print(f"sessions: {os.path.relpath(PROGRAM, TOP)} is not there: rt ci or ./arcus builds it")
        print("0 passed, 1 failed")
        return 1
    for document in documents:
        found = 0
        try:
            with open(os.path.join(TOP, document), encoding="utf-8") as file:
                blocks = list(blocks_of(file.read()))
        except (OSError, Differs) as error:
            print(f"{document}: {error}")
            failed += 1
            continue
        for kind, first, lines in blocks:
            place = f"{document}:{first}"
            try:
                if kind == "console" and not type_in(lines):
                    continue
                if kind == "session":
                    play(lines)
                passed, found = passed + 1, found + 1
                if is_listed:
                    print(f"{place}: {lines[0]}: as it stands")
            except (Differs, ValueError, subprocess.TimeoutExpired) as error:
                failed, found = failed + 1, found + 1
                print(f"{place}: differs\n{error}")
        if not found:
            print(f"{document}: no session stands there")
            failed += 1
    if failed or is_listed:
        print(f"{passed} passed, {failed} failed")
    return 1 if failed else 0


if __name__ == "__main__":
    sys.exit(main())
