#!/usr/bin/env python3
"""Measures what messages cost `pq_server script`: long bodies, hostile bodies, small requests, a long reply and edits.

The programs take turns, and each figure of time is the best of the rounds: the processor's time, in the program and in the
system. Instructions are those that callgrind counts, less those of a session without what is measured. The peak of memory is
that of resident memory, less that of an empty session.

The programs are the proved one, or others. `bench/unproved.py PATH` builds a program with no proof.

usage: bench/bodies.py [--rounds N] [--only WORD] [PROGRAM ..]
"""
import argparse
import os
import resource
import shutil
import subprocess
import sys
import tempfile
from collections import namedtuple

import files
from ranges import MAX_BODY, change, flood, lined, ranged, scattered
from shared import FIRST, LAST, changed, diagnosed, frame, opened
from sessions import PROGRAM

BODIES = 8
REQUESTS = 20_000
EDITS = 256
MANY = 95_000
COUNTS = shutil.which("valgrind") is not None
CALLGRIND = ["valgrind", "--tool=callgrind", "--callgrind-out-file=/dev/null"]
HEAD = 'syntax="proto3";'

# A case: what comes before, what is measured, how many units it has, and their name.
Case = namedtuple("Case", "title before measured units unit counted", defaults=(True,))


def filled(start, part, end):
    """A body of the greatest length, or just below: `start`, as many parts as fit, and `end`."""
    count = (MAX_BODY - len(start) - len(end)) // len(part)
    return start + part * count + end


def bodies(title, start, part, end, count=BODIES):
    """Bodies of a notification that the server ignores. Where there is one alone, its instructions are not counted."""
    body = filled(b'{"jsonrpc":"2.0","method":"x","params":' + start, part, end + b"}")
    return Case(title, b"", frame(body) * count, len(body) * count, "byte", count > 1)


def small(title, text):
    """Requests for the diagnostics of a file that was asked before."""
    before = opened("a.proto", text) + diagnosed(0, "a.proto")
    return Case(title, before, diagnosed(1, "a.proto") * REQUESTS, REQUESTS, "request")


def edits():
    """Texts of a file, each of a megabyte, that nobody asks for."""
    text = HEAD + "//" + "x" * 1_000_000
    return Case("texts of 1 MB opened", b"", opened("a.proto", text) * 64, 64 * len(text), "byte")


def parses():
    """Texts of a file, each of a megabyte, with one comment."""
    text = HEAD + "//" + "x" * 1_000_000
    each = b"".join(opened("a.proto", text + str(i)) + diagnosed(i, "a.proto") for i in range(32))
    return Case("texts of 1 MB opened and diagnosed", b"", each, 32 * len(text), "byte")


def long_reply():
    """One reply of 10 MB, eight times."""
    text = HEAD + "message M{" + "x y=0;" * 20_000 + "}"
    before = opened("a.proto", text) + diagnosed(0, "a.proto")
    return Case("replies of 20,000 items", before, diagnosed(1, "a.proto") * 8, 8, "reply")


def typed():
    """Characters that are inserted in the middle of a file of 1 MB, one an edit."""
    text = lined(1_000_000, 40)
    line = len(text) // 40 // 2
    edits = b"".join(ranged("a.proto", change(line, 20, 20, "y")) for _ in range(EDITS))
    return Case("insertions into 1 MB", opened("a.proto", text), edits, EDITS, "edit")


def diagnosed_edits(title, by_range):
    """Edits of one name in a file of 10 kB, by a range or by the whole text, each with its diagnostics."""
    text = files.proto_text(10_000)
    lines = text.split("\n")
    at = next(n for n in range(len(lines) // 2, len(lines)) if "first" in lines[n])
    column = lines[at].index("first")
    found, last = [], "first"
    for i in range(EDITS):
        name = "first%d" % i
        lines[at] = lines[at].replace(last, name)
        edit = ranged("a.proto", change(at, column, column + len(last), name)) if by_range else changed("a.proto", "\n".join(lines))
        found.append(edit + diagnosed(i, "a.proto"))
        last = name
    return Case(title, opened("a.proto", text) + diagnosed("first", "a.proto"), b"".join(found), EDITS, "edit")


def scattered_changes(title, line):
    """Changes of a file of 1 MiB in one notification."""
    text, data = scattered(MANY, line)
    return Case(title, opened("a.proto", text), data, MANY, "change")


def flooding(title):
    """A notification that is as long as it may be, of many changes of a text that is longer than it may be."""
    return Case(title, b"", flood(MANY, 8_000_000), MANY, "change")


CASES = [
    bodies("bodies of 16 MiB, one text", b'"', b"x", b'"'),
    bodies("bodies of 16 MiB, numbers", b"[1", b",1", b"]", 1),
    bodies("bodies of 16 MiB, empty objects", b"[{}", b",{}", b"]", 1),
    bodies("bodies of 16 MiB, objects of one member", b'[{"":1}', b',{"":1}', b"]", 1),
    bodies("bodies of 16 MiB, objects of one member, nested", b"[1", b',' + b'{"":' * 120 + b"1" + b"}" * 120, b"]", 1),
    small("requests of a file without errors", HEAD + "message M{}"),
    edits(), parses(), long_reply(),
    typed(), diagnosed_edits("edits of 10 kB by a range, diagnosed", True), diagnosed_edits("edits of 10 kB by the whole text, diagnosed", False),
]
# The cases that take seconds to make, by their titles.
LATE = {
    "95,000 changes of 1 MiB, lines of 32 bytes": lambda title: scattered_changes(title, 32),
    "95,000 changes of 1 MiB, one line": lambda title: scattered_changes(title, 1 << 20),
    "95,000 changes of a text of 8 MB": flooding,
}


def ran(program, session, before=()):
    """The process that read the session, and its times in the program and in the system."""
    start = resource.getrusage(resource.RUSAGE_CHILDREN)
    with open(session, "rb") as source:
        done = subprocess.run([*before, program, "script"], stdin=source, stdout=subprocess.DEVNULL, stderr=subprocess.PIPE)
    if done.returncode != 0:
        sys.exit("%s ended with status %d: %s" % (program, done.returncode, done.stderr[-300:].decode()))
    end = resource.getrusage(resource.RUSAGE_CHILDREN)
    return done, end.ru_utime - start.ru_utime, end.ru_stime - start.ru_stime


def instructions(program, session):
    return int(ran(program, session, CALLGRIND)[0].stderr.rpartition(b"Collected : ")[2].split()[0])


def peak(program, session):
    return int(ran(program, session, ["/usr/bin/time", "-f", "%M"])[0].stderr.split()[-1]) * 1024


def written(folder, name, session):
    path = os.path.join(folder, name)
    with open(path, "wb") as sink:
        sink.write(session)
    return path


def figures(programs, case, folder, rounds):
    """The cells of each program's row."""
    whole = written(folder, "whole", FIRST + case.before + case.measured + LAST)
    start = written(folder, "start", FIRST + case.before + LAST)
    best = {program: (float("inf"), 0.0, 0.0) for program in programs}
    for _ in range(rounds):
        for program in programs:
            _, inside, system = ran(program, whole)
            _, inside_start, system_start = ran(program, start)
            inside, system = inside - inside_start, system - system_start
            best[program] = min(best[program], (inside + system, inside, system))
    for program in programs:
        both, inside, system = best[program]
        count = (instructions(program, whole) - instructions(program, start)) if COUNTS and case.counted else 0
        speed = "%.0f MB/s" % (case.units / both / 1e6) if case.unit == "byte" else "%.2f us" % (both / case.units * 1e6)
        yield [case.title, os.path.basename(program), speed, "%.3f" % inside, "%.3f" % system,
               "%.2f / %s" % (count / case.units, case.unit) if count else "", "%.1f" % ((peak(program, whole) - peak(program, start)) / 1e6)]


def main():
    words = argparse.ArgumentParser()
    words.add_argument("programs", nargs="*", default=[PROGRAM])
    words.add_argument("--rounds", type=int, default=5)
    words.add_argument("--only", default="", help="a word of the titles to run")
    words = words.parse_args()
    heads = ["Case", "program", "speed", "s inside", "s system", "instructions", "more MB"]
    print("| %s |\n|%s" % (" | ".join(heads), "---|" * len(heads)), flush=True)
    with tempfile.TemporaryDirectory() as folder:
        for title, make in [(case.title, lambda _, case=case: case) for case in CASES] + list(LATE.items()):
            if words.only in title:
                case = make(title)
                for cells in figures([os.path.abspath(program) for program in words.programs], case, folder, words.rounds):
                    print("| %s |" % " | ".join(cells), flush=True)
    return 0


if __name__ == "__main__":
    sys.exit(main())
