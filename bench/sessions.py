#!/usr/bin/env python3
"""Measures `pq_server script` on sessions that this script makes.

Each session is made at n and at 2n and run through the built program a few times; the best time of each is taken.
Printed are the rate at 2n and the ratio of the two times: a program that is linear in its input has a ratio near 2,
and the gate of this bench is 2.2 everywhere. Times are the processor's, of the whole process, input from a
file, output to nowhere. Each session is run once more to look at its responses.

The requests of each method are sent for one file of about 1 kB: with nothing changed between them, and with an edit before
each.

One session has a file of one long line that is not ASCII, with an error or two every 16 bytes; another is its twin in ASCII,
of as many bytes. Beside their ratios the time of the one as a multiple of the other's is printed: each column of such a line
is counted in UTF-16 units, which must not cost a walk from the start of the line.

Last come sets of 100 and of 1,000 files that import one another (`workspaces.py`), with the time of a request for the
diagnostics of one, mostly after an edit, and its ratio at 1,000 to that at 100. The ratio has to be under 1.3 for a file that
is edited and reaches one other; a file that reaches all has to have its diagnostics in under 5 ms after its own edit.

usage: bench/sessions.py [--program PATH] [--runs N] [--quick] [--only WORD] [--instructions]
"""
import argparse
import os
import resource
import subprocess
import sys
import tempfile

import files
import parts
import workspaces
from shared import FIRST, LAST, asked, bodies_of, changed, diagnosed, frame, is_request, opened

HERE = os.path.dirname(os.path.abspath(__file__))
PROGRAM = os.path.join(HERE, "..", "crates", "pq_server", "out", "pq_server")
LEAF_MOST, EDIT_MOST = 1.3, 5.0


def big_texts(n):
    """One text of a megabyte, opened and diagnosed n times, a comment's worth of bytes apart."""
    text = files.proto_text(1_000_000)
    return FIRST + b"".join(opened("a.proto", text + " " * (i % 2)) + diagnosed(i, "a.proto") for i in range(n)) + LAST


def small_requests(n):
    """n requests for the diagnostics of one small file."""
    return FIRST + opened("a.proto", files.proto_text(200)) + b"".join(diagnosed(i, "a.proto") for i in range(n)) + LAST


def many_files(n):
    """n opens and requests, over 4,000 names."""
    text = files.proto_text(300)
    return FIRST + b"".join(opened("f%d.proto" % (i % 4000), text) + diagnosed(i, "f%d.proto" % (i % 4000))
                            for i in range(n)) + LAST


def long_bodies(n):
    """n bodies of 16 MiB, each one notice that is ignored."""
    pad = 16 * 1024 * 1024 - len(b'{"jsonrpc":"2.0","method":"x","params":{"p":""}}')
    body = b'{"jsonrpc":"2.0","method":"x","params":{"p":"' + b"a" * pad + b'"}}'
    return FIRST + frame(body) * n + LAST


def one_line(n, comment):
    """One file of one line, opened and diagnosed: n fields whose numbers are out of range, each with a comment after it."""
    fields = ("int32 a=0;" + comment) * n
    return FIRST + opened("a.proto", 'syntax = "proto3";message M{' + fields + "}") + diagnosed(0, "a.proto") + LAST


def long_line(n):
    return one_line(n, "/*\u00e9*/")


def long_ascii_line(n):
    return one_line(n, "/*ee*/")


# The lines of a file of about 1 kB, which refers to a type of another file.
LINES = files.HEAD.split("\n") + [
    'import "b.proto";', "message First {", "  string name%d = 1;", "  repeated int32 counts = 2;", "  other.Second second = 3;",
    "}"] + (files.GROUP % {"n": 0}).split("\n")
OTHER = 'syntax = "proto3";\npackage other;\nmessage Second {\n}\n'
PLACE = {"line": LINES.index("  other.Second second = 3;"), "character": 10}

# The methods of the queries, each with the further members of its parameters, and with a part of each reply.
METHODS = {"textDocument/diagnostic": ({}, b'"items":[],'),
           "textDocument/documentSymbol": ({}, b'"name":"second"'),
           "textDocument/definition": ({"position": PLACE}, b'"uri":"file:///b.proto"'),
           "proto/descriptor": ({}, b'"typeName":".other.Second"')}


def method_text(i):
    return "\n".join(LINES) % (i % 7)


def requests(n, method, edits):
    """n requests of one method, each after an edit if there are edits."""
    rounds = ((changed("a.proto", method_text(i)) if edits else b"") + asked(i, method, "a.proto", **METHODS[method][0])
              for i in range(n))
    return FIRST + opened("b.proto", OTHER) + opened("a.proto", method_text(0)) + b"".join(rounds) + LAST


def method_sessions():
    """A session for each method, without and with edits."""
    return [("%s, %s" % (method.partition("/")[2], "each after an edit" if edits else "nothing changed"),
             lambda n, method=method, edits=edits: requests(n, method, edits), 25_000 if edits else 50_000, "requests",
             METHODS[method][1])
            for edits in (False, True) for method in METHODS]


def run(program, path):
    """The processor time of one run, the system's part included."""
    before = resource.getrusage(resource.RUSAGE_CHILDREN)
    with open(path, "rb") as source:
        status = subprocess.run([program, "script"], stdin=source, stdout=subprocess.DEVNULL).returncode
    after = resource.getrusage(resource.RUSAGE_CHILDREN)
    if status != 0:
        sys.exit("%s ended with status %d on %s" % (program, status, path))
    return after.ru_utime + after.ru_stime - before.ru_utime - before.ru_stime


def instructions(program, path):
    """The instructions of one run."""
    with open(path, "rb") as source:
        return parts.instructions([program, "script"], source)


def timed(program, paths, runs):
    """The best time on each file. The files take turns, so that a slow while of the machine meets them all."""
    return [min(times) for times in zip(*[[run(program, path) for path in paths] for _ in range(runs)])]


def looked_at(program, path, said):
    """Ends the bench where a request has no response, or an error, or one but the first and the last without `said`."""
    with open(path, "rb") as source:
        asked_for = sum(map(is_request, bodies_of(source.read())))
        source.seek(0)
        bodies = bodies_of(subprocess.run([program, "script"], stdin=source, capture_output=True).stdout)
    if len(bodies) != asked_for:
        sys.exit("%d responses to %d requests" % (len(bodies), asked_for))
    for i, body in enumerate(bodies):
        if b'"error":' in body or 0 < i < len(bodies) - 1 and said not in body:
            sys.exit("no %s in %s" % (said.decode(), body[:400].decode()))


def measured(program, folder, make, n, runs, said):
    """The bytes of the session at 2n, and its best times at n and at 2n."""
    paths = []
    for count in (n, 2 * n):
        data = make(count)
        paths.append(os.path.join(folder, str(count)))
        with open(paths[-1], "wb") as sink:
            sink.write(data)
    looked_at(program, paths[0], said)
    return len(data), timed(program, paths, runs)


def session_table(program, folder, sessions, runs, quick):
    """Prints a line for each session, and gives the times by maker."""
    of = {}
    for title, make, n, unit, said in sessions:
        n = max(1, n // 10) if quick else n
        size, times = of[make] = measured(program, folder, make, n, runs, said)
        print("%-40s %8.1f MB/s %10.0f %s/s   %.2f s at n, %.2f s at 2n, ratio %.2f"
              % (title, size / times[1] / 1e6, 2 * n / times[1], unit, times[0], times[1], times[1] / times[0]), flush=True)
    return of


def main():
    words = argparse.ArgumentParser()
    words.add_argument("--program", default=PROGRAM)
    words.add_argument("--runs", type=int, default=15)
    words.add_argument("--quick", action="store_true", help="a tenth of the input, to see that it runs")
    words.add_argument("--only", default="", help="a word of the titles to run")
    words.add_argument("--instructions", action="store_true", help="count the instructions of a round among many files too")
    words = words.parse_args()
    empty, found = b'"items":[],', b'"items":[{'
    sessions = [("texts of 1 MB, opened and diagnosed", big_texts, 40, "texts", empty),
                ("small requests", small_requests, 50_000, "requests", empty),
                ("small files, opened and diagnosed", many_files, 25_000, "files", empty),
                ("bodies of 16 MiB", long_bodies, 8, "bodies", b""),
                ("a line of 1 MB, ASCII", long_ascii_line, 32_500, "fields", found),
                ("a line of 1 MB, not ASCII", long_line, 32_500, "fields", found)] + method_sessions()
    sessions = [row for row in sessions if words.only in row[0]]
    cases = [case for case in workspaces.CASES if words.only in case[0]]
    good = True
    with tempfile.TemporaryDirectory() as folder:
        of = session_table(words.program, folder, sessions, words.runs, words.quick)
        if long_line in of and long_ascii_line in of:
            twins = [of[long_line][1][at] / of[long_ascii_line][1][at] for at in (0, 1)]
            print("the line that is not ASCII took %.2f times its twin's time at n, and %.2f times at 2n" % tuple(twins))
        if of:
            worst = max(times[1] / times[0] for _, times in of.values())
            print("largest ratio %.2f, wanted at most %.1f" % (worst, parts.MOST))
            good = worst <= parts.MOST
        sets = workspaces.table(words.program, folder, cases, max(1, words.runs // 3), run,
                                instructions if words.instructions else None)
    if workspaces.LEAF in sets:
        few, many = sets[workspaces.LEAF]
        print("\n%s: ratio %.2f, wanted under %.1f" % (workspaces.LEAF, many / few, LEAF_MOST))
        good = good and many / few < LEAF_MOST
    if workspaces.EDITED in sets:
        _, many = sets[workspaces.EDITED]
        print("%s: %.2f ms at %d files, wanted under %.1f" % (workspaces.EDITED, many * 1e3, workspaces.COUNTS[1], EDIT_MOST))
        good = good and many * 1e3 < EDIT_MOST
    return 0 if good else 1


if __name__ == "__main__":
    sys.exit(main())
