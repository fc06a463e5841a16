#!/usr/bin/env python3
"""What it costs that `pq_server stdio` sees the disk without the editor's help, and how soon it sees it.

A root has `--files` files in folders of 50. A session begins, a document is open that imports all of them, so that each is watched,
and nothing happens for `--seconds`. Printed is the share of one processor that the server takes meanwhile: its user and system
time by /proc. Then a file is changed `--changes` times, at random times, of which the editor says nothing. Printed are the median and
the longest wait from a change to the importer's list, in seconds; and the same for a new file, and for a file that is removed.

The status is 1 if the share is more than `--share` percent, or a wait is longer than `--wait` seconds.

usage: bench/watching.py [--program P] [--files N] [--seconds S] [--changes N] [--share PERCENT] [--wait S] [--seed N]
"""
import argparse
import os
import queue
import random
import statistics
import sys
import tempfile
import time
from urllib.parse import quote

import files
from pushes import PROGRAM, Editor

# How many files a folder has, and about how many bytes each file.
IN_FOLDER, SIZE = 50, 2000
# How long what starts with a session may take, in seconds, before the server is idle.
SETTLING = 6
# More seconds than a wait takes.
LIMIT = 60
TYPE = 'syntax = "proto3";\nmessage %s {}\n'
USER = 'syntax = "proto3";\nimport "seen/%s.proto";\nmessage User { Seen s = 1; }\n'


def name_of(number):
    return "d%d/f%d.proto" % (number // IN_FOLDER, number)


def put(path, text):
    """Writes a file, of which nobody sees a part."""
    os.makedirs(os.path.dirname(path), exist_ok=True)
    with open(path + ".new", "w") as sink:
        sink.write(text)
    os.replace(path + ".new", path)


def times_of(process):
    """The user and the system time of a process until now, in seconds."""
    with open("/proc/%d/stat" % process.pid) as source:
        fields = source.read().rpartition(")")[2].split()
    return [int(field) / os.sysconf("SC_CLK_TCK") for field in fields[11:13]]


def begun(words, folder):
    """A session whose root is the folder, in which a document is open that imports all its files."""
    with tempfile.TemporaryFile() as errors:
        editor = Editor(words.program, words.workers, errors)
    editor.begin(folder)
    path = os.path.join(folder, "all.proto")
    editor.open(path, 'syntax = "proto3";\n' + "".join('import "%s";\n' % name_of(number) for number in range(words.files)))
    wait_for(editor, "file://" + quote(path), 0)
    return editor


def idle(editor, seconds):
    """The shares of one processor that a server takes that has nothing to do, in percent: of its own and in the system."""
    time.sleep(SETTLING)
    start, before = time.monotonic(), times_of(editor.server)
    time.sleep(seconds)
    passed = time.monotonic() - start
    return [100 * (it - earlier) / passed for it, earlier in zip(times_of(editor.server), before)]


def wait_for(editor, uri, count):
    """The time at which a list with so many diagnostics comes for a document."""
    while True:
        try:
            at, body = editor.came.get(timeout=LIMIT)
        except queue.Empty:
            sys.exit("what changed on the disk was not seen after %d seconds" % LIMIT)
        params = body.get("params", {})
        if params.get("uri") == uri and len(params["diagnostics"]) == count:
            return at


def seen(editor, folder, words, chance):
    """The waits from a change on the disk to the list that follows, in seconds, by the kind of the change."""
    path, waits = os.path.join(folder, "seen", "s.proto"), {"changed": [], "removed": [], "new": []}
    user = os.path.join(folder, "user.proto")
    uri = "file://" + quote(user)
    editor.open(user, USER % "s")
    wait_for(editor, uri, 0)
    # What is done, and how many diagnostics the importer has after it.
    steps = (("changed", lambda: put(path, TYPE % "Other"), 1), ("changed", lambda: put(path, TYPE % "Seen"), 0),
             ("removed", lambda: os.remove(path), 2), ("new", lambda: put(path, TYPE % "Seen"), 0))
    for number in range(words.changes):
        kind, step, count = steps[number % len(steps)]
        time.sleep(2 * chance.random())
        before = time.perf_counter()
        step()
        waits[kind].append(wait_for(editor, uri, count) - before)
    return waits


def main():
    words = argparse.ArgumentParser(usage=__doc__.split("usage: ")[1])
    words.add_argument("--program", default=PROGRAM)
    words.add_argument("--files", type=int, default=5000)
    words.add_argument("--seconds", type=float, default=20)
    words.add_argument("--changes", type=int, default=24)
    words.add_argument("--workers", type=int, default=4)
    words.add_argument("--share", type=float, default=2.0)
    words.add_argument("--wait", type=float, default=2.0)
    words.add_argument("--seed", type=int, default=1)
    words = words.parse_args()
    with tempfile.TemporaryDirectory() as folder:
        folder, text = os.path.realpath(folder), files.proto_text(SIZE)
        for number in range(words.files):
            put(os.path.join(folder, name_of(number)), text.replace("Message", "Message%d_" % number))
        put(os.path.join(folder, "seen", "s.proto"), TYPE % "Seen")
        editor = begun(words, folder)
        own, system = idle(editor, words.seconds)
        print("%d files: an idle server takes %.2f %% of one processor, %.2f of them in the system (%.1f allowed)"
              % (words.files, own + system, system, words.share), flush=True)
        waits = seen(editor, folder, words, random.Random(words.seed))
        editor.end()
    for kind, found in waits.items():
        print("%-8s the list comes after %.2f s in the middle, %.2f s at most (%.1f allowed)"
              % (kind, statistics.median(found), max(found), words.wait))
    return 0 if own + system <= words.share and max(map(max, waits.values())) <= words.wait else 1


if __name__ == "__main__":
    sys.exit(main())
