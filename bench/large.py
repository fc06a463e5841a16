#!/usr/bin/env python3
"""How `pq_server stdio` serves large trees, of which an editor opens one folder and few files.

For each of `--files` a tree is made with so many files of about 2 kB, in folders of 50 below `proto/`, each of which imports the one
before it in its folder. An editor that pushes are sent to opens the tree. One of its documents imports nothing, one imports a file by
its path below the tree, one by its path below `proto/`, which a walk has to find, and one a file that is not there. Then an editor
that pulls asks for the diagnostics of all files, twice.

Printed are the milliseconds to the reply to `initialize`, from each of these opens to its first list, each in a session of its own,
the median of `--runs`; the milliseconds until the diagnostics of all files come, and until they come unchanged; and the resident
memory of the server, before and after that, by the bytes of all texts.

With `--names` an editor that pulls opens two documents that import more files than the server takes, none of which is there, and then
one more. Printed are the seconds that this takes, the resident memory, and what is said of the last one: the status is 1 if that is not
that there are too many files, or if the user is not told.

usage: bench/large.py [--program P] [--files N ..] [--runs N] [--workers N]
       bench/large.py --names [--program P] [--workers N]
"""
import argparse
import os
import queue
import statistics
import sys
import tempfile
import time
from urllib.parse import quote

import files
from pushes import PROGRAM, Editor

IN_FOLDER, SIZE = 50, 2000
# More seconds than a wait takes.
LIMIT = 600
# The most names of a session, and what is said of a file too many.
MOST_NAMES, TOO_MANY = 65536, "more than 65536 files are open or imported"
PULLS = {"textDocument": {"diagnostic": {}}}
USER = 'syntax = "proto3";\n%smessage User {}\n'
OPENED = (("no import", ""), ("an import from the top", 'import "proto/d1/f99.proto";\n'), ("one that a walk finds", 'import "d1/f99.proto";\n'),
          ("one that is missing", 'import "d1/none.proto";\n'))


def make(folder, count):
    """Makes the files of a tree. Returns the bytes of their texts."""
    text, size = files.proto_text(SIZE), 0
    head, line, rest = text.partition("\n")
    for number in range(count):
        own = os.path.join(folder, "proto", "d%d" % (number // IN_FOLDER))
        os.makedirs(own, exist_ok=True)
        before = 'import "d%d/f%d.proto";' % (number // IN_FOLDER, number - 1) if number % IN_FOLDER else ""
        its = head + line + before + rest.replace("Message", "Message%d_" % number)
        size += len(its)
        with open(os.path.join(own, "f%d.proto" % number), "w") as sink:
            sink.write(its)
    return size


def begun(words, folder, errors, capabilities):
    """A session that has opened a folder, and the milliseconds to its first reply."""
    editor = Editor(words.program, words.workers, errors)
    params = {"workspaceFolders": [{"uri": "file://" + quote(folder), "name": "tree"}], "capabilities": capabilities}
    sent = editor.send("initialize", params, id=1)
    at = until(editor, lambda body: body.get("id") == 1)[0]
    editor.send("initialized", {})
    return editor, 1000 * (at - sent)


def until(editor, holds):
    """The time and the body of the next message that is looked for."""
    while True:
        try:
            at, body = editor.came.get(timeout=LIMIT)
        except queue.Empty:
            sys.exit("bench/large.py: what is waited for does not come")
        if holds(body):
            return at, body


def resident(editor):
    """The resident memory of the server, in bytes."""
    with open("/proc/%d/status" % editor.server.pid) as source:
        return 1024 * int(next(line for line in source if line.startswith("VmRSS:")).split()[1])


def first_list(words, folder, text, errors):
    """The milliseconds to the first reply of a session, and from an open to its first list."""
    editor, greeted = begun(words, folder, errors, {})
    path = os.path.join(folder, "user.proto")
    sent = editor.open(path, USER % text)
    at, _ = until(editor, lambda body: (body.get("params") or {}).get("uri") == "file://" + quote(path))
    editor.end()
    return greeted, 1000 * (at - sent)


def all_files(editor, label, has):
    """The milliseconds until the diagnostics of all files come, and their reports."""
    sent = editor.send("workspace/diagnostic", {"previousResultIds": has}, id=label)
    at, body = until(editor, lambda body: body.get("id") == label)
    return 1000 * (at - sent), body["result"]["items"]


def whole(words, folder, size, errors):
    """Asks for the diagnostics of all files, twice. Prints the waits and the memory."""
    editor, _ = begun(words, folder, errors, PULLS)
    before = resident(editor)
    first, reports = all_files(editor, 2, [])
    after = resident(editor)
    second, again = all_files(editor, 3, [{"uri": it["uri"], "value": it["resultId"]} for it in reports])
    unchanged = sum(it["kind"] == "unchanged" for it in again)
    print("all files: %d reports after %.0f ms, %d of %d unchanged after %.0f ms; resident memory %.0f MB before, %.0f MB after: %.1f times"
          " the %.1f MB of texts" % (len(reports), first, unchanged, len(again), second, before / 1e6, after / 1e6,
                                     (after - before) / size, size / 1e6), flush=True)
    editor.end()


def too_many_names(words):
    """Opens documents with too many imports, and one more. Returns the status."""
    half, told = MOST_NAMES // 2 + 1, []

    def comes(body):
        told.extend([body["params"]["message"]] if body.get("method") == "window/showMessage" else [])
        return body.get("id") == 2

    with tempfile.TemporaryDirectory() as folder, tempfile.TemporaryFile() as errors:
        folder = os.path.realpath(folder)
        editor, _ = begun(words, folder, errors, PULLS)
        start = time.perf_counter()
        for number in range(2):
            names = "".join('import "%x";\n' % n for n in range(number * half, (number + 1) * half))
            editor.open(os.path.join(folder, "user%d.proto" % number), USER % names)
        last = os.path.join(folder, "last.proto")
        editor.open(last, USER % "")
        editor.send("textDocument/diagnostic", {"textDocument": {"uri": "file://" + quote(last)}}, id=2)
        at, body = until(editor, comes)
        said = [it["message"] for it in body["result"]["items"]]
        print("%d names: a document too many is answered after %.1f s, resident memory %.0f MB; said of it %r, the user is told %r"
              % (2 * half, at - start, resident(editor) / 1e6, said, told))
        editor.end()
    return 0 if all(len(it) == 1 and TOO_MANY in it[0] for it in (said, told)) else 1


def main():
    words = argparse.ArgumentParser(usage=__doc__.split("usage: ")[1])
    words.add_argument("--program", default=PROGRAM)
    words.add_argument("--files", type=int, nargs="+", default=[5000, 20000])
    words.add_argument("--runs", type=int, default=5)
    words.add_argument("--workers", type=int, default=4)
    words.add_argument("--names", action="store_true")
    words = words.parse_args()
    if words.names:
        return too_many_names(words)
    for count in words.files:
        with tempfile.TemporaryDirectory() as folder, tempfile.TemporaryFile() as errors:
            folder = os.path.realpath(folder)
            size = make(folder, count)
            print("%d files, %d bytes" % (count, size), flush=True)
            for what, text in OPENED:
                found = [first_list(words, folder, text, errors) for _ in range(words.runs)]
                print("%-24s initialize %6.1f ms   open to first list %8.1f ms, longest %8.1f"
                      % (what, statistics.median(it[0] for it in found), statistics.median(it[1] for it in found),
                         max(it[1] for it in found)), flush=True)
            whole(words, folder, size, errors)
    return 0


if __name__ == "__main__":
    sys.exit(main())
