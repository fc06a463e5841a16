#!/usr/bin/env python3
"""Which imports of real files `pq_server stdio` finds without a setting.

FOLDER is opened as the one folder of an editor. Each proto3 file below it is opened and closed again, one after the other, in one
session. The imports that its first list says are missing (P102) are compared with the truth: an import can be found if the path of
some file below FOLDER ends with a slash and its name, or if the folder of `--include` has it.

Printed are the files, their imports, how many of them can be found, and how many of these and of the others are missing; how many files
have an error beside missing imports, which may be right, or come from a file of the same name in another tree; then each import that is
missing though it can be found, and each such file; then what the log names, and the wait from an open to the first list in
milliseconds: of the first file, in the middle, and the longest. The status is 1 if an import is missing that can be found.

usage: bench/corpus_roots.py FOLDER [--program P] [--include FOLDER] [--workers N]
"""
import argparse
import os
import queue
import re
import statistics
import sys
import tempfile
from urllib.parse import quote

from pushes import LIMIT, PROGRAM, Editor
from shared import texts_in

PROTO3 = re.compile(r"""^[ \t]*syntax\s*=\s*["']proto3["']""", re.M)
IMPORT = re.compile(r"""^[ \t]*import\s+(?:public\s+|weak\s+)?["']([^"']+)["']""", re.M)
COMMENT = re.compile(r"/\*.*?\*/", re.S)
ERROR, MISSING, NAMED = 1, "P102", re.compile(r'import "(.*)" is not found', re.S)


def imports_of(text):
    """The names that a text imports."""
    return set(IMPORT.findall(COMMENT.sub("", text)))


def first_list(editor, uri, log):
    """The time and the items of the next list of a document. What the log is told meanwhile is put into `log`."""
    while True:
        try:
            at, body = editor.came.get(timeout=LIMIT)
        except queue.Empty:
            sys.exit("bench/corpus_roots.py: no list of %s came" % uri)
        params = body.get("params") or {}
        if body.get("method") == "window/logMessage":
            log.append(params["message"])
        if params.get("uri") == uri:
            return at, params["diagnostics"]


def missing_in(editor, path, text, log):
    """The names that the first list of a file says are missing, its other errors, and the wait for it in milliseconds."""
    uri = "file://" + quote(path)
    sent = editor.open(path, text)
    at, items = first_list(editor, uri, log)
    editor.send("textDocument/didClose", {"textDocument": {"uri": uri}})
    first_list(editor, uri, log)
    errors = [it["message"] for it in items if it["severity"] == ERROR and it.get("code") != MISSING]
    return {NAMED.match(it["message"]).group(1) for it in items if it.get("code") == MISSING}, errors, 1000 * (at - sent)


def main():
    words = argparse.ArgumentParser(usage=__doc__.split("usage: ")[1])
    words.add_argument("folder", metavar="FOLDER")
    words.add_argument("--program", default=PROGRAM)
    words.add_argument("--include", default=os.path.join(os.path.dirname(os.path.dirname(os.path.abspath(__file__))), "include"))
    words.add_argument("--workers", type=int, default=4)
    words = words.parse_args()
    folder = os.path.realpath(words.folder)
    texts, include = texts_in(folder), set(texts_in(words.include))
    ends = {name[at + 1:] for name in texts for at in [-1, *(it for it, letter in enumerate(name) if letter == "/")]}
    counts, wrong, others, waits, log = dict.fromkeys(("all", "can", "can_missing", "other_missing"), 0), [], [], [], []
    chosen = [name for name in texts if PROTO3.search(texts[name])]
    with tempfile.TemporaryFile() as errors:
        editor = Editor(words.program, words.workers, errors)
        editor.begin(folder)
        for name in chosen:
            missing, errors_of_it, wait = missing_in(editor, os.path.join(folder, name), texts[name], log)
            waits.append(wait)
            others += ["%s: %d, the first one: %s" % (name, len(errors_of_it), errors_of_it[0])] if errors_of_it else []
            for it in sorted(imports_of(texts[name])):
                can = it in ends or it in include
                counts["all"] += 1
                counts["can"] += can
                counts["can_missing" if can else "other_missing"] += it in missing
                wrong += ["%s: %s" % (name, it)] if can and it in missing else []
        editor.end()
    print("%d files, %d of proto3, with %d imports" % (len(texts), len(chosen), counts["all"]))
    print("%d imports can be found, %d of them are missing" % (counts["can"], counts["can_missing"]))
    print("%d cannot, %d of them are missing" % (counts["all"] - counts["can"], counts["other_missing"]))
    print("%d files have errors beside missing imports" % len(others))
    for line in wrong + others + log:
        print("    " + line.replace(folder, "FOLDER"))
    print("open to first list: the first file %.0f ms, in the middle %.2f ms, longest %.0f ms"
          % (waits[0], statistics.median(waits), max(waits)))
    return 1 if wrong else 0


if __name__ == "__main__":
    sys.exit(main())
