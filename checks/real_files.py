#!/usr/bin/env python3
"""Looks for false errors in real files: a proto3 file that `protoc` accepts has no item of severity 1 by `pq_server script --loose`.

Each FOLDER is a set of files, with the names that they have below it. What they import is searched there, and then below each DIR, in
order. One session opens all files of a set and those below the DIRs, and asks for the diagnostics of those of the set; `protoc` gets
each of these by itself. A file is a proto3 file if a line of it begins with `syntax = "proto3"`.

Printed are, for each set and for all, the files, the proto3 files that `protoc` accepts, those of them that have an item of severity
1, and the files of another version; before that each item of severity 1 of such a file. The status is 1 if there is one. Where no
`protoc` is on the path, that is printed, and the status is 0. The files are not in the repository.

usage: checks/real_files.py [--program PATH] [--root DIR ..] --files FOLDER ..
"""
import argparse
import json
import os
import re
import shutil
import subprocess
import sys

from messages import FIRST, LAST, bodies_of, diagnosed, opened
from server_rows import PROGRAM
from texts import texts_in

PROTO3 = re.compile(r"""^[ \t]*syntax\s*=\s*["']proto3["']""", re.M)
ERROR, OTHER_VERSION = 1, "P023"


def lists_of(program, texts, others):
    """The diagnostics of each file of `texts`, beside `others`."""
    opens = [opened(name, text) for name, text in {**others, **texts}.items()]
    sent = b"".join([FIRST, *opens, *(diagnosed(name, name) for name in texts), LAST])
    done = subprocess.run([program, "script", "--loose"], input=sent, stdout=subprocess.PIPE)
    if done.returncode != 0:
        sys.exit("checks/real_files.py: %s ended with status %d" % (program, done.returncode))
    replies = {reply["id"]: reply for reply in map(json.loads, bodies_of(done.stdout))}
    return {name: replies[name]["result"]["items"] for name in texts}


def accepts(protoc, roots, name):
    """Whether `protoc` accepts the file of this name below the first of the folders."""
    words = [protoc, *("-I" + root for root in roots), "--descriptor_set_out=" + os.devnull, os.path.join(roots[0], name)]
    return subprocess.run(words, stdin=subprocess.DEVNULL, capture_output=True).returncode == 0


def told(path, item):
    start = item["range"]["start"]
    return "%s:%d:%d: %s %s" % (path, start["line"] + 1, start["character"] + 1, item["code"], item["message"])


def show(name, counts):
    print("%-16s %5d files, %5d of proto3 that protoc accepts, %d of them with an error, %5d of another version"
          % (name, *counts), flush=True)


def tried(words, protoc, folder):
    """Prints the errors of a set, and its counts. Returns the counts."""
    texts, others = texts_in(folder), {}
    for root in reversed(words.root):
        others.update(texts_in(root))
    lists = lists_of(words.program, texts, others)
    accepted = [name for name in texts if PROTO3.search(texts[name]) and accepts(protoc, [folder, *words.root], name)]
    wrong = {name: [item for item in lists[name] if item["severity"] == ERROR] for name in accepted}
    for name, items in wrong.items():
        for item in items:
            print(told(os.path.join(folder, name), item))
    versions = [name for name in texts if any(item["code"] == OTHER_VERSION for item in lists[name])]
    counts = len(texts), len(accepted), sum(map(bool, wrong.values())), len(versions)
    show(os.path.basename(os.path.normpath(folder)), counts)
    return counts


def main():
    words = argparse.ArgumentParser(usage=__doc__.split("usage: ")[1])
    words.add_argument("--program", default=PROGRAM)
    words.add_argument("--root", nargs="+", default=[], metavar="DIR")
    words.add_argument("--files", nargs="+", required=True, metavar="FOLDER")
    words = words.parse_args()
    protoc = shutil.which("protoc")
    if not protoc:
        print("protoc is not on the path, so no file was looked at")
        return 0
    all_counts = [tried(words, protoc, folder) for folder in words.files]
    counts = [sum(one) for one in zip(*all_counts)]
    show("all", counts)
    return 1 if counts[2] else 0


if __name__ == "__main__":
    sys.exit(main())
