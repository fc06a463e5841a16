#!/usr/bin/env python3
"""Compares pq_server with `protoc` on the same files in one run: parsing, first compilation, descriptors and edits.

- Parsing: the program of parsing.rt.txt reads a file, parses it and prints the count of the statements. `protoc` gets the file
  with one `}` too many at its end: there it ends by an error when it has parsed the file, and links and writes nothing.
- Diagnostics, descriptors: one session of `pq_server script` opens all files and asks about each. `protoc` reads each file once,
  checks it and writes its descriptors, here to nowhere. It does both at once, so its one figure stands beside both of ours.
- Edits: an edit among the files of `workspaces.py` and a request for the diagnostics of one. `protoc` keeps nothing between two
  runs, so its figure is a whole run on the file that is asked, which reads all that this imports.

The files are three that this bench makes, those of a workspace, and the proto3 files that protobuf installs, as they are and in
copies, each copy in a package of its own. No file has an error.

Both are measured as whole processes: by the instructions that callgrind counts, and by the processor's time, best of some runs
that take turns. What each costs on a file of one line is taken off, but for edits, where a client waits for it. The factor is
protoc's cost as a multiple of ours. Wanted by instructions: parsing 7 times as fast as the fastest peer, first compilation
and descriptors 4 times as fast as `protoc`. Needed: valgrind, and Debian's protobuf-compiler and libprotobuf-dev.

usage: bench/peers.py [--program PATH] [--parser PATH] [--runs N] [--only WORD] [--table]
"""
import argparse
import os
import shutil
import sys
import tempfile

import files
import parts
import workspaces
from files import written
from growth import origin
from sessions import PROGRAM
from shared import FIRST, LAST, METHODS, asked, opened

TABLE = os.path.join(os.path.dirname(os.path.abspath(__file__)), "results", "peers.txt")
PROTOC = shutil.which("protoc") or sys.exit("protoc is not installed: this bench compares with it")
INCLUDE = os.path.join(os.path.dirname(os.path.dirname(PROTOC)), "include")
INSTALLED = "google/protobuf"
LINE = 'syntax = "proto3";\n'
SIZE, COPIES, WORKSPACE = 400_000, 8, 300
ROUNDS = 5
AIMS = {"parsing": 7.0, "diagnostics": 4.0, "descriptors": 4.0, "edits": None}
HEADS = ["What", "Files", "kB", "ours, million instructions", "protoc", "factor", "ours, ms", "protoc, ms", "factor", "ours, MB/s"]


class Command:
    """A process that is measured: its words, its input and its status."""

    def __init__(self, words, source=os.devnull, status=0):
        self.words, self.source, self.status = words, source, status

    def measured(self, measure):
        with open(self.source, "rb") as source:
            return measure(self.words, source, self.status)


# Groups of files: a title, the texts by name, and the names of those that a client asks about.

def installed():
    """The texts of the installed proto3 files, by name."""
    found = {}
    for name in sorted(os.listdir(os.path.join(INCLUDE, INSTALLED))):
        if name.endswith(".proto"):
            with open(os.path.join(INCLUDE, INSTALLED, name)) as source:
                text = source.read()
            if '\nsyntax = "proto3";' in text:
                found[INSTALLED + "/" + name] = text
    return found


def copies(texts):
    """Copies of the texts, each in a package of its own."""
    return {"copy%d/%s" % (n, os.path.basename(name)): text.replace("\npackage google.protobuf;", "\npackage google.protobuf.copy%d;" % n)
            for n in range(COPIES) for name, text in texts.items()}


def workspace():
    found = {workspaces.name(n): workspaces.text(n, WORKSPACE) for n in range(WORKSPACE)}
    return dict(found, **{"hub.proto": workspaces.hub()})


def groups():
    for title, text in files.texts(SIZE):
        yield title, {"made.proto": text}, ["made.proto"]
    yield "%d files in a tree of imports" % (WORKSPACE + 1), workspace(), list(workspace())
    texts = installed()
    yield "%d installed files" % len(texts), texts, list(texts)
    yield "%d copies of each" % COPIES, dict(texts, **copies(texts)), list(copies(texts))


# What is compared: each gives our command and protoc's.

def protoc(folder, names, status=0):
    return Command([PROTOC, "--descriptor_set_out=/dev/null", "-I" + folder] + [os.path.join(folder, name) for name in names],
                   status=status)


def session(program, path, texts, names, query):
    """Opens all files and asks about those named."""
    opens = b"".join(opened(name, text) for name, text in texts.items())
    asks = b"".join(asked(i, METHODS[query], name) for i, name in enumerate(names))
    with open(path, "wb") as sink:
        sink.write(FIRST + opens + asks + LAST)
    return Command([program, "script"], path)


def parsing(parser, folder, text):
    whole, broken = written(os.path.join(folder, "whole.proto"), text), written(os.path.join(folder, "broken.proto"), text + "}\n")
    return Command([parser, "1", whole]), protoc(folder, [os.path.basename(broken)], 1)


def best_times(commands, runs):
    """The best time of each command, which take turns."""
    return [min(times) for times in zip(*[[command.measured(parts.processor_time) for command in commands] for _ in range(runs)])]


def costs(commands, starts, runs):
    """The instructions and the times of our command and of protoc's, less those of their starts."""
    counts = [command.measured(parts.instructions) for command in commands + starts]
    times = best_times(commands + starts, runs)
    return [[two[i] - two[i + 2] if starts else two[i] for i in (0, 1)] for two in (counts, times)]


def line_of(cells):
    return "| %s |" % " | ".join(cells)


def row(what, title, size, counts, times):
    """A row of the table, whose costs are ours and protoc's. An edit has no size."""
    seconds = max(times[0], 1e-6)
    return line_of([what, title, "%.0f" % (size / 1e3) if size else "", "%.1f" % (counts[0] / 1e6), "%.1f" % (counts[1] / 1e6),
                    "%.1f" % (counts[1] / counts[0]), "%.2f" % (seconds * 1e3), "%.2f" % (times[1] * 1e3),
                    "%.1f" % (times[1] / seconds), "%.1f" % (size / seconds / 1e6) if size else ""])


class Bench:
    """The rows, as they are printed, and the least factor of each kind."""

    def __init__(self, folder, program, parser, runs, only):
        self.folder, self.program, self.parser, self.runs, self.only = folder, program, parser, runs, only
        self.lines, self.least = [line_of(HEADS), "|" + "---|" * len(HEADS)], {}
        print("\n".join(self.lines), flush=True)

    def add(self, what, title, size, counts, times):
        self.lines.append(row(what, title, size, counts, times))
        self.least[what] = min(self.least.get(what, float("inf")), counts[1] / counts[0])
        print(self.lines[-1], flush=True)

    def compare(self, what, title, size, ours, theirs, starts):
        if self.only in what:
            self.add(what, title, size, *costs([ours, theirs], starts, self.runs))

    def path(self, name):
        return os.path.join(self.folder, name)

    def parse(self):
        starts = list(parsing(self.parser, self.path("line"), LINE))
        for title, text in files.texts(SIZE):
            self.compare("parsing", title, len(text), *parsing(self.parser, self.path("parsed"), text), starts)

    def compile(self):
        written(self.path("start/line.proto"), LINE)
        starts = [session(self.program, self.path("first"), {}, [], "diagnostics"), protoc(self.path("start"), ["line.proto"])]
        for at, (title, texts, names) in enumerate(groups()):
            home = self.path("group%d" % at)
            for name, text in texts.items():
                written(os.path.join(home, name), text)
            size = sum(len(text) for text in texts.values())
            for query in ("diagnostics", "descriptors"):
                ours = session(self.program, self.path("session"), texts, names, query)
                self.compare(query, title, size, ours, protoc(home, names), starts)

    def edit(self):
        home = self.path("workspace")
        for name, text in workspace().items():
            written(os.path.join(home, name), text)
        for title, case in workspaces.CASES:
            if self.only not in "edits" or "nothing changed" in title:
                continue
            side = workspaces.Side(self.program, self.folder, case, WORKSPACE)
            theirs = protoc(home, [side.asked_for])
            ours = [side.difference(lambda program, path: Command([program, "script"], path).measured(measure), ROUNDS, runs)
                    for measure, runs in ((parts.instructions, 1), (parts.processor_time, self.runs))]
            self.add("edits", title, None, [ours[0], theirs.measured(parts.instructions)], [ours[1], *best_times([theirs], self.runs)])


def main():
    words = argparse.ArgumentParser()
    words.add_argument("--program", default=PROGRAM)
    words.add_argument("--parser", help="the program of bench/parsing.rt.txt, built before")
    words.add_argument("--runs", type=int, default=7)
    words.add_argument("--only", default="", help="a word of parsing, diagnostics, descriptors, edits")
    words.add_argument("--table", action="store_true", help="write bench/results/peers.txt")
    words = words.parse_args()
    with tempfile.TemporaryDirectory() as folder:
        parser = words.parser or parts.built(os.path.join(folder, "build"), "parsing")
        bench = Bench(folder, words.program, parser, words.runs, words.only)
        for step in (bench.parse, bench.compile, bench.edit):
            step()
    ending = ["%s: least factor %.1f%s" % (what, least, ", wanted %.1f" % AIMS[what] if AIMS[what] else "")
              for what, least in bench.least.items()]
    print("\n" + "\n".join(ending))
    if words.table:
        with open(TABLE, "w") as sink:
            version = parts.ended([PROTOC, "--version"]).stdout.decode().strip()
            head = ["pq_server beside protoc: parsing, first compilation, descriptors and edits.", "Written by: bench/peers.py --table",
                    "The figures came in with %s; the peer is %s." % (origin(words.program), version), ""]
            sink.write("\n".join(head + bench.lines + [""] + ["- " + line for line in ending] + [""]))
    return 0 if all(least >= (AIMS[what] or 0) for what, least in bench.least.items()) else 1


if __name__ == "__main__":
    sys.exit(main())
