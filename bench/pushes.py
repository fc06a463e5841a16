#!/usr/bin/env python3
"""How long an editor waits for pushed diagnostics: `pq_server stdio` over real files.

With `--files` the root is a folder of .proto files. The files that most others import are opened first, then others up to `--open`.
Then the first one is changed at its start, forth and back, `--changes` times, with pauses. Printed are, in milliseconds by the clock,
the wait for the reply to `initialize`; the wait until each open document has its list; and of the changes the
median and the longest wait for the first list that follows. A change that has no effect on any list is not counted.

With `--importers` the root has so many files that import one, the hub, and all are open. The hub is changed `--changes` times, each
of which changes the list of each importer. Printed are, with one worker and with `--workers`, the median wait from a change to the
first list of an importer and to the last one, in milliseconds, and the ratio of the latter. The status is 1 if it is less than
`--ratio`.

usage: bench/pushes.py --files FOLDER [--program P] [--open N] [--changes N] [--workers N]
       bench/pushes.py --importers N [--program P] [--changes N] [--workers N] [--ratio R]
"""
import argparse
import json
import os
import queue
import re
import statistics
import subprocess
import sys
import tempfile
import threading
import time
from urllib.parse import quote

HERE = os.path.dirname(os.path.abspath(__file__))
PROGRAM = os.path.join(HERE, "..", "crates", "pq_server", "out", "pq_server")
IMPORT = re.compile(rb'^\s*import\s+(?:public\s+)?"([^"]+)"', re.M)
# More seconds than a wait takes: what takes longer does not come.
LIMIT = 30
# The pause after a change, in seconds: all lists that follow have come.
PAUSE = 0.2
# How many messages an importer of the hub has.
MESSAGES = 120


class Editor:
    """A session of `stdio`: what is sent, and what comes with its time."""

    def __init__(self, program, workers, errors=None):
        command = [program, "stdio", "--workers", str(workers)]
        self.server = subprocess.Popen(command, stdin=subprocess.PIPE, stdout=subprocess.PIPE, stderr=errors)
        self.came = queue.Queue()
        threading.Thread(target=self.read, daemon=True).start()

    def read(self):
        """Puts each message that comes into the queue, with its time."""
        while True:
            length = None
            for line in iter(self.server.stdout.readline, b"\r\n"):
                if not line:
                    return
                length = int(line.split(b":")[1])
            self.came.put((time.perf_counter(), json.loads(self.server.stdout.read(length))))

    def send(self, method, params, **more):
        """Sends a message. Returns the time before that."""
        body = json.dumps({"jsonrpc": "2.0", "method": method, "params": params, **more}).encode()
        before = time.perf_counter()
        self.server.stdin.write(b"Content-Length: %d\r\n\r\n" % len(body) + body)
        self.server.stdin.flush()
        return before

    def wait(self, seconds=LIMIT):
        """The time of the next message, or None if none comes."""
        try:
            return self.came.get(timeout=seconds)[0]
        except queue.Empty:
            return None

    def drain(self):
        """Takes what came until now."""
        while not self.came.empty():
            self.came.get()

    def begin(self, folder):
        """Begins a session with a root. Returns the wait for the reply, in milliseconds."""
        sent = self.send("initialize", {"rootUri": "file://" + quote(folder), "capabilities": {}}, id=1)
        begun = 1000 * ((self.wait() or sys.exit("no reply to initialize")) - sent)
        self.send("initialized", {})
        return begun

    def open(self, path, text):
        document = {"uri": "file://" + quote(path), "version": 1, "languageId": "proto", "text": text}
        return self.send("textDocument/didOpen", {"textDocument": document})

    def lists_of(self, uris):
        """The times at which the first and the last of these documents get a list: the first one that comes for each."""
        owed, times = set(uris), []
        while owed:
            try:
                at, body = self.came.get(timeout=LIMIT)
            except queue.Empty:
                sys.exit("%d lists did not come" % len(owed))
            if body.get("params", {}).get("uri") in owed:
                owed.remove(body["params"]["uri"])
                times.append(at)
        return times[0], times[-1]

    def end(self):
        self.server.stdin.close()
        self.server.wait()


def most_imported(folder, count):
    """The paths of so many files below the folder, those that most others import first."""
    texts = {}
    for path, _, names in os.walk(folder):
        for name in sorted(names):
            if name.endswith(".proto"):
                whole = os.path.join(path, name)
                with open(whole, "rb") as source:
                    texts[os.path.relpath(whole, folder)] = source.read()
    uses = dict.fromkeys(texts, 0)
    for text in texts.values():
        for name in IMPORT.findall(text):
            uses[name.decode()] = uses.get(name.decode(), 0) + 1
    chosen = sorted((name for name in texts), key=lambda name: (-uses[name], name))[:count]
    return len(texts), sum(map(len, texts.values())), [(os.path.join(folder, name), texts[name].decode()) for name in chosen]


def changed(editor, uri, words):
    """The waits for the first list after each change, in milliseconds."""
    waits, start = [], {"line": 0, "character": 0}
    for version in range(2, 2 + words.changes):
        is_there = version % 2
        end = {"line": 0, "character": 1 if is_there else 0}
        change = {"range": {"start": start, "end": end}, "text": "" if is_there else "@"}
        sent = editor.send("textDocument/didChange", {"textDocument": {"uri": uri, "version": version}, "contentChanges": [change]})
        came = editor.wait(5)
        if came:
            waits.append(1000 * (came - sent))
        time.sleep(PAUSE)
        editor.drain()
    return waits


def hub(name):
    """The text of the hub, which has a message of that name."""
    return 'syntax = "proto3";\nmessage %s {}\n' % name


def importer(number):
    """The text of an importer: its last field is right as long as the hub has a message `Hub`."""
    lines = "".join("message M%d_%d { int32 a = 1; repeated string b = 2; M%d_%d c = 3; }\n" % (number, n, number, (n + 1) % MESSAGES)
                    for n in range(MESSAGES))
    return 'syntax = "proto3";\nimport "hub.proto";\n%smessage Last%d { Hub hub = 1; }\n' % (lines, number)


def fanned(words, workers, folder):
    """The median waits for the first and the last list of the importers after a change of the hub, in milliseconds."""
    editor = Editor(words.program, workers)
    editor.begin(folder)
    paths = [os.path.join(folder, "importer%d.proto" % n) for n in range(words.importers)]
    uris = ["file://" + quote(path) for path in paths]
    editor.open(os.path.join(folder, "hub.proto"), hub("Hub"))
    for number, path in enumerate(paths):
        editor.open(path, importer(number))
    editor.lists_of(uris)
    found = []
    for version in range(2, 2 + words.changes):
        time.sleep(PAUSE)
        editor.drain()
        document = {"uri": "file://" + quote(os.path.join(folder, "hub.proto")), "version": version}
        text = hub("Hub" if version % 2 else "Bub")
        sent = editor.send("textDocument/didChange", {"textDocument": document, "contentChanges": [{"text": text}]})
        found.append([1000 * (at - sent) for at in editor.lists_of(uris)])
    editor.end()
    return [statistics.median(waits) for waits in zip(*found)]


def importers_part(words):
    """Prints how long the importers of a hub wait with one worker, and with more."""
    with tempfile.TemporaryDirectory() as folder:
        folder = os.path.realpath(folder)
        for name, text in [("hub.proto", hub("Hub"))] + [("importer%d.proto" % n, importer(n)) for n in range(words.importers)]:
            with open(os.path.join(folder, name), "w") as sink:
                sink.write(text)
        waits = {workers: fanned(words, workers, folder) for workers in (1, words.workers)}
    for workers, (first, last) in waits.items():
        print("%d importers, %d workers: change to the first list %7.1f ms, to the last %7.1f ms" % (words.importers, workers, first, last))
    ratio = waits[1][1] / waits[words.workers][1]
    print("the last list comes %.2f times as fast with %d workers as with 1" % (ratio, words.workers))
    return 0 if ratio >= words.ratio else 1


def files_part(words):
    """Prints how long an editor waits over the files of a folder."""
    folder = os.path.realpath(words.files)
    count, size, chosen = most_imported(folder, words.open)
    editor = Editor(words.program, words.workers)
    begun = editor.begin(folder)
    for path, text in chosen:
        sent = editor.open(path, text)
    times = [editor.wait() for _ in chosen]
    opened = 1000 * ((times[-1] or sys.exit("a list did not come")) - sent)
    time.sleep(PAUSE)
    editor.drain()
    waits = changed(editor, "file://" + quote(chosen[0][0]), words)
    editor.end()
    print("%-12s %4d files %9d bytes  initialize %7.1f ms  %d opened, all lists %7.1f ms  change to list %6.2f ms, longest %6.2f (%d)" %
          (os.path.basename(folder), count, size, begun, len(chosen), opened, statistics.median(waits), max(waits), len(waits)))
    return 0


def main():
    words = argparse.ArgumentParser(usage=__doc__.split("usage: ")[1])
    words.add_argument("--files", help="a folder of .proto files, from which imports are written")
    words.add_argument("--importers", type=int, help="how many files import the hub")
    words.add_argument("--program", default=PROGRAM)
    words.add_argument("--open", type=int, default=30, help="how many documents are opened")
    words.add_argument("--changes", type=int, default=40)
    words.add_argument("--workers", type=int, default=4)
    words.add_argument("--ratio", type=float, default=2.5)
    words = words.parse_args()
    if not words.files and not words.importers:
        sys.exit("bench/pushes.py needs --files or --importers")
    return importers_part(words) if words.importers else files_part(words)


if __name__ == "__main__":
    sys.exit(main())
