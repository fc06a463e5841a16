#!/usr/bin/env python3
"""Plays what editors send: edits by changes with ranges, each beside a plain model of the buffer.

Each step of a session is one `didChange` of a file. After it a second file is set to the text of the model, as a whole, and both
are asked for their descriptor, outline and diagnostics: but for the name of the file the replies have to be the same. In the outline
the text at the range of each name, by the model, has to be that name. The sessions are typing, undo, a paste of 1,000 lines, a file
with CR LF, characters outside the BMP, several cursors, and what editors send that replace whole lines or whole texts. Each has
its last text, written by hand.

`--transcript FILE` plays what a real editor wrote, in the same way; checks/transcripts/ has some. `--refused FILE` plays one in which
the editor sends a range that its text does not have: there the server has to end. `--record FILE -- COMMAND ..` is for the editor
to start in the place of the server: it runs the command, and keeps what the editor writes in the file.

At the end a change with a bad range is sent: `script` has to end with status 3 and its line, and a server that listens has to end
that session alone, with its line in the log.

usage: checks/editors.py [PROGRAM] [--transcript FILE ..] [--refused FILE ..]
       checks/editors.py --record FILE -- COMMAND ..
"""
import argparse
import functools
import json
import os
import re
import signal
import subprocess
import sys

from messages import FIRST, METHODS, asked, bodies_of, changed, frame, notice, opened, read_body

HERE = os.path.dirname(os.path.abspath(__file__))
PROGRAM = os.path.join(HERE, "..", "crates", "pq_server", "out", "pq_server")
QUERIES = ("descriptors", "symbols", "diagnostics")
# The name of the second file of a pair begins so.
TWIN = "twin_of_"
LF, CR = b"\n\0", b"\r\0"


@functools.lru_cache(maxsize=4)
def units_of(text):
    """The UTF-16 code units of a text, each as two bytes."""
    data = text.encode("utf-16-le")
    return [data[i:i + 2] for i in range(0, len(data), 2)]


@functools.lru_cache(maxsize=4)
def lines_of(text):
    """The start and the end of each line of a text, without its terminator, in code units."""
    units = units_of(text)
    found, start, at = [], 0, 0
    while at < len(units):
        if units[at] in (LF, CR):
            found.append((start, at))
            at += 2 if units[at:at + 2] == [CR, LF] else 1
            start = at
        else:
            at += 1
    return found + [(start, at)]


class BadRange(Exception):
    """A range of a line that the text does not have, or one that is backwards."""


class Buffer:
    """A text that is changed as the Language Server Protocol says."""

    def __init__(self, text):
        self.text = text

    def offset(self, position):
        """The code unit of a position: a column past the end is the end of the line, and one inside a pair is its start."""
        lines = lines_of(self.text)
        if position["line"] >= len(lines):
            raise BadRange("a text of %d lines has no %r" % (len(lines), position))
        start, end = lines[position["line"]]
        at = min(start + position["character"], end)
        units = units_of(self.text)
        is_inside = start < at < end and 0xD8 <= units[at - 1][1] < 0xDC and 0xDC <= units[at][1] < 0xE0
        return at - 1 if is_inside else at

    def slice(self, span):
        """The text of a range."""
        return self.piece(self.offset(span["start"]), self.offset(span["end"]))

    def piece(self, start, end=None):
        return b"".join(units_of(self.text)[start:end]).decode("utf-16-le")

    def change(self, change):
        """Makes a member of `contentChanges`."""
        span = change.get("range")
        if span is None:
            self.text = change["text"]
            return
        start, end = self.offset(span["start"]), self.offset(span["end"])
        if end < start:
            raise BadRange("%r is backwards" % span)
        self.text = self.piece(0, start) + change["text"] + self.piece(end)


class Played:
    """A session of the server that plays steps, each checked."""

    def __init__(self, program, first=FIRST):
        self.server = subprocess.Popen([program, "script"], stdin=subprocess.PIPE, stdout=subprocess.PIPE, stderr=subprocess.PIPE)
        self.buffers = {}
        self.steps = 0
        self.send(first)
        self.sync = json.loads(read_body(self.server.stdout))["result"]["capabilities"]["textDocumentSync"]["change"]

    def send(self, data):
        self.server.stdin.write(data)
        self.server.stdin.flush()

    def open(self, name, text):
        self.buffers[name] = Buffer(text)
        self.send(opened(name, text))
        self.check(name)

    def step(self, name, changes):
        """Makes a list of changes in the server and in the model, and compares."""
        self.send(notice("textDocument/didChange", name, contentChanges=changes))
        for change in changes:
            self.buffers[name].change(change)
        self.check(name)

    def check(self, name):
        self.steps += 1
        folder, base = os.path.split(name)
        twin = os.path.join(folder, TWIN + base)
        self.send(changed(twin, self.buffers[name].text))
        self.send(b"".join(asked(query, METHODS[query], it) for query in QUERIES for it in (name, twin)))
        for query in QUERIES:
            found, wanted = [self.reply() for _ in range(2)]
            if found != wanted:
                self.fail("the %s of %s are %r, but of its text %r" % (query, name, found, wanted))
            if query == "symbols":
                self.check_names(self.buffers[name], json.loads(found)["result"])

    def reply(self):
        """The next reply, without the revision and the mark of a twin."""
        body = re.sub(rb'"resultId":"\d+"', b'"resultId":""', read_body(self.server.stdout))
        return body.replace(TWIN.encode(), b"")

    def check_names(self, buffer, symbols):
        for symbol in symbols:
            text = buffer.slice(symbol["selectionRange"])
            if text != symbol["name"]:
                self.fail("the name %r is %r at %r" % (symbol["name"], text, symbol["selectionRange"]))
            self.check_names(buffer, symbol["children"])

    def fail(self, why):
        sys.exit("step %d: %s" % (self.steps, why))

    def refused(self, name):
        """Sends a change with a bad range, after which the server ends."""
        self.send(notice("textDocument/didChange", name, contentChanges=[at(1 << 30, 0, 1 << 30, 0, "x")]))
        self.check_refused()

    def check_refused(self):
        """Checks that the server ends, since the last change that was sent has a bad range."""
        out, printed = self.server.communicate()
        if (self.server.returncode, out, printed) != (3, b"", b"pq_server: bad range\n"):
            self.fail("after a bad range the server ended with status %d and wrote %r and %r" % (self.server.returncode, out, printed))


def at(line, column, last, end, text):
    """A change of a range."""
    return {"range": {"start": {"line": line, "character": column}, "end": {"line": last, "character": end}}, "text": text}


def put(line, column, text):
    """An insertion."""
    return at(line, column, line, column, text)


def typed(line, column, text):
    """A step for each character that is typed on one line."""
    return [[put(line, column + len(text[:n].encode("utf-16-le")) // 2, text[n])] for n in range(len(text))]


# The sessions: a title, the first text, the steps, each a list of changes, and the last text.

START = 'syntax = "proto3";\n\nmessage Point {\n  int32 x = 1;\n}\n'


def typing():
    """A field is typed behind another, with the indent that the editor gives; a typing error is taken back by two backspaces."""
    steps = [[put(3, 14, "\n  ")], *typed(4, 2, "stirng"), [at(4, 7, 4, 8, "")], [at(4, 6, 4, 7, "")], [at(4, 5, 4, 6, "")], [at(4, 4, 4, 5, "")],
             *typed(4, 4, "ring name = 2;")]
    return "typing", START, steps, START.replace("= 1;\n", "= 1;\n  string name = 2;\n")


def undo():
    """A line is deleted, undone and redone; then two words are exchanged and changed back in one step."""
    gone, back = [at(3, 0, 4, 0, "")], [put(3, 0, "  int32 x = 1;\n")]
    there = [at(2, 8, 2, 13, "Place"), at(3, 8, 3, 9, "y")]
    return "undo", START, [gone, back, gone, back, there, [at(3, 8, 3, 9, "x"), at(2, 8, 2, 13, "Point")]], START


def paste():
    """1,000 lines are pasted, cut, and pasted behind the end; then the file is cut to its first line."""
    lines = "".join("message Pasted%d { Point at = 1; }\n" % n for n in range(1000))
    steps = [[put(2, 0, lines)], [at(2, 0, 1002, 0, "")], [put(5, 0, lines)], [at(5, 0, 1005, 0, "")], [put(4, 1, "\n" + lines[:-1])],
             [at(1, 0, 1005, 0, "")]]
    return "paste of 1,000 lines", START, steps, 'syntax = "proto3";\n'


def crlf():
    """Lines are joined, split and swapped in a file with CR LF; a CR and an LF that come one after the other are one end of a line."""
    text = START.replace("\n", "\r\n")
    steps = [[put(3, 14, "\r\n  bool is_far = 2;")], [at(3, 14, 4, 2, " ")], [at(3, 14, 3, 15, "\r\n  ")], [put(1, 0, "\r")], [put(2, 0, "\n")],
             [at(1, 0, 2, 0, "")], [at(0, 18, 1, 0, "\r")], [at(0, 18, 1, 0, "\n")], [put(5, 99, "\r\n// end")], [at(5, 99, 6, 0, "\r\n")]]
    last = 'syntax = "proto3";\n\r\nmessage Point {\r\n  int32 x = 1;\r\n  bool is_far = 2;\r\n}\r\n// end\r\n'
    return "CR LF", text, steps, last


def beyond():
    """Characters of two code units, in a comment, in an option and before the names of a line."""
    text = 'syntax = "proto3";\noption java_package = "a\U0001f600b";\n/* \U0001f600\U0001f601 */ message M { /* \u00e9\u20ac */ int32 x = 1; }\n'
    steps = [[put(1, 24, "\U0001f602")], [at(1, 26, 1, 28, "")], [at(1, 24, 1, 26, "\U0001f603")], [at(1, 25, 1, 27, "c")],
             [at(2, 3, 2, 5, "")], [put(2, 4, "\u65e5")], [put(2, 0, "\ufeff")], [at(2, 0, 2, 1, "")],
             [put(1, 24, "\U0001f1e9\U0001f1ea")], [at(1, 25, 1, 26, "\u0301")], *typed(2, 3, "\U0001f600 ok ")]
    last = 'syntax = "proto3";\noption java_package = "a\u0301\U0001f1eac";\n/* \U0001f600 ok \u65e5\U0001f601 */ message M { /* \u00e9\u20ac */ int32 x = 1; }\n'
    return "characters outside the BMP", text, steps, last


def cursors():
    """Three cursors: an editor that sends the last one first, and one that sends the first one first."""
    text = 'syntax = "proto3";\nmessage A {}\nmessage B {}\nmessage C {}\n'
    steps = [[put(line, column, "x") for line in (3, 2, 1)] for column in (9, 10)]
    steps += [[put(1, 12, " "), put(2, 12, " "), put(3, 12, " ")]]
    steps += [[at(1, 9, 1, 11, ""), at(2, 9, 2, 11, ""), at(3, 9, 3, 11, "")]]
    steps += [[put(1, 8, "P"), put(1, 9, "Q"), put(1, 10, "R"), at(1, 8, 1, 9, ""), put(1, 10, "\n"), at(1, 10, 2, 0, "")]]
    steps += [[put(3, 10, "\n"), put(2, 10, "\n"), put(1, 12, "\n")]]
    return "several cursors", text, steps, 'syntax = "proto3";\nmessage QRA \n {}\nmessage B \n {}\nmessage C \n {}\n'


def replaced():
    """A formatter that replaces all lines, one that replaces the whole text, a file that is emptied, and ranges past the ends of lines."""
    steps = [[at(0, 0, 5, 0, START.replace("  ", "    "))], [{"text": START}], [at(0, 0, 4, 1, "")], [put(0, 0, START)], [at(3, 0, 3, 2147483647, "  int64 y = 2;")],
             [at(0, 2147483647, 0, 2147483647, " // first")], [{"text": ""}, put(0, 0, "x"), {"range": None, "text": "y"}, at(0, 0, 0, 1, START)],
             [at(4, 0, 5, 0, "}")], [at(3, 14, 4, 0, "")], [put(3, 14, "\n")]]
    return "replaced lines and texts", START, steps, START[:-1]


SESSIONS = [typing, undo, paste, crlf, beyond, cursors, replaced]

def play(program, session):
    """Plays a session, and checks its last text."""
    title, text, steps, last = session()
    played = Played(program)
    if played.sync != 2:
        sys.exit("the server says that it takes changes of the kind %d" % played.sync)
    played.open("main.proto", text)
    for step in steps:
        played.step("main.proto", step)
    found = played.buffers["main.proto"].text
    if found != last:
        sys.exit("%s: the last text is %r" % (title, found))
    played.refused("main.proto")
    print("%s: %d steps" % (title, played.steps), flush=True)
    return played.steps


def name_of(params):
    """What `checks/messages.py` puts behind `file:///` for the file of a notification."""
    return params["textDocument"]["uri"][len("file:///"):]


def transcribed(program, path, is_refused):
    """Plays what an editor wrote, up to a bad range if there has to be one."""
    with open(path, "rb") as source:
        bodies = [json.loads(body) for body in bodies_of(source.read())]
    played = Played(program, frame(bodies[0]))
    refused = played_bodies(played, bodies[1:])
    if is_refused:
        if not refused:
            played.fail("%s: the editor sent no bad range" % os.path.basename(path))
        played.check_refused()
    elif refused:
        played.fail("%s: the editor sent a bad range: %s" % (os.path.basename(path), refused))
    else:
        played.refused(next(iter(played.buffers)))
    print("%s: %d steps" % (os.path.basename(path), played.steps), flush=True)
    return played.steps


def played_bodies(played, bodies):
    """Plays the edits among the bodies that an editor wrote, up to a bad range, which is returned as an exception."""
    for body in bodies:
        params = body.get("params") or {}
        if body.get("method") == "textDocument/didOpen":
            played.open(name_of(params), params["textDocument"]["text"])
        elif body.get("method") == "textDocument/didChange":
            try:
                played.step(name_of(params), params["contentChanges"])
            except BadRange as why:
                return why
    return None


def listened(program):
    """A server that listens ends the session that sends a bad range, and no other."""
    sys.path.append(os.path.join(HERE, "..", "bench"))
    from clients import Connection, Server
    server = Server(program, 2)
    bad, other = Connection(server.port), Connection(server.port)
    for client in (other, bad):
        client.begin(opened("a.proto", START))
    bad.send(notice("textDocument/didChange", "a.proto", contentChanges=[put(0, 0, "x"), at(1, 0, 0, 0, "")]))
    if bad.socket.recv(1):
        sys.exit("a session with a bad range goes on")
    other.send(asked(1, METHODS["diagnostics"], "a.proto"))
    body = other.bodies(1)[0]
    status, printed = server.terminated()
    if b'"items":[],' not in body or printed != b"[WARN  pq_server] client 0: the range is bad\n":
        sys.exit("beside a bad range: the reply %r, and the log %r" % (body, printed))
    print("a bad range by listen: its session ended, with %r in the log" % printed.decode())


def record(path, command):
    """Runs a server for an editor, and keeps what the editor writes."""
    with open(path, "wb", buffering=0) as sink:
        server = subprocess.Popen(command, stdin=subprocess.PIPE)
        signal.signal(signal.SIGTERM, lambda *_: server.terminate())
        while True:
            data = os.read(0, 1 << 16)
            if not data:
                break
            sink.write(data)
            try:
                server.stdin.write(data)
                server.stdin.flush()
            except BrokenPipeError:
                sys.exit(server.wait())
        server.stdin.close()
        sys.exit(server.wait())


def main():
    words = argparse.ArgumentParser()
    words.add_argument("program", nargs="?", default=PROGRAM)
    words.add_argument("--transcript", nargs="*", default=[])
    words.add_argument("--refused", nargs="*", default=[], help="transcripts with a bad range")
    words.add_argument("--record", help="where to keep what the editor writes")
    if "--" in sys.argv:
        at_ = sys.argv.index("--")
        return record(words.parse_args(sys.argv[1:at_]).record, sys.argv[at_ + 1:])
    words = words.parse_args()
    steps = [play(words.program, session) for session in SESSIONS]
    steps += [transcribed(words.program, path, False) for path in words.transcript]
    steps += [transcribed(words.program, path, True) for path in words.refused]
    listened(words.program)
    print("%d steps of %d sessions: the server's text is the buffer's" % (sum(steps), len(steps)))
    return 0


if __name__ == "__main__":
    sys.exit(main())
