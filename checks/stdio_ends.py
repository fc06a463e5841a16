"""Rows of `checks/stdio.py`: how a session begins and ends, with its status and its lines of standard error."""
import fcntl
import os
import select
import subprocess
import sys
import termios
import threading
import time

from messages import frame
from server_process import LONGEST, SERVERS, Failed, check, uri_of
from stdio_client import PIPE, Editor
from stdio_files import rooted
from stdio_lists import BAD, GOOD, HEAD, at, begun

# A session that has to end ends within so many seconds, and the reply to `shutdown` comes within so many.
SOON, REPLIED = 2.0, 8.0
# How many fields and scopes the text has whose list is dear.
FIELDS, SCOPES = 10_000, 60


def left(editor, wanted, *lines):
    """Checks the status and the lines of a session whose input ends."""
    status, printed = editor.ended()
    check(status, wanted, "the status, with standard error %r" % printed)
    is_right = len(printed) == len(lines) and all(text in line for text, line in zip(lines, printed))
    if not is_right:
        raise Failed("standard error has %r, wanted %r" % (printed, lines))


def in_order(place):
    """After `shutdown` and `exit` the status is 0, and standard error is empty."""
    editor = begun(place)
    editor.open(at(place, "a.proto"), BAD)
    editor.end()
    editor = begun(place)
    check("capabilities" in editor.first, True, "the reply to initialize")
    check(editor.first["capabilities"]["textDocumentSync"]["change"], 2, "how changes are taken")
    editor.end()


def with_its_word(place):
    """The word `--stdio`, which some editors add, changes nothing."""
    editor = Editor(place.program, *place.workers, "--stdio", params={"rootUri": uri_of(place.folder)})
    editor.open(at(place, "a.proto"), BAD)
    editor.expect_codes(at(place, "a.proto"), "P120", "after the open")
    editor.end()


def without_order(place):
    """At the end of the input, and after `exit` alone, the status is 1."""
    editor = begun(place)
    editor.open(at(place, "a.proto"), GOOD)
    editor.be_quiet()
    left(editor, 1)
    left(Editor(place.program, *place.workers, begins=False), 1)
    editor = begun(place)
    editor.say("exit", None)
    left(editor, 1)


def frame_errors(place):
    """A frame error, and an input that ends inside a frame, have the status 2 and their lines."""
    for data, line in ((b"x" * 4096, "pq_server: frame fault 1"),
                       (b"\r\n", "pq_server: frame fault 2"),
                       (b"Content-Length: x\r\n\r\n", "pq_server: frame fault 3"),
                       (b"Content-Length: 16777217\r\n\r\n", "pq_server: frame fault 4"),
                       (b"Content-Length: 10\r\n\r\n{}", "pq_server: input ends inside a frame")):
        editor = begun(place)
        editor.be_quiet()
        editor.send(data)
        left(editor, 2, line)


def unreadable_edits(place):
    """An edit of unreadable parameters ends the session with status 3."""
    editor = begun(place)
    editor.say("textDocument/didOpen", {"textDocument": {"uri": uri_of(at(place, "a.proto")), "text": 1}})
    left(editor, 3, "pq_server: edit refused 0")


def failed_writes(place):
    """An editor that has closed its end of the output ends the session at its next requests, with status 4."""
    source, sink = os.pipe()
    server = subprocess.Popen([place.program, "stdio", *place.workers], stdin=subprocess.PIPE, stdout=sink, stderr=subprocess.PIPE)
    SERVERS.append(server)
    os.close(sink)
    os.close(source)
    try:
        for n in range(500):
            server.stdin.write(frame({"jsonrpc": "2.0", "id": n, "method": "initialize" if n == 0 else "proto/none", "params": {}}))
            server.stdin.flush()
            time.sleep(0.02)
        raise Failed("the server took 500 requests")
    except BrokenPipeError:
        check([server.wait(LONGEST), server.stderr.read().decode()], [4, "pq_server: write failed\n"], "the end")


def failed_push(place):
    """An editor that has closed its end of the output ends the session at the next list, with status 4, though it sends no more."""
    editor = Raw(place)
    editor.send("textDocument/didOpen", editor.document(at(place, "a.proto"), BAD))
    editor.wait_for_bytes(b"publishDiagnostics")
    os.close(editor.source)
    editor.send("textDocument/didChange", {"textDocument": {"uri": uri_of(at(place, "a.proto")), "version": 2},
                                           "contentChanges": [{"text": GOOD}]})
    ends_soon(editor.server, 4, ["pq_server: write failed"], "after the write of a list failed")


# ---- the end while something dear is under way


class Raw:
    """A session whose output can be closed by its reader. It has begun."""

    def __init__(self, its):
        self.source, sink = os.pipe()
        words = [its.program, "stdio", *its.workers]
        self.server = subprocess.Popen(words, stdin=subprocess.PIPE, stdout=sink, stderr=subprocess.PIPE)
        SERVERS.append(self.server)
        os.close(sink)
        self.send("initialize", {"rootUri": uri_of(its.folder), "capabilities": {}}, id=1)
        self.wait_for_bytes(b"capabilities")
        self.send("initialized", {})

    def send(self, method, params, **more):
        self.server.stdin.write(frame(dict(more, jsonrpc="2.0", method=method, params=params)))
        self.server.stdin.flush()

    def document(self, path, text):
        return {"textDocument": {"uri": uri_of(path), "languageId": "proto", "version": 1, "text": text}}

    def read_on(self):
        """Reads what comes from now on, and throws it away. A thread does it until the end."""
        threading.Thread(target=lambda: [None for _ in iter(lambda: os.read(self.source, 65536), b"")], daemon=True).start()

    def wait_until_full(self):
        """Waits until the pipe of the output is as good as full."""
        end, there = time.monotonic() + LONGEST, bytes(4)
        while int.from_bytes(there, sys.byteorder) < PIPE:
            if time.monotonic() > end:
                raise Failed("the server writes too little to fill a pipe")
            time.sleep(0.02)
            there = fcntl.ioctl(self.source, termios.FIONREAD, bytes(4))

    def wait_for_bytes(self, wanted):
        """Reads until these bytes came."""
        end, found = time.monotonic() + LONGEST, b""
        while wanted not in found:
            ready, _, _ = select.select([self.source], [], [], max(0, end - time.monotonic()))
            piece = os.read(self.source, 65536) if ready else b""
            if not piece:
                raise Failed("%r did not come, but %r" % (wanted, found))
            found += piece


def ends_soon(server, status, lines, what):
    """Checks that a server ends within SOON seconds, and how."""
    start = time.monotonic()
    try:
        found = server.wait(LONGEST)
    except subprocess.TimeoutExpired:
        raise Failed("%s the server does not end" % what)
    seconds = time.monotonic() - start
    check([found, server.stderr.read().decode().splitlines()], [status, lines], "the end " + what)
    if seconds > SOON:
        raise Failed("%s the server ended after %.1f seconds" % (what, seconds))


def dear_text():
    """A text whose list takes a program that is not optimised ten seconds, once its outline is there: many types that are in none of
    many scopes."""
    fields = "".join("Foo f%d = %d;\n" % (n, n + 1) for n in range(FIELDS))
    return HEAD + "".join("message N%d {\n" % n for n in range(SCOPES)) + fields + "}" * SCOPES + "\n"


def busy(its):
    """A session in which a dear list is being made, and nothing is owed."""
    raw, path = Raw(its), at(its, "dear.proto")
    raw.send("textDocument/didOpen", raw.document(path, dear_text()))
    raw.send("textDocument/documentSymbol", {"textDocument": {"uri": uri_of(path)}}, id=9)
    raw.wait_for_bytes(b'"id":9')
    time.sleep(0.5)
    return raw


def exit_while_busy(place):
    """After `exit` the session ends within two seconds, though a dear list is being made."""
    raw = busy(place)
    raw.send("exit", None)
    ends_soon(raw.server, 1, [], "after exit")
    os.close(raw.source)


def shutdown_while_busy(place):
    """After `shutdown` and `exit` the session ends within two seconds, though a dear list is being made."""
    raw = busy(place)
    raw.read_on()
    raw.send("shutdown", None, id=2)
    raw.send("exit", None)
    ends_soon(raw.server, 0, [], "after shutdown and exit")


def reply_while_busy(place):
    """An editor that waits for the reply to `shutdown` gets it while a dear list is being made, and `exit` then ends the session."""
    raw, start = busy(place), time.monotonic()
    raw.send("shutdown", None, id=2)
    raw.wait_for_bytes(b'"id":2')
    seconds = time.monotonic() - start
    if seconds > REPLIED:
        raise Failed("the reply to shutdown came after %.1f seconds" % seconds)
    raw.send("exit", None)
    ends_soon(raw.server, 0, [], "after the reply to shutdown and exit")
    os.close(raw.source)


def end_of_input_while_busy(place):
    """At the end of the input the session ends within two seconds, though a dear list is being made."""
    raw = busy(place)
    raw.server.stdin.close()
    ends_soon(raw.server, 1, [], "at the end of the input")
    os.close(raw.source)


def ends_while_unread(place):
    """At `exit`, and at the end of the input, the session ends within two seconds, though a list waits for room in the output."""
    for what, end in (("after exit", lambda raw: raw.send("exit", None)), ("at the end of the input", lambda raw: raw.server.stdin.close())):
        raw = Raw(place)
        raw.send("textDocument/didOpen", raw.document(at(place, "a.proto"), BAD + 3000 * "message M { int32 x = 0; }\n"))
        raw.wait_until_full()
        end(raw)
        ends_soon(raw.server, 1, [], what)
        os.close(raw.source)


def failed_write_while_busy(place):
    """After a reply could not be written the session ends within two seconds, though the input is open and a dear list is being made."""
    raw = busy(place)
    os.close(raw.source)
    raw.send("proto/none", {}, id=3)
    ends_soon(raw.server, 4, ["pq_server: write failed"], "after a write failed")


def words_that_are_refused(place):
    """Help, unknown words, and workers out of their range have the status 64, and nothing is written to standard output."""
    for words in ("--help", "--no-such-word", "more", "--workers 0", "--workers 33", "--workers x", "--root"):
        given = [place.program, "stdio", *words.split()]
        done = subprocess.run(given, stdin=subprocess.DEVNULL, capture_output=True, timeout=LONGEST)
        check([done.returncode, done.stdout.decode()], [64, ""], "stdio " + words)
        check(done.stderr != b"", True, "something is said of stdio " + words)


def roots_that_are_not_there(place):
    """A root folder that is not there leaves at most one line, and the server goes on."""
    os.mkdir(at(place, "here"))
    editor = rooted(place, "nowhere", "here")
    path = at(place, "here/a.proto")
    editor.open(path, BAD)
    editor.expect_codes(path, "P120", "a document below the other root")
    lines = editor.leave()
    check(len(lines) <= 1 and all(at(place, "nowhere") in line for line in lines), True, "the lines %r" % lines)


def ends_at_any_moment(place):
    """A session whose lists are being made ends in order, whenever `shutdown` and `exit` come, and `shutdown` is answered."""
    text = HEAD + "".join("message M%d { M%d m = 1; Z z = 2; }\n" % (n, n + 1) for n in range(300))
    last = frame({"jsonrpc": "2.0", "id": 1000, "method": "shutdown"}) + frame({"jsonrpc": "2.0", "method": "exit"})
    for turn in range(30):
        editor = begun(place)
        for n in range(5):
            editor.open(at(place, "%d.proto" % n), text)
        if turn % 3 == 0:
            editor.be_read()
        if turn % 3 == 1:
            editor.change(at(place, "0.proto"), text + BAD)
        time.sleep(turn % 10 * 0.003)
        editor.send(last)
        left(editor, 0)
        check("result" in editor.replies.get(1000, {}), True, "shutdown is answered in turn %d" % turn)


def requests_before_the_end(place):
    """Requests and edits that are sent in one go with the end are all answered, and in the order of the requests."""
    editor = begun(place)
    path = at(place, "a.proto")
    editor.open(path, BAD)
    document = {"textDocument": {"uri": uri_of(path)}}
    sent = [frame({"jsonrpc": "2.0", "id": n, "method": "textDocument/documentSymbol", "params": document})
            for n in range(100, 120)]
    sent.append(frame({"jsonrpc": "2.0", "id": 120, "method": "shutdown"}))
    editor.send(b"".join(sent) + frame({"jsonrpc": "2.0", "method": "exit"}))
    left(editor, 0)
    check(sorted(it for it in editor.replies if it >= 100), list(range(100, 121)), "the requests that were answered")
    check([it for it in editor.replies if it >= 100], list(range(100, 121)), "the order of the replies")
