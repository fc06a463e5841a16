"""An editor at `pq_server stdio`: what it sends, what it was sent, and what is right by `pq_server script --loose`."""
import fcntl
import json
import os
import re
import subprocess
import sys
import termios
import threading
import time

from messages import bodies_of, frame
from server_process import LONGEST, Failed, Server, check, until, uri_of, write

PULL = "textDocument/diagnostic"
PUSH = "textDocument/publishDiagnostics"
ALL = "workspace/diagnostic"
REFRESH = "workspace/diagnostic/refresh"
LOG, SHOW = "window/logMessage", "window/showMessage"
CONTENT_MODIFIED = -32801
REQUEST_CANCELLED = -32800
# The word by which `script` and `listen` read the files that `stdio` reads.
LOOSE = "--loose"
# An import of a file with an error is not shown. The names that may be defined there have the other severity then.
FAULTY_IMPORT, UNKNOWN_TYPE, INFORMATION = "P104", "P150", 3
# What is not read of a file is not shown either.
HIDDEN = {"P020", "P021", "P022", FAULTY_IMPORT}
# What the message of a missing import has by `script`. By `stdio` the folders in which it was looked for follow.
MISSING, NOT_FOUND = "P102", re.compile(r'.*" is not found', re.S)
# How long it is quiet before no further message is expected, in seconds.
QUIET = 0.4
# A file that is written to see whether the server has looked at the disk, and a document that imports it.
MARK, LOOK = "mark.proto", "look.proto"
# The bytes of a pipe that is as good as full.
PIPE = 60000


class Editor(Server):
    """A session with a server on its standard streams. It has begun, unless `params` is None."""

    def __init__(self, program, *words, params=(), capabilities=None, begins=True):
        super().__init__([program, "stdio", *words], subprocess.PIPE)
        # Replies by their ids; lists, requests of the server and its other notifications in the order in which they came.
        self.replies, self.pushed, self.requests, self.notices, self.last_news = {}, [], [], [], time.monotonic()
        self.next, self.versions, self.looks = 0, {}, 0
        # While it is cleared, what the server writes is left in the pipe.
        self.reads = threading.Event()
        self.reads.set()
        self.start(self.read_output, self.read_errors)
        if begins:
            self.first = self.ask("initialize", dict(params, capabilities=capabilities or {}))
            self.say("initialized", {})

    # ---- what comes

    def read_output(self):
        while True:
            body = self.read_body()
            with self.news:
                self.last_news = time.monotonic()
                if body is None:
                    self.has_ended = True
                else:
                    self.take(body)
                self.news.notify_all()
            if body is None:
                return

    def read_body(self):
        length = None
        self.reads.wait()
        for line in iter(self.server.stdout.readline, b"\r\n"):
            if not line:
                return None
            name, _, value = line.partition(b":")
            length = int(value) if name.lower() == b"content-length" else length
        return json.loads(self.server.stdout.read(length))

    def take(self, body):
        """Keeps a message by its kind. A second reply with one id is kept as an error of the server."""
        if "method" not in body:
            again = body["id"] in self.replies
            self.replies[body["id"]] = {"error": {"code": 0, "message": "answered twice"}} if again else body
        elif "id" in body:
            self.requests.append(body)
        elif body["method"] == PUSH:
            self.pushed.append(body["params"])
        else:
            self.notices.append(body)

    def be_read(self):
        """Waits until the server has done what was sent: it answers a request after that."""
        self.ask("proto/none", {})

    def be_quiet(self):
        """Waits until the server has done what was sent, and nothing came for a while after it."""
        self.be_read()
        self.rest()

    def rest(self):
        """Waits until nothing came for a while."""
        with self.news:
            while time.monotonic() - self.last_news < QUIET:
                self.news.wait(QUIET / 4)

    def look(self, folder):
        """Waits until the server has looked at all of the disk since now, though it is told of nothing.

        A file below the folder, which is that of a root, is written twice. When the importer of the second text shows it, the look
        that saw the first one has ended, and another one began after that."""
        path = os.path.join(folder, LOOK)
        for _ in range(2):
            self.looks += 1
            write(folder, {MARK: 'syntax = "proto3";\nmessage M%d {}\n' % (self.looks % 2)})
            if self.looks == 1:
                self.open(path, 'syntax = "proto3";\nimport "%s";\nmessage L { M0 a = 1; M1 b = 2; }\n' % MARK)
            # The type that is not there is the first one after an odd number of looks.
            wanted = [12 if self.looks % 2 else 22]
            until(lambda: [it["range"]["start"]["character"] for it in self.pull(path)], wanted, "a look at the disk")

    def wait_until_full(self):
        """Waits until the server waits for room in the pipe of its output. `reads` has to be cleared."""
        end, there = time.monotonic() + LONGEST, bytes(4)
        while int.from_bytes(there, sys.byteorder) < PIPE:
            if time.monotonic() > end:
                raise Failed("the server writes too little to fill a pipe")
            time.sleep(0.02)
            there = fcntl.ioctl(self.server.stdout.fileno(), termios.FIONREAD, bytes(4))

    # ---- what is sent

    def send(self, data):
        try:
            self.server.stdin.write(data)
            self.server.stdin.flush()
        except (BrokenPipeError, ValueError):
            raise Failed("the server has ended; standard error has %r" % self.printed.decode(errors="replace"))

    def say(self, method, params):
        self.send(frame({"jsonrpc": "2.0", "method": method, "params": params}))

    def begin_to_ask(self, method, params):
        """Sends a request. Returns its id."""
        self.next += 1
        self.send(frame({"jsonrpc": "2.0", "id": self.next, "method": method, "params": params}))
        return self.next

    def reply(self, label):
        self.wait_for(lambda: label in self.replies, "the reply of request %s" % label)
        return self.replies[label]

    def answer(self, request, result=None):
        """Answers a request of the server."""
        self.send(frame({"jsonrpc": "2.0", "id": request["id"], "result": result}))

    def ask(self, method, params):
        """The result of a request or its error, asked for again where an edit overtook it."""
        while True:
            reply = self.reply(self.begin_to_ask(method, params))
            if reply.get("error", {}).get("code") != CONTENT_MODIFIED:
                return reply.get("result", reply.get("error"))

    def open(self, path, text, uri=None):
        """Opens a document. Its versions go on from those that it had when it was open before."""
        uri = uri or uri_of(path)
        self.versions[uri] = self.versions.get(uri, 0) + 1
        document = {"uri": uri, "languageId": "proto", "version": self.versions[uri], "text": text}
        self.say("textDocument/didOpen", {"textDocument": document})

    def change(self, path, *changes, uri=None):
        """Makes changes, each a whole text or a member of `contentChanges`, in one message."""
        uri = uri or uri_of(path)
        self.versions[uri] += 1
        changes = [{"text": it} if isinstance(it, str) else it for it in changes]
        document = {"uri": uri, "version": self.versions[uri]}
        self.say("textDocument/didChange", {"textDocument": document, "contentChanges": changes})

    def close(self, path, uri=None):
        self.say("textDocument/didClose", {"textDocument": {"uri": uri or uri_of(path)}})

    def save(self, path, uri=None):
        self.say("textDocument/didSave", {"textDocument": {"uri": uri or uri_of(path)}})

    def tell(self, *changes):
        """Says that files were created (1), changed (2) or deleted (3) on the disk: pairs of a path and such a number."""
        self.say("workspace/didChangeWatchedFiles", {"changes": [{"uri": uri_of(path), "type": kind} for path, kind in changes]})

    # ---- what is right

    def pull(self, path, uri=None):
        """The diagnostics of a file, asked for, without the folders in which imports were looked for."""
        return plain(self.raw_pull(path, uri))

    def raw_pull(self, path, uri=None):
        """The diagnostics of a file as they are answered."""
        found = self.ask(PULL, {"textDocument": {"uri": uri or uri_of(path)}})
        if "items" not in found:
            raise Failed("the diagnostics of %s are %r" % (uri or path, found))
        return found["items"]

    def definition(self, path, line, character, uri=None):
        """The URI of the file that has the definition of what is at a place of a file, or None."""
        position = {"line": line, "character": character}
        found = self.ask("textDocument/definition", {"textDocument": {"uri": uri or uri_of(path)}, "position": position})
        return found and found.get("uri")

    def lists(self, path, uri=None):
        """The lists that were pushed for a file, in their order, without the folders in which imports were looked for."""
        return [dict(it, diagnostics=plain(it["diagnostics"])) for it in self.raw_lists(path, uri)]

    def raw_lists(self, path, uri=None):
        """The lists that were pushed for a file, in their order, as they came."""
        uri = uri or uri_of(path)
        with self.news:
            return [it for it in self.pushed if it.get("uri") == uri]

    def logged(self, method=LOG):
        """The texts of the messages to the log, or of those to the user."""
        with self.news:
            return [it["params"]["message"] for it in self.notices if it["method"] == method]

    def asked_by_server(self, method):
        """The requests of the server with a method."""
        with self.news:
            return [it for it in self.requests if it["method"] == method]

    def shown(self, path, uri=None):
        """The list that an editor shows of a file that gets lists: the last one, or nothing."""
        found = self.lists(path, uri)
        return found[-1]["diagnostics"] if found else []

    def expect(self, path, wanted, what, uri=None):
        """Waits until the file is shown with the list `wanted`."""
        try:
            self.wait_for(lambda: self.shown(path, uri) == wanted, what)
        except Failed as why:
            raise Failed("%s\n    shown %s\n    wanted %s" % (why, json.dumps(self.shown(path, uri)), json.dumps(wanted)))

    def expect_codes(self, path, wanted, what):
        """Waits until the codes that are shown of the file are those that `wanted` lists, separated by blanks."""
        try:
            self.wait_for(lambda: codes(self.shown(path)) == wanted.split(), what)
        except Failed as why:
            raise Failed("%s\n    shown %s\n    wanted %s" % (why, codes(self.shown(path)), wanted.split()))

    # ---- the end

    def ended(self):
        """Closes the input. Returns the status and the lines of standard error, when the server has ended."""
        if not self.server.stdin.closed:
            try:
                self.server.stdin.close()
            except BrokenPipeError:
                pass
        return self.left()

    def leave(self):
        """Ends the session in order. Returns the lines of standard error."""
        check(self.ask("shutdown", None), None, "the reply to shutdown")
        self.say("exit", None)
        status, lines = self.ended()
        check(status, 0, "the status, with standard error %r" % lines)
        return lines

    def end(self, *wanted):
        """Ends the session in order. Standard error has to have the lines `wanted`, each given by texts that it has."""
        lines = self.leave()
        is_right = len(lines) == len(wanted) and all(all(text in line for text in texts) for line, texts in zip(lines, wanted))
        if not is_right:
            raise Failed("the lines of standard error are %r, wanted %r" % (lines, wanted))


def codes(items):
    """The codes of a list. A file that is not read has one diagnostic without a code."""
    return [it.get("code", "none") for it in items]


def severities(items):
    return [(it["code"], it["severity"]) for it in items]


def plain(items):
    """A list of diagnostics without the folders in which its imports were looked for."""
    return [dict(it, message=NOT_FOUND.match(it["message"]).group()) if it.get("code") == MISSING else it for it in items]


def softened(items):
    """A list of diagnostics of `script` as `stdio` shows it, without the folders in which imports were looked for."""
    shown = [it for it in items if it["code"] not in HIDDEN]
    if FAULTY_IMPORT not in codes(items):
        return shown
    return [dict(it, severity=INFORMATION) if it["code"] == UNKNOWN_TYPE else it for it in shown]


def message(method, name, label=None, **more):
    """The frame of a message about the file `name`: a request with the id `label`, or a notification."""
    body = {"jsonrpc": "2.0", "method": method, "params": {"textDocument": dict(more, uri=uri_of("/" + name))}}
    return frame(body if label is None else dict(body, id=label))


def turned(before, after):
    """What makes the files `after` of the files `before`."""
    sent = [message("textDocument/didOpen", name, text=after[name]) for name in sorted(after) if before.get(name) != after[name]]
    return sent + [message("proto/removeFile", name) for name in sorted(before) if name not in after]


def history(program, states, *words):
    """The diagnostics of each file in each of the states, by one session of `script` with these words. A state has the text of each
    name."""
    sent, before = [frame({"jsonrpc": "2.0", "id": "first", "method": "initialize", "params": {}})], {}
    for number, after in enumerate(states):
        sent += turned(before, after) + [message(PULL, name, "%d %s" % (number, name)) for name in sorted(after)]
        before = after
    done = subprocess.run([program, "script", *words], input=b"".join(sent), capture_output=True, timeout=LONGEST)
    found = [{} for _ in states]
    for body in bodies_of(done.stdout)[1:]:
        reply = json.loads(body)
        number, _, name = reply["id"].partition(" ")
        found[int(number)][name] = reply["result"]["items"]
    return found


def scripted(program, files, *words):
    """The diagnostics of each file by a new session of `script` with these words. `files` has the text of each name."""
    return history(program, [files], *words)[0]


def shown_by_rights(program, files):
    """The list of each file, as `stdio` has to show it."""
    return {name: softened(items) for name, items in scripted(program, files, LOOSE).items()}


def check_versions(program, editor, folder, states):
    """Each list that came with a version is right of some state in which its document had that version.

    A state is a pair: the text of each file, and the version of each document, by their names below the folder."""
    right = history(program, [texts for texts, _ in states], LOOSE)
    for name in sorted({name for _, versions in states for name in versions}):
        for pushed in editor.lists(os.path.join(folder, name)):
            if "version" not in pushed:
                check(pushed["diagnostics"], [], "a list of %s that has no version" % name)
                continue
            moments = [lists for lists, (_, versions) in zip(right, states) if versions.get(name) == pushed["version"]]
            wanted = [softened(lists[name]) for lists in moments]
            if pushed["diagnostics"] not in wanted:
                raise Failed("the list of %s with the version %d is %s, which is right at no moment of that version; right are %s"
                             % (name, pushed["version"], codes(pushed["diagnostics"]), [codes(it) for it in wanted]))
