#!/usr/bin/env python3
"""Random sessions of `pq_server stdio` below three roots, beside a model of which text a name has.

Below the roots are the same names. One root is below another, and one is reached by a link. Documents are opened, by paths and URIs
of each spelling, edited, closed unsaved and saved; files and folders are written, removed and renamed on the disk. In every second
session the editor says of each change on the disk. After each few steps, what is shown of each open document, what is answered
of it and of files that are not open, and the URIs of definitions are compared with what the model and `script --loose` say.

What the editor says of a file counts at once, and what it says of a folder within PROMPT seconds. What it does not say counts after
LATE seconds. What is later is counted, and is wrong by the command line.

Printed are the sessions that are wrong, and for each what was found. The status is 1 if there is one.

usage: checks/stdio_views_random.py [--program P] [--seed N] [--steps N] [--sessions N] [--processes N] [--workers N]
"""
import argparse
import itertools
import json
import multiprocessing
import os
import random
import re
import shutil
import signal
import subprocess
import sys
import tempfile
import threading
import time
import urllib.parse

from messages import frame, read_body
from server_process import LONGEST, PAUSE, SERVERS, Failed, check, end_servers, uri_of, write
from server_rows import PROGRAM
from stdio_client import LOOSE, PULL, Editor, codes, message, plain, softened, turned
from stdio_files import CHANGED, CREATED, DELETED
from stdio_random import PIECES, place_of, text_of

# The seconds after which a change on the disk counts: of a folder of which the editor says something, and of what it does not say.
PROMPT, LATE = 1.0, 3.0
# After so many steps what is shown is compared.
BETWEEN = 6
# The roots, as they are written and as they are, and the files below them and outside.
ROOTS = (("one", "one"), ("one/in", "one/in"), ("link", "real"))
FILES = ["one/" + name for name in ("a.proto", "b.proto", "c.proto", "x/d.proto", "x/e.proto", "y/d.proto")]
FILES += ["one/in/" + name for name in ("a.proto", "b.proto", "c.proto", "x/d.proto", "in/a.proto")]
FILES += ["real/" + name for name in ("a.proto", "b.proto", "c.proto", "x/d.proto", "x/e.proto", "y/d.proto", "in/a.proto", "in/b.proto")]
FILES += ["out/a.proto"]
# What is imported.
NAMES = ["a.proto", "b.proto", "c.proto", "x/d.proto", "x/e.proto", "y/d.proto", "in/a.proto", "in/b.proto", "in/in/a.proto"]
# Folders that take each other's name.
FOLDERS = (("one/x", "one/y"), ("real/x", "real/y"), ("one/in", "one/gone"), ("real/in", "out/in"), ("one/in/x", "real/in/x"))
USE = re.compile(r"\b([ABC]) f\d")
# A document outside the roots that stays open. Its list says which names there are: it imports each that a file may have.
PROBE = "out/probe.proto"
PROBED = NAMES + ["y/e.proto", "in/x/d.proto", "in/c.proto"] + ["gone/%s.proto" % name for name in ("a", "b", "c", "x/d", "in/a")]


class View:
    """The definition: the roots in order, the texts of the disk and those of the documents, by their paths.

    A document is its URI, its version and its text. A path is that to which links on the way to its root lead."""

    def __init__(self, roots):
        self.roots, self.disk, self.documents = roots, {}, {}

    def text_at(self, path):
        return self.documents[path][2] if path in self.documents else self.disk.get(path)

    def names(self, path):
        """The names of a file, in the order of the roots."""
        return [path[len(real) + 1:] for _, real in self.roots if path.startswith(real + "/")]

    def place(self, name):
        """The root, as it is written, and the path of the file that has a name: below the first root below which there is one."""
        for written, real in self.roots:
            if self.text_at(real + "/" + name) is not None:
                return written, real + "/" + name
        return None, None

    def name_of(self, path):
        """The name by which a file is asked for: the first of which it is the file, or its path."""
        return next((name for name in self.names(path) if self.place(name)[1] == path), path)

    def sources(self):
        """The text of each name. A document that is the file of none of its names has its path for one."""
        found = {}
        for path in sorted({*self.disk, *self.documents}):
            for name in self.names(path):
                found[name] = self.text_at(self.place(name)[1])
        for path in self.documents:
            if self.name_of(path) == path:
                found[path] = self.text_at(path)
        return found

    def uri_of(self, name):
        """The URI of the file that has a name: that of the document, else that below the root as it is written."""
        root, path = (None, name) if name in self.documents else self.place(name)
        return self.documents[path][0] if path in self.documents else uri_of(root + "/" + name)


class Oracle:
    """A session of `script --loose` that has the sources of a view. The name of a file with a path is that without the first slash."""

    def __init__(self, program):
        self.server = subprocess.Popen([program, "script", LOOSE], stdin=subprocess.PIPE, stdout=subprocess.PIPE)
        SERVERS.append(self.server)
        self.before = {}
        self.ask(frame({"jsonrpc": "2.0", "id": 1, "method": "initialize", "params": {}}))

    def ask(self, sent):
        self.server.stdin.write(sent)
        self.server.stdin.flush()
        return json.loads(read_body(self.server.stdout)).get("result")

    def take(self, sources):
        """Takes the sources of a view."""
        after = {name.lstrip("/"): text for name, text in sources.items()}
        self.server.stdin.write(b"".join(turned(self.before, after)))
        self.before = after

    def list_of(self, name):
        return softened(self.ask(message(PULL, name.lstrip("/"), 1))["items"])

    def definition(self, name, position):
        """The name of the file with the definition of what is at a place, or None."""
        found = self.ask(message_at(name.lstrip("/"), position))
        return found and urllib.parse.unquote(found["uri"])[len("file:///"):]


def message_at(name, position):
    params = {"textDocument": {"uri": uri_of("/" + name)}, "position": position}
    return frame({"jsonrpc": "2.0", "id": 1, "method": "textDocument/definition", "params": params})


class Session:
    """An editor and the disk, which make random steps, and the view that the server should have of them."""

    def __init__(self, program, workers, folder, seed, is_told):
        self.folder, self.seed, self.chance, self.is_told = folder, seed, random.Random(seed), is_told
        for name in ("one/in", "real", "out"):
            os.makedirs(self.at(name))
        os.symlink("real", self.at("link"))
        roots = [(self.at(written), self.at(real)) for written, real in ROOTS]
        self.chance.shuffle(roots)
        self.view, self.oracle = View(roots), Oracle(program)
        for name in self.chance.sample(FILES, 8):
            self.put(self.at(name), text_of(self.chance, NAMES))
        words = itertools.chain.from_iterable(("--root", written) for written, _ in roots)
        self.editor = Editor(program, *workers, *words, "--only-roots", params={"rootUri": uri_of(folder)})
        self.uris, self.states, self.late, self.longest = set(), [], 0, 0.0
        # Whether a folder has moved since what is shown was compared.
        self.has_moved = False
        probe = self.at(PROBE)
        self.has_text(probe, uri_of(probe), 'syntax = "proto3";\n' + "".join('import "%s";\n' % name for name in PROBED))
        self.editor.open(probe, self.view.documents[probe][2])

    def at(self, name):
        return os.path.join(self.folder, name)

    # ---- steps

    def step(self):
        steps = (self.open, self.write, self.remove, self.rename, self.rename_folder, self.remove_folder)
        weights = (6, 5, 2, 2, 1, 0.5)
        if self.some_documents():
            steps += (self.change, self.replace, self.close, self.save)
            weights += (8, 4, 4, 2)
        self.chance.choices(steps, weights)[0]()
        if self.is_told and self.has_moved:
            # The next edits come once that is seen, though no list may show it.
            self.editor.look(self.at("real"))
            self.compare("a folder that moved")
            self.states.clear()
        self.keep_state()

    def keep_state(self):
        view = self.view
        versions = {uri: (version, view.name_of(path)) for path, (uri, version, _) in view.documents.items()}
        self.states.append((view.sources(), versions))

    def some_documents(self):
        """The paths of the documents that are edited, saved and closed."""
        return sorted({*self.view.documents} - {self.at(PROBE)})

    def some_document(self):
        return self.chance.choice(self.some_documents())

    def spelled(self, path):
        """A URI of a file: by the link or the real path, and some with an escape that no one needs."""
        name = os.path.relpath(path, self.folder)
        if name.startswith("real/") and self.chance.random() < 0.6:
            name = "link" + name[len("real"):]
        uri = uri_of(self.at(name))
        return uri.replace(".proto", "%2eproto") if self.chance.random() < 0.2 else uri

    def open(self):
        path = self.at(self.chance.choice(FILES))
        if path in self.view.documents:
            return
        text = self.view.disk.get(path) if self.chance.random() < 0.5 else None
        self.has_text(path, self.spelled(path), text_of(self.chance, NAMES) if text is None else text)
        self.editor.open(None, self.view.documents[path][2], uri=self.view.documents[path][0])

    def has_text(self, path, uri, text):
        """The document has a new text, and its next version."""
        self.view.documents[path] = (uri, self.editor.versions.get(uri, 0) + 1, text)
        self.uris.add(uri)

    def replace(self):
        path = self.some_document()
        uri, text = self.view.documents[path][0], text_of(self.chance, NAMES)
        self.has_text(path, uri, text)
        self.editor.change(None, text, uri=uri)

    def change(self):
        """Replaces a range by some characters."""
        path = self.some_document()
        uri, _, text = self.view.documents[path]
        start = self.chance.randrange(len(text) + 1)
        end = min(len(text), start + self.chance.choice((0, 0, 1, 1, 2, 10)))
        new = self.chance.choice(PIECES)
        self.has_text(path, uri, text[:start] + new + text[end:])
        self.editor.change(None, {"range": {"start": place_of(text, start), "end": place_of(text, end)}, "text": new}, uri=uri)

    def close(self):
        self.editor.close(None, uri=self.view.documents.pop(self.some_document())[0])

    def save(self):
        path = self.some_document()
        uri, _, text = self.view.documents[path]
        kind = CHANGED if path in self.view.disk else CREATED
        self.be_read()
        self.put(path, text)
        self.editor.save(None, uri=uri)
        self.tell((path, kind))

    def write(self):
        path = self.at(self.chance.choice(FILES))
        kind = CHANGED if path in self.view.disk else CREATED
        self.be_read()
        self.put(path, text_of(self.chance, NAMES))
        self.tell((path, kind))

    def remove(self):
        if self.view.disk:
            path = self.chance.choice(sorted(self.view.disk))
            self.be_read()
            del self.view.disk[path]
            os.remove(path)
            self.tell((path, DELETED))

    def rename(self):
        path, other = self.at(self.chance.choice(FILES)), self.at(self.chance.choice(FILES))
        if path in self.view.disk and path != other:
            kind = CHANGED if other in self.view.disk else CREATED
            self.be_read()
            # Each of the two files may be seen before the other.
            text = self.view.disk[path]
            self.view.disk[other] = text
            self.keep_state()
            del self.view.disk[path]
            os.makedirs(os.path.dirname(other), exist_ok=True)
            os.rename(path, other)
            self.tell((path, DELETED), (other, kind))

    def rename_folder(self):
        pair = [self.at(name) for name in self.chance.choice(FOLDERS)]
        self.chance.shuffle(pair)
        old, new = pair
        if os.path.isdir(old) and not os.path.exists(new):
            self.be_read()
            os.makedirs(os.path.dirname(new), exist_ok=True)
            os.rename(old, new)
            self.move(old, new)

    def remove_folder(self):
        old = self.at(self.chance.choice(self.chance.choice(FOLDERS)))
        if os.path.isdir(old):
            self.be_read()
            shutil.rmtree(old)
            self.move(old, None)

    def move(self, old, new):
        """The files below a folder are below another one, or are gone. What is seen of them meanwhile is right of no state.

        The editor says so of the folder or of each file."""
        self.has_moved = True
        told = [(old, DELETED)] if new is None else [(old, DELETED), (new, CREATED)]
        files = []
        for path in [path for path in self.view.disk if path.startswith(old + "/")]:
            text = self.view.disk.pop(path)
            files.append((path, DELETED))
            if new is not None:
                self.view.disk[new + path[len(old):]] = text
                files.append((new + path[len(old):], CREATED))
        self.tell(*(told if self.chance.random() < 0.5 else files))

    def be_read(self):
        """The server has read from the disk what it was told of."""
        if self.is_told:
            self.editor.be_read()

    def put(self, path, text):
        self.view.disk[path] = text
        if not self.is_told and self.chance.random() < 0.3 and os.path.exists(path):
            with open(path, "w", encoding="utf-8", newline="") as sink:
                sink.write(text)
        else:
            write(self.folder, {os.path.relpath(path, self.folder): text})

    def tell(self, *changes):
        if self.is_told:
            self.editor.tell(*changes)

    # ---- what is compared

    def waited(self, found, wanted, what):
        """Waits until `found()` is `wanted`. What the editor said of a file has to be right at once."""
        start = time.monotonic()
        while (last := found()) != wanted:
            if self.is_told and not self.has_moved or time.monotonic() > start + LONGEST:
                raise Failed("%s: found %s, wanted %s" % (what, json.dumps(last), json.dumps(wanted)))
            time.sleep(PAUSE)
        seconds = time.monotonic() - start
        self.longest = max(self.longest, seconds)
        self.late += seconds > (PROMPT if self.is_told else LATE)

    def pulled(self, uri):
        found = self.editor.ask(PULL, {"textDocument": {"uri": uri}}).get("items")
        return found and plain(found)

    def compare(self, step):
        view, what = self.view, "after step %s of seed %d, " % (step, self.seed)
        try:
            self.oracle.take(view.sources())
            right = {path: self.oracle.list_of(view.name_of(path)) for path in view.documents}
            for path, (uri, _, _) in sorted(view.documents.items()):
                self.waited(lambda: self.pulled(uri), right[path], what + "asked for, " + self.said(path))
            closed = [path for path in view.disk if path not in view.documents and view.name_of(path) != path]
            for path in sorted(closed):
                wanted = self.oracle.list_of(view.name_of(path))
                self.waited(lambda: self.pulled(uri_of(path)), wanted, what + "asked for while it is closed, " + self.said(path))
            for path, (uri, version, _) in sorted(view.documents.items()):
                self.editor.expect(None, right[path], what + "pushed, " + self.said(path), uri=uri)
                self.editor.wait_for(lambda: (self.editor.lists(None, uri) or [{}])[-1].get("version") == version,
                                     what + "the version %d of the last list, %s" % (version, self.said(path)))
            for uri in sorted(self.uris - {uri for uri, _, _ in view.documents.values()}):
                self.editor.expect(None, [], what + "closed, " + uri, uri=uri)
            for path in sorted(view.documents):
                self.compare_definition(path, what)
            self.has_moved = False
        except Failed as why:
            state = (view.roots, json.dumps(view.disk), json.dumps(view.documents))
            raise Failed("%s\n    roots %s\n    disk %s\n    documents %s" % (why, *state))

    def compare_definition(self, path, what):
        """The URI of the definition of a type that a document uses."""
        uri, _, text = self.view.documents[path]
        uses = [it.start() for it in USE.finditer(text)]
        if uses:
            position = place_of(text, self.chance.choice(uses))
            name = self.oracle.definition(self.view.name_of(path), position)
            if name and "/" + name in self.view.documents:
                name = "/" + name
            wanted = name and self.view.uri_of(name)
            found = lambda: self.editor.definition(None, position["line"], position["character"], uri=uri)
            self.waited(found, wanted, what + "the definition of what is at %s of %s" % (position, self.said(path)))

    def said(self, path):
        return "%s (%s)" % (os.path.relpath(path, self.folder), self.view.name_of(path))

    def check_versions(self):
        """Each list with a version is right of a state in which its document had that version, where no folder has moved since."""
        right = {}
        for sources, versions in self.states:
            self.oracle.take(sources)
            for uri, (version, name) in versions.items():
                right.setdefault((uri, version), []).append(self.oracle.list_of(name))
        for uri in sorted(self.uris):
            for pushed in self.editor.lists(None, uri):
                moments = right.get((uri, pushed.get("version")))
                if moments and self.is_whole(uri, pushed["version"]) and pushed["diagnostics"] not in moments:
                    raise Failed("seed %d: the list of %s with the version %d is %s, which is right at no moment of that version; "
                                 "right are %s" % (self.seed, uri, pushed["version"], codes(pushed["diagnostics"]), moments))

    def is_whole(self, uri, version):
        """Whether the states that are kept have all those in which a document had a version."""
        first = self.states[0][1].get(uri)
        return first is None or first[0] != version

    def run(self, steps):
        """Makes the steps. Returns how many waits were too long, the longest, and how many lines of standard error came."""
        for step in range(1, steps + 1):
            self.step()
            if step % BETWEEN == 0 or step == steps:
                self.compare(step)
        self.editor.be_quiet()
        self.compare(steps)
        if self.is_told and self.states:
            self.check_versions()
        # A root that is away, and a file that is gone when it is read, may leave a line.
        self.editor.end(*((self.folder,) for _ in self.editor.lines()))
        return self.late, self.longest, len(self.editor.lines())


def sessions_at_once(place, seeds, steps, is_told):
    """Runs sessions with these seeds, each in a thread."""
    wrong = []

    def run(seed):
        folder = os.path.join(place.folder, "seed%d" % seed)
        os.mkdir(folder)
        try:
            Session(place.program, place.workers, folder, seed, is_told).run(steps)
        except (Failed, OSError, EOFError, ValueError) as why:
            wrong.append("%s: %s" % (type(why).__name__, why))

    threads = [threading.Thread(target=run, args=(seed,)) for seed in seeds]
    for thread in threads:
        thread.start()
    for thread in threads:
        thread.join()
    check(len(wrong), 0, "sessions that are wrong, of which one has %s" % (wrong or [""])[0])


def random_views_told(place):
    """After random steps below three roots, of which the editor says, lists and definitions are those of a model, at once."""
    sessions_at_once(place, range(place.seed, place.seed + 4), place.steps // 3, True)


def random_views_untold(place):
    """The same where the editor says nothing of what changes on the disk, once that has been seen."""
    sessions_at_once(place, range(place.seed, place.seed + 6), place.steps // 8, False)


def played(given):
    """A session by itself: its seed, what is wrong with it or None, and what it returns."""
    words, seed = given
    with tempfile.TemporaryDirectory() as folder:
        try:
            session = Session(words.program, ("--workers", str(words.workers)), os.path.realpath(folder), seed, seed % 2 == 0)
            return seed, None, session.run(words.steps)
        except (Failed, OSError, EOFError, ValueError) as why:
            return seed, "%s: %s" % (type(why).__name__, why), (0, 0, 0)
        finally:
            end_servers()


def main():
    words = argparse.ArgumentParser(usage=__doc__.split("usage: ")[1])
    words.add_argument("--program", default=PROGRAM)
    words.add_argument("--seed", type=int, default=1, help="that of the first session; the next ones have the next numbers")
    words.add_argument("--steps", type=int, default=300)
    words.add_argument("--sessions", type=int, default=10)
    words.add_argument("--processes", type=int, default=4 * os.cpu_count())
    words.add_argument("--workers", type=int, default=2)
    words = words.parse_args()
    words.program = os.path.abspath(words.program)
    # So that the sessions end too.
    signal.signal(signal.SIGTERM, lambda number, _: sys.exit(128 + number))
    start, wrong, late, longest, lines = time.monotonic(), 0, 0, 0.0, 0
    with multiprocessing.Pool(words.processes, maxtasksperchild=1) as pool:
        seeds = range(words.seed, words.seed + words.sessions)
        for seed, why, found in pool.imap_unordered(played, [(words, seed) for seed in seeds]):
            late, longest, lines = late + found[0], max(longest, found[1]), lines + found[2]
            if why is not None:
                wrong += 1
                print("seed %d: %s" % (seed, why), flush=True)
    print("%d sessions of %d steps in %.0f s, %d wrong; %d waits were too long, the longest took %.2f s; %d lines of standard error"
          % (words.sessions, words.steps, time.monotonic() - start, wrong, late, longest, lines))
    return 1 if wrong or late else 0


if __name__ == "__main__":
    sys.exit(main())
