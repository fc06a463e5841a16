#!/usr/bin/env python3
"""Runs each client that is installed here with `stdio`, and compares the diagnostics that it shows with those that are right.

A client opens two files, `a.proto` and `b.proto`, of which the first imports the second, and makes STEPS. After each it shows the
diagnostics of `a.proto`: line, column and text of each are compared. The configuration of a client is the block of docs/EDITORS.md,
with the path of a recorder (`between.py`) in the place of `/path/bin/pq_server`. Each driver beside this file says how it makes the
steps. Nothing of the user's own settings is read: the home folder is a new one.

It prints a line for each client: its name, its version, and how many of its steps were as they should be, or `not here`, or what
is not here of what its driver needs. A step that was not as it should be has a line of its own. The status is 1 if there is one.

PROGRAM is the program of `pq_server`, by default the one that was built without a proof. `--keep FOLDER` keeps the folder of each
client: what it showed (`shown`), what passed between it and the server (`passed`, `wrote`), and what it printed (`printed`).

usage: checks/editors/run.py [PROGRAM] [--only NAME ..] [--keep FOLDER]
"""
import argparse
import contextlib
import json
import os
import re
import shlex
import shutil
import signal
import struct
import subprocess
import sys
import tempfile

HERE = os.path.dirname(os.path.realpath(__file__))
TOP = os.path.dirname(os.path.dirname(HERE))
PROGRAM = os.path.join(TOP, "out-unproved", "pq_server")
PAGE = os.path.join(TOP, "docs", "EDITORS.md")
# More seconds than the steps of a client take, each of which waits for at most fifteen.
LIMIT = 170

A = """syntax = "proto3";

package shop;

import "b.proto";

message Order {
  Item first = 1;
  Item second = 1;
}
"""
# A client that counts characters, and not code units of UTF-16, sends a wrong range for an edit of `Item`.
B = """syntax = "proto3";

package shop;

/* \U0001F600 */ message Item {
  string name = 1;
}
"""
TWICE = [8, 16, "field number 1 is used twice"]


def without(name):
    """The diagnostics of a.proto while no message has the name that it uses."""
    text = 'type "%s" is not found' % name
    return [[7, 2, text], [8, 2, text], TWICE]


# What each step does, and the diagnostics of a.proto after it: line and column from 0, and text. Until `save b` the texts on the
# disk are A and B.
STEPS = {
    "open": [TWICE],
    # `Item` is replaced by `Itm` in b.proto, which is not saved.
    "break": without("Item"),
    # That is undone.
    "mend": [TWICE],
    # The text of b.proto is deleted, which leaves a file with a syntax error, and then that is undone.
    "empty": without("Item"),
    "fill": [TWICE],
    # `Item` is replaced by `Part` in b.proto, which is not saved.
    "rename in b": without("Item"),
    # So it is in a.proto, at each place.
    "rename in a": [TWICE],
    # b.proto is closed, and its change thrown away.
    "close b": without("Part"),
    # b.proto is opened again, `Item` is replaced by `Part`, and it is saved and closed.
    "save b": [TWICE],
    # Another program writes B to b.proto. Some clients tell the server, which sees it by itself too.
    "write b": without("Part"),
}
WATCHED = ["write b"]


def block(heading, language, number=0):
    """A block of code of docs/EDITORS.md: the one with this number, from 0, of those in a language below a heading."""
    with open(PAGE, encoding="utf-8") as page:
        section = page.read().partition("\n## %s\n" % heading)[2].partition("\n## ")[0]
    return re.findall(r"^```%s\n(.*?)^```" % language, section, re.M | re.S)[number]


def printed_by(*command, **environment):
    """What a command prints, or nothing where it is not there or fails."""
    if not shutil.which(command[0]):
        return ""
    done = subprocess.run(command, capture_output=True, text=True, stdin=subprocess.DEVNULL, timeout=LIMIT,
                          env=dict(os.environ, **environment))
    return done.stdout if done.returncode == 0 else ""


def first(pattern, text):
    """The first group of a pattern in a text, or None."""
    found = re.search(pattern, text)
    return found and found.group(1)


class Place:
    """A new folder in which a client makes its steps: the two files below `work`, the home folder, and what is kept."""

    def __init__(self, folder, program):
        self.folder, self.work = folder, os.path.join(folder, "work")
        self.home, self.server = os.path.join(folder, "home"), os.path.join(folder, "bin", "pq_server")
        os.makedirs(self.work)
        os.makedirs(self.home, mode=0o700)
        # Some clients ask git for the files of a project.
        if not printed_by("git", "init", self.work):
            os.makedirs(os.path.join(self.work, ".git"))
        self.write("work/a.proto", A)
        self.write("work/b.proto", B)
        self.write("b-before.proto", B)
        self.write("steps", json.dumps(STEPS))
        recorder = [sys.executable, os.path.join(HERE, "between.py"), folder, program]
        self.write("bin/pq_server", '#!/bin/sh\nexec %s "$@"\n' % " ".join("'%s'" % it for it in recorder))
        os.chmod(self.server, 0o755)

    def write(self, name, text):
        path = os.path.join(self.folder, name)
        os.makedirs(os.path.dirname(path), exist_ok=True)
        with open(path, "w", encoding="utf-8") as sink:
            sink.write(text)
        return path

    def lines(self, heading, language, number=0):
        """The file of a block of the page, with the path of the recorder."""
        return self.write("lines." + language, block(heading, language, number).replace("/path/bin/pq_server", self.server))

    def environment(self):
        kept = {name: os.environ[name] for name in ("PATH", "LANG", "LC_ALL", "DISPLAY") if name in os.environ}
        return dict(kept, HOME=self.home, PLACE=self.folder, TERM="xterm", XDG_RUNTIME_DIR=self.home)

    def shown(self):
        """What was shown after each step, by its name."""
        try:
            with open(os.path.join(self.folder, "shown"), encoding="utf-8") as source:
                return dict(json.loads(line) for line in source if line.strip())
        except FileNotFoundError:
            return {}


class Client:
    """A client: `version` is that of the one that is here or None, `lacks` what is not here of what its driver needs."""

    steps = [it for it in STEPS if it not in WATCHED]

    def lacks(self):
        return []


class InTerminal(Client):
    """A client that needs a terminal, and has one of its own: `script` runs it."""

    def lacks(self):
        return [] if shutil.which("script") else ["script"]

    def in_terminal(self, words):
        return ["script", "-qec", shlex.join(words), "/dev/null"]


class Neovim(Client):
    # It watches nothing, and the server sees the disk by itself.
    name, steps = "neovim", list(STEPS)

    def version(self):
        return first(r"NVIM v(\S+)", printed_by("nvim", "--version"))

    def lacks(self):
        # The lines of the page are those for these versions.
        return [] if self.version().startswith(("0.7.", "0.8.", "0.9.")) else ["neovim 0.7 to 0.9"]

    def command(self, place):
        lines = place.lines("Neovim", "lua", 1)
        return ["nvim", "--headless", "-n", "-i", "NONE", "-u", lines, "-c", "luafile " + os.path.join(HERE, "nvim.lua")]


class Eglot(InTerminal):
    name, steps, block, driver, uses = "eglot", list(STEPS), 0, "eglot.el", ["protobuf-mode"]

    def package(self, name):
        """The version of a package of emacs, or None."""
        find = """(let ((it (cadr (assq '%s package-alist))) (own (and (require 'finder-inf nil t) (assq '%s package--builtins))))
                    (princ (cond (it (package-desc-version it)) (own (aref (cdr own) 0)))))""" % (name, name)
        found = first(r"\(([-\d ]+)\)", printed_by("emacs", "--batch", "-f", "package-initialize", "--eval", find))
        return found and found.replace(" ", ".")

    def version(self):
        found = self.package(self.name)
        return found and "%s in emacs %s" % (found, first(r"GNU Emacs (\S+)", printed_by("emacs", "--version")))

    def lacks(self):
        return super().lacks() + [it for it in self.uses if not self.package(it)]

    def command(self, place):
        # Emacs sends changes when it is idle, which it never is without a terminal.
        words = ["emacs", "-nw", "-q", "--eval", "(setq native-comp-deferred-compilation nil)", "-f", "package-initialize",
                 "-l", place.lines("Emacs", "elisp", self.block), "-l", os.path.join(HERE, "steps.el"),
                 "-l", os.path.join(HERE, self.driver)]
        return self.in_terminal(words)


class LspMode(Eglot):
    name, block, driver, uses = "lsp-mode", 1, "lsp_mode.el", ["protobuf-mode", "flycheck"]


class Ale(InTerminal):
    name = "ale"

    def folder(self):
        """Where vim finds ALE, or an empty text."""
        ask = ["-c", "silent! packadd! ale", "-c", "put =globpath(&runtimepath, 'autoload/ale.vim')", "-c", "%p", "-c", "qa!"]
        return os.path.dirname(os.path.dirname(printed_by("vim", "-N", "-u", "NONE", "-i", "NONE", "-es", *ask).strip()))

    def version(self):
        if not self.folder():
            return None
        with open(os.path.join(self.folder(), "autoload", "ale.vim"), encoding="utf-8") as source:
            found = first(r"current_ale_version = \[([\d, ]+)\]", source.read())
        return "%s in vim %s" % (found.replace(", ", "."), first(r"Vi IMproved (\S+)", printed_by("vim", "--version")))

    def command(self, place):
        lines = place.lines("vim with ALE", "vim")
        return self.in_terminal(["vim", "-N", "-n", "-i", "NONE", "--cmd", "set runtimepath^=" + self.folder(), "-u", lines,
                                 "-S", os.path.join(HERE, "ale.vim")])


def python_of_screens():
    """The Python that has the module by which a program on a display is read, or an empty text."""
    for python in (sys.executable, "/usr/bin/python3"):
        if printed_by(python, "-c", "import pyatspi; print('here')"):
            return python
    return ""


class OnDisplay(Client):
    """A client that needs a display, and has one of its own: its driver reads and uses it there."""

    def version(self):
        # No display is needed for that.
        return first(self.says, printed_by(self.program, self.asks, QT_QPA_PLATFORM="offscreen", HOME=os.devnull))

    def lacks(self):
        found = [it for it in ("xvfb-run", "dbus-run-session", "xdotool") if not shutil.which(it)]
        return found + ([] if python_of_screens() else ["pyatspi"])

    def command(self, place):
        self.prepare(place)
        return ["env", "QT_LINUX_ACCESSIBILITY_ALWAYS_ON=1", "LANG=C.UTF-8", "xvfb-run", "-a", "-s", "-screen 0 1280x1024x24",
                "dbus-run-session", "--", python_of_screens(), os.path.join(HERE, self.driver)]


class Kate(OnDisplay):
    name, program, asks, says, driver = "kate", "kate", "--version", r"kate (\S+)", "kate.py"

    def prepare(self, place):
        os.renames(place.lines("Kate", "json"), os.path.join(place.home, ".config", "kate", "lspclient", "settings.json"))


def variant(value):
    """A value of settings of Qt, as they are written: its type, and its bytes."""
    if isinstance(value, bool):
        return struct.pack(">IB", 1, value)
    if isinstance(value, int):
        return struct.pack(">Ii", 2, value)
    if isinstance(value, str):
        return struct.pack(">I", 10) + qt_string(value)
    if isinstance(value, dict):
        return struct.pack(">II", 8, len(value)) + b"".join(qt_string(key) + variant(it) for key, it in value.items())
    return struct.pack(">II", 9, len(value)) + b"".join(map(variant, value))


def qt_string(text):
    data = text.encode("utf-16-be")
    return struct.pack(">I", len(data)) + data


class QtCreator(OnDisplay):
    name, program, asks, says, driver = "qtcreator", "qtcreator", "-version", r"Qt Creator (\S+)", "qtcreator.py"

    def prepare(self, place):
        # What "Add" of the preferences writes. 1 is "Requires an Open File".
        server = {"name": "pq_server", "enabled": True, "startupBehavior": 1, "filePattern": ["*.proto"],
                  "executable": place.server, "arguments": "stdio --root " + place.work}
        data = "".join("\\x%x" % byte for byte in variant([server]))
        place.write("home/.config/QtProject/QtCreator.ini", "[LanguageClient]\nclients=\"@Variant(%s)\"\n" % data)


CLIENTS = [Neovim(), Eglot(), LspMode(), Ale(), Kate(), QtCreator()]


def run(client, place):
    """Runs a client to its end, or ends it after LIMIT seconds. Returns what is wrong with how it ended."""
    with open(os.path.join(place.folder, "printed"), "wb") as printed:
        # An end of the input would end some clients.
        process = subprocess.Popen(client.command(place), cwd=place.work, env=place.environment(), stdin=subprocess.PIPE,
                                   stdout=printed, stderr=subprocess.STDOUT, start_new_session=True)
        try:
            status = process.wait(LIMIT)
            return [] if status == 0 else ["it ended with status %d" % status]
        except subprocess.TimeoutExpired:
            return ["it had not ended after %d seconds" % LIMIT]
        finally:
            with contextlib.suppress(ProcessLookupError):
                os.killpg(process.pid, signal.SIGKILL)
            process.wait()
            process.stdin.close()


def findings(client, place):
    """How many steps are as they should be, and the lines of those that are not."""
    wrong, shown = [], place.shown()
    for name in client.steps:
        if shown.get(name) != STEPS[name]:
            found = json.dumps(shown[name]) if name in shown else "nothing"
            wrong.append("%s: shown %s, wanted %s" % (name, found, json.dumps(STEPS[name])))
    return len(client.steps) - len(wrong), wrong


def tried(client, program, keep):
    """Prints the lines of a client. Returns whether it showed what is right, or None if it was not run."""
    version = client.version()
    lacks = client.lacks() if version else []
    if not version or lacks:
        print("%-30s %s" % (client.name, "lacks: " + ", ".join(lacks) if lacks else "not here"), flush=True)
        return None
    with tempfile.TemporaryDirectory(ignore_cleanup_errors=True) as folder:
        place = Place(os.path.join(folder, "place"), program)
        end = run(client, place)
        count, wrong = findings(client, place)
        if keep:
            kept = os.path.join(keep, client.name)
            shutil.copytree(place.folder, kept, ignore=shutil.ignore_patterns("home", ".git"), dirs_exist_ok=True)
    print("%-30s ran: %d of %d steps" % ("%s %s" % (client.name, version), count, len(client.steps)), flush=True)
    for line in wrong + end:
        print("    " + line)
    return not wrong and not end


def main():
    words = argparse.ArgumentParser(usage=__doc__.split("usage: ")[1])
    words.add_argument("program", nargs="?", default=PROGRAM)
    words.add_argument("--only", nargs="+", metavar="NAME", default=[it.name for it in CLIENTS])
    words.add_argument("--keep", metavar="FOLDER")
    words = words.parse_args()
    program = os.path.realpath(words.program)
    if not os.access(program, os.X_OK):
        sys.exit("checks/editors/run.py: %s is not there" % program)
    done = [tried(it, program, words.keep) for it in CLIENTS if it.name in words.only]
    ran = [it for it in done if it is not None]
    print("%d of %d clients ran, and %d showed what is right" % (len(ran), len(done), sum(ran)) if ran else "skipped: not here")
    return 0 if all(ran) else 1


if __name__ == "__main__":
    sys.exit(main())
