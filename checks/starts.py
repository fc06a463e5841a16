#!/usr/bin/env python3
"""Starts bin/pq_server in each state of its programs, with stand-ins for them and their builds.

Each row is a function here, over a copy of bin/ beside a crate of one file. In the place of `rt` and
of bench/unproved.py are scripts that copy a stand-in of the program to its place, as slowly as the
row says, and note that they ran. The stand-in prints its words and its standard input, and ends with
status 9.

The status is 1 if a row fails. It takes ten seconds, and needs no kit.

usage: checks/starts.py [NAME ..]
"""
import argparse
import os
import re
import shutil
import signal
import subprocess
import sys
import tempfile
import time

TOP = os.path.dirname(os.path.dirname(os.path.abspath(__file__)))
CRATE = os.path.join("crates", "pq_server")
PROVED = os.path.join(CRATE, "out", "pq_server")
UNPROVED = os.path.join("out-unproved", "pq_server")
SOURCE = os.path.join(CRATE, "src", "main.rt")
PROOF = os.path.join(CRATE, "proofs", "Lib.antt")
SERVICES = ("script", "listen", "stdio")
WARNING = b"pq_server: nothing is proved of this program; it has checks at run time\n"
PROGRAM = '#!/bin/sh\necho "$@"\ncat\nexit 9\n'
# A build gives the program the time at which it began, notes that it ran, and takes as long as it is to.
BUILD = """#!/usr/bin/env python3
import os, shutil, sys, time
began = time.time()
with open("{top}/builds", "a") as sink:
    sink.write("{name} %d\\n" % os.getpid())
print("a line of the build")
time.sleep(float(os.environ.get("BUILD_SECONDS", "0")))
if "BUILD_FAILS" in os.environ:
    sys.exit(1)
os.makedirs(os.path.dirname("{to}"), exist_ok=True)
shutil.copy("{top}/program", "{to}.new")
os.utime("{to}.new", (began, began))
os.replace("{to}.new", "{to}")
"""
with open(os.path.join(TOP, "bin", "pq_server"), "rb") as script:
    VERSION = re.search(rb"^VERSION=(\S+)$", script.read(), re.M)[1]
# The seconds that a start may take on a machine with much other work. A stand-in of a build takes more.
AT_ONCE = 5
ROWS = []


class Wrong(Exception):
    """What a row found."""


class Repository:
    """A copy of bin/ with stand-ins, in a folder."""

    def __init__(self, folder):
        self.top = folder
        shutil.copytree(os.path.join(TOP, "bin"), self.path("bin"))
        self.command = self.path("bin", "pq_server")
        for name in (SOURCE, PROOF, "crates.txt", os.path.join("examples", "first_session.in")):
            self.put(name, "")
        self.put("program", PROGRAM)
        self.put(os.path.join("kit", "rt"), BUILD.format(top=folder, name="rt", to=self.path(PROVED)))
        self.put(os.path.join("bench", "unproved.py"), BUILD.format(top=folder, name="unproved.py", to=self.path(UNPROVED)))
        self.environment = {**os.environ, "PATH": self.path("kit") + os.pathsep + os.environ["PATH"]}
        self.begun = []
        self.age()

    def path(self, *names):
        return os.path.join(self.top, *names)

    def put(self, name, text):
        os.makedirs(os.path.dirname(self.path(name)), exist_ok=True)
        with open(self.path(name), "w", encoding="ascii") as sink:
            sink.write(text)
        os.chmod(self.path(name), 0o755)

    def age(self, name=None):
        """Makes a file an hour old, or all."""
        old = time.time() - 3600
        for at, _, names in os.walk(self.top):
            for found in names:
                if name in (None, os.path.relpath(os.path.join(at, found), self.top)):
                    os.utime(os.path.join(at, found), (old, old))

    def begin(self, *words, **settings):
        """Starts bin/pq_server with these words and settings of the environment."""
        pipes = {name: subprocess.PIPE for name in ("stdin", "stdout", "stderr")}
        self.begun.append(subprocess.Popen([self.command, *words], env={**self.environment, **settings}, cwd=self.top, **pipes))
        return self.begun[-1]

    def run(self, *words, sent=b"", **settings):
        """The status, the output and the errors of a start that ends by itself."""
        process = self.begin(*words, **settings)
        out, errors = process.communicate(sent, timeout=60)
        return process.returncode, out, errors

    def builds(self):
        """The names of the builds that began, and their processes."""
        if not os.path.exists(self.path("builds")):
            return []
        with open(self.path("builds"), encoding="ascii") as source:
            return [(line.split()[0], int(line.split()[1])) for line in source]

    def count(self):
        return len(self.builds())

    def end(self):
        """Kills what a row that failed has left."""
        for process in self.begun:
            if process.poll() is None:
                process.kill()
            process.wait()
        for _, build in self.builds():
            if is_running(build):
                os.kill(build, signal.SIGKILL)


def row(function):
    """Has `main` run a function as a row."""
    ROWS.append(function)
    return function


def want(found, wanted, what):
    if found != wanted:
        raise Wrong("%s: wanted %r, found %r" % (what, wanted, found))


def want_in(part, whole, what):
    if part not in whole:
        raise Wrong("%s: wanted %r in %r" % (what, part, whole))


def is_running(process):
    """Whether a process of this number runs, and is not just to be waited for."""
    try:
        with open("/proc/%d/stat" % process, encoding="ascii") as source:
            return source.read().rpartition(")")[2].split()[0] != "Z"
    except OSError:
        return False


def until(holds, what):
    """Waits until a condition holds, ten seconds at most."""
    for _ in range(1000):
        if holds():
            return
        time.sleep(0.01)
    raise Wrong("after ten seconds: " + what)


@row
def help_needs_no_program(it):
    """`help`, `--help` and `-h` print the words on standard output, with status 0."""
    for words in (["help"], ["--help"], ["-h"], ["--unproved", "--help"]):
        status, out, errors = it.run(*words)
        want((status, errors), (0, b""), words)
        for part in (*SERVICES, "build", "--unproved", "--version"):
            want_in(part.encode(), out, words)
    want(it.builds(), [], "builds")


@row
def version_says_what_is_proved(it):
    """`--version` has the name, the version, and whether the program is proved."""
    want(it.run("--version"), (0, b"pq_server " + VERSION + b" (the proved program is not built)\n", b""), "before a build")
    want(it.run("--unproved", "--version"), (0, b"pq_server " + VERSION + b" (nothing is proved)\n", b""), "without a proof")
    it.run("build")
    want(it.run("--version"), (0, b"pq_server " + VERSION + b" (proved)\n", b""), "after the build")
    it.put(SOURCE, "// changed\n")
    want(it.run("--version"), (0, b"pq_server " + VERSION + b" (the proved program is older than " + SOURCE.encode() + b")\n", b""), "after a change")


@row
def unknown_words_are_refused(it):
    """Words that start nothing have status 64, no output and no build."""
    for words in ([], ["serve"], ["--unproved"], ["--unproved", "serve"], ["build", "now"], ["--stdio"]):
        status, out, errors = it.run(*words)
        want((status, out), (64, b""), words)
        want_in(b"bin/pq_server help", errors, words)
    want(it.builds(), [], "builds")


@row
def a_start_proves_nothing(it):
    """A service that is not built ends at once with status 4, and says what to do."""
    for word in SERVICES:
        began = time.monotonic()
        status, out, errors = it.run(word, BUILD_SECONDS="30")
        want((status, out), (4, b""), word)
        for part in (b"is not built", b"bin/pq_server build", b"processor minutes", b"bin/pq_server --unproved"):
            want_in(part, errors, word)
        if time.monotonic() - began > AT_ONCE:
            raise Wrong("%s: the start took %.1f seconds" % (word, time.monotonic() - began))
    want(it.builds(), [], "builds")


@row
def an_old_program_does_not_run(it):
    """A service that is older than a source ends with status 4, and names the source."""
    it.run("build")
    for name in (SOURCE, PROOF, "crates.txt"):
        it.put(name, "// changed\n")
        for word in SERVICES:
            status, out, errors = it.run(word)
            want((status, out), (4, b""), word)
            want_in(b"is older than " + name.encode() + b"\n", errors, word)
        it.age(name)
    want(it.run("script")[0], 9, "the status once nothing is newer")
    want(it.count(), 1, "the number of builds")


@row
def build_builds_once(it):
    """`build` builds unless nothing changed. The services then run the program."""
    status, out, errors = it.run("build")
    want((status, out), (0, b""), "build")
    want_in(b"a line of the build", errors, "build")
    want(it.run("build"), (0, b"", b""), "the second build")
    want([name for name, _ in it.builds()], ["rt"], "builds")
    for word in SERVICES:
        want(it.run(word, "--lib", "a b", sent=b"x\r\n"), (9, word.encode() + b" --lib a b\nx\r\n", b""), word)


@row
def a_build_that_fails(it):
    """A build that fails has status 4, with a proof and without."""
    want(it.run("build", BUILD_FAILS="1")[:2], (4, b""), "build")
    want(it.run("--unproved", "script", BUILD_FAILS="1")[:2], (4, b""), "--unproved script")


@row
def a_change_while_it_builds(it):
    """A source that changes while a build runs is newer than the program."""
    for words in (["build"], ["--unproved", "build"]):
        count = it.count()
        process = it.begin(*words, BUILD_SECONDS="0.5")
        until(lambda: it.count() > count, "no build began")
        it.put(SOURCE, "// changed\n")
        process.communicate()
        want(process.returncode, 0, words)
        want(it.run(*words)[0], 0, words)
        want(it.count(), count + 2, "the number of builds")


@row
def unproved_is_kept(it):
    """`--unproved` builds once, and says each time that nothing is proved."""
    for number, word in enumerate(SERVICES):
        status, out, errors = it.run("--unproved", word, "a b", sent=b"x\r\n")
        want((status, out), (9, word.encode() + b" a b\nx\r\n"), word)
        want(errors if number else errors[:len(WARNING)], WARNING, word)
    want([name for name, _ in it.builds()], ["unproved.py"], "builds")
    want(os.path.exists(it.path(PROVED)), False, "a proved program is there")
    it.put(PROOF, "-- changed\n")
    it.run("--unproved", "script")
    want(it.count(), 1, "the number of builds after a change of a proof")
    it.put(SOURCE, "// changed\n")
    it.run("--unproved", "script")
    want(it.count(), 2, "the number of builds after a change of a source")
    want(it.run("--unproved", "build"), (0, b"", WARNING), "--unproved build")


@row
def two_starts_build_once(it):
    """A start beside a build says that it waits for it, and then runs the program."""
    first = it.begin("--unproved", "script", BUILD_SECONDS="1")
    until(lambda: it.count() == 1, "no build began")
    second = it.begin("--unproved", "script", BUILD_SECONDS="1")
    for process in (first, second):
        out, errors = process.communicate(b"x\n", timeout=60)
        want((process.returncode, out), (9, b"script\nx\n"), "a start")
    want_in(b"this one waits for it", errors, "the second start")
    want(it.count(), 1, "the number of builds")


@row
def a_build_ends_with_its_start(it):
    """A start that is asked to end while it builds, or waits, leaves no process behind."""
    for words in (["build"], ["--unproved", "script"]):
        for number in (signal.SIGTERM, signal.SIGINT, signal.SIGHUP):
            count = it.count()
            first = it.begin(*words, BUILD_SECONDS="60")
            until(lambda: it.count() > count, "no build began")
            both = [first]
            if words[0] == "--unproved":
                both.append(it.begin(*words, BUILD_SECONDS="60"))
                until(lambda: b"waits" in both[1].stderr.readline(), "the second start does not wait")
            for process in reversed(both):
                process.send_signal(number)
                process.communicate(timeout=5)
                want(process.returncode, 143, (words, number))
            build = it.builds()[-1][1]
            until(lambda: not is_running(build), "the build runs on")
            want(it.count(), count + 1, "the number of builds")
    want([os.path.exists(it.path(name)) for name in (PROVED, UNPROVED)], [False, False], "a program is there")


@row
def a_signal_ends_the_program(it):
    """The program has the process of the start: a signal ends it, and so does the end of its input."""
    it.put("program", "#!/bin/sh\necho $$\nexec cat\n")
    it.run("build")
    it.run("--unproved", "build")
    for before in ([], ["--unproved"]):
        for word in SERVICES:
            for number in (signal.SIGTERM, signal.SIGINT, signal.SIGHUP):
                process = it.begin(*before, word)
                want(int(process.stdout.readline()), process.pid, "the process of the program")
                process.send_signal(number)
                process.communicate(timeout=5)
                want(process.returncode, -number, (word, number))
            process = it.begin(*before, word)
            process.communicate(b"", timeout=5)
            want(process.returncode, 0, (word, "end of input"))


@row
def links_lead_to_it(it):
    """The command may be a symbolic link to a link, in another folder."""
    it.run("build")
    os.makedirs(it.path("elsewhere"))
    os.symlink(it.command, it.path("elsewhere", "first"))
    os.symlink("first", it.path("elsewhere", "second"))
    it.command = it.path("elsewhere", "second")
    want(it.run("script"), (9, b"script\n", b""), "script")


def main():
    words = argparse.ArgumentParser()
    words.add_argument("names", nargs="*", help="the rows to run, or all")
    names = words.parse_args().names
    wrong = 0
    rows = [function for function in ROWS if not names or function.__name__ in names]
    for function in rows:
        with tempfile.TemporaryDirectory() as folder:
            it = Repository(folder)
            try:
                function(it)
            except (Wrong, subprocess.TimeoutExpired) as error:
                print("%s: %s" % (function.__name__, error))
                wrong += 1
            finally:
                it.end()
    print("%d of %d starts as wanted" % (len(rows) - wrong, len(rows)))
    return 1 if wrong or not rows else 0


if __name__ == "__main__":
    sys.exit(main())
