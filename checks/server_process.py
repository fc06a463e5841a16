"""A server that a row starts: its lines of standard error, its status, and the end of what a row leaves running."""
import json
import os
import subprocess
import threading
import time
import urllib.parse

# How long what is waited for may take to come, in seconds.
LONGEST = 60.0
# The pause before what is waited for is asked for again, in seconds.
PAUSE = 0.02
# The servers that were started.
SERVERS = []


class Failed(Exception):
    """A row does not hold."""


def check(found, wanted, what):
    if found != wanted:
        raise Failed("%s: found %s, wanted %s" % (what, json.dumps(found), json.dumps(wanted)))


def uri_of(path):
    return "file://" + urllib.parse.quote(path)


def write(folder, files):
    """Writes files, by their names below a folder. Nobody sees a part of a text: a rename puts each file in its place."""
    for name, text in files.items():
        path = os.path.join(folder, name)
        os.makedirs(os.path.dirname(path), exist_ok=True)
        with open(path + ".new", "w", encoding="utf-8", newline="") as sink:
            sink.write(text)
        os.replace(path + ".new", path)


def until(found, wanted, what):
    """Waits until `found()` is `wanted`. It is asked for again and again."""
    end = time.monotonic() + LONGEST
    while (last := found()) != wanted:
        if time.monotonic() > end:
            raise Failed("%s: found %s, wanted %s" % (what, json.dumps(last), json.dumps(wanted)))
        time.sleep(PAUSE)


class Server:
    """A server that was started with these words. Threads keep what it prints; `news` wakes who waits for that."""

    def __init__(self, words, stdin):
        self.server = subprocess.Popen(words, stdin=stdin, stdout=subprocess.PIPE, stderr=subprocess.PIPE)
        SERVERS.append(self.server)
        self.news = threading.Condition()
        self.printed, self.has_ended, self.threads = b"", False, []

    def start(self, *works):
        """Starts a thread for each of these."""
        self.threads = [threading.Thread(target=work, daemon=True) for work in works]
        for thread in self.threads:
            thread.start()

    def read_errors(self):
        for line in iter(self.server.stderr.readline, b""):
            with self.news:
                self.printed += line
                self.news.notify_all()

    def wait_for(self, holds, what):
        """Waits until `holds()` is true."""
        with self.news:
            if not self.news.wait_for(lambda: holds() or self.has_ended, LONGEST) or not holds():
                raise Failed("%s: nothing came%s; standard error has %r"
                             % (what, " before the end" if self.has_ended else "", self.printed.decode(errors="replace")))

    def lines(self):
        with self.news:
            return self.printed.decode(errors="replace").splitlines()

    def wait_for_lines(self, count):
        self.wait_for(lambda: len(self.lines()) >= count, "%d lines of standard error" % count)

    def left(self):
        """The status and the lines of standard error, when the server has ended."""
        try:
            status = self.server.wait(LONGEST)
        except subprocess.TimeoutExpired:
            raise Failed("the server does not end; standard error has %r" % self.lines())
        for thread in self.threads:
            thread.join(LONGEST)
        return status, self.lines()


def end_servers():
    """Ends each server that still runs, as after a row that does not hold."""
    for server in SERVERS:
        server.kill()
        server.wait()
    SERVERS.clear()
