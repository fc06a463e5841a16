"""A server that listens on a port, and its clients."""
import json
import os
import re
import subprocess
import sys

from messages import METHODS, asked, frame
from server_process import LONGEST, Failed, Server, check

sys.path.append(os.path.join(os.path.dirname(os.path.abspath(__file__)), "..", "bench"))

from clients import Connection


class Listener(Server):
    """A server that listens on `port`, where 0 stands for one that the system chooses."""

    def __init__(self, place, *words, port=0):
        super().__init__([place.program, "listen", "--port", str(port), *place.workers, *words], subprocess.DEVNULL)
        self.announced = None
        self.start(self.read_announcement, self.read_to_the_end)
        self.threads[0].join(LONGEST)
        if self.announced is None:
            raise Failed("the server announces no port; standard error has %r" % self.lines())
        found = re.fullmatch(r"listening on 127\.0\.0\.1:(\d+)\n", self.announced)
        self.port = int(found[1]) if found else None

    def read_announcement(self):
        self.announced = self.server.stdout.readline().decode()

    def read_to_the_end(self):
        self.read_errors()
        with self.news:
            self.has_ended = True
            self.news.notify_all()

    def connected(self):
        """A client that has sent nothing."""
        if self.port is None:
            raise Failed("the port is not announced: %r" % self.announced)
        return Client(self.port)

    def begun(self, **params):
        """A client whose session has begun, with these parameters of `initialize`."""
        client = self.connected()
        check("capabilities" in client.ask("initialize", params), True, "the reply to initialize")
        return client

    def end(self, *lines, status=0):
        """Waits until the server has ended by itself. Standard error has to have the lines `lines`, and no others."""
        found, printed = self.left()
        check(printed, list(lines), "the lines of standard error")
        check(found, status, "the status")


class Client(Connection):
    """A connection to a server. Its reads and writes wait for a minute at most."""

    def __init__(self, port):
        super().__init__(port)
        self.socket.settimeout(LONGEST)
        self.next = 0

    def say(self, method, params):
        self.send(frame({"jsonrpc": "2.0", "method": method, "params": params}))

    def answer(self):
        """The result of the next reply, or its error."""
        body = json.loads(self.bodies(1)[0])
        check(body["id"], self.next, "the id of the reply")
        return body.get("result", body.get("error"))

    def ask(self, method, params):
        self.next += 1
        self.send(frame({"jsonrpc": "2.0", "id": self.next, "method": method, "params": params}))
        return self.answer()

    def pull(self, name):
        """The diagnostics of a file, asked for."""
        self.next += 1
        self.send(asked(self.next, METHODS["diagnostics"], name))
        return self.answer()["items"]

    def exit(self):
        """Ends the session, and waits for the end of the output. The connection is open, so the session lingers."""
        self.say("exit", {})
        self.be_ended("after exit")

    def leave(self):
        """Ends the session, and closes the connection."""
        self.exit()
        self.close()

    def be_ended(self, what):
        """Waits until the server has ended the output, to which it wrote nothing more."""
        try:
            found = self.held + self.socket.recv(1 << 20)
        except ConnectionResetError:
            found = self.held
        check(found.decode(errors="replace"), "", "what was sent before the end, " + what)

    def is_cut(self):
        """Whether the server has closed the connection: it refuses a byte, and so the next write fails."""
        try:
            self.send(b"x")
        except OSError:
            return True
        return False

    def close(self):
        self.socket.close()
