"""Clients of `pq_server listen`: a server to start and stop, and connections that ask it."""
import os
import re
import signal
import socket
import subprocess
import sys
import threading

from shared import FIRST, LAST, bodies_of, frame, is_request

LENGTH = re.compile(rb"Content-Length: (\d+)\r\n\r\n")


def batches_of(session):
    """The frames of a session in batches, notifications and then requests, each with the number of its requests."""
    found = []
    for body in bodies_of(session):
        if not found or found[-1][1] and not is_request(body):
            found.append([[], 0])
        found[-1][0].append(frame(body))
        found[-1][1] += is_request(body)
    return [(b"".join(frames), requests) for frames, requests in found]


class Server:
    """A program that listens on a port of its own choice, until it is stopped. The words of `before` begin it."""

    def __init__(self, program, workers, *more, before=()):
        words = list(before) + [program, "listen", "--port", "0", "--workers", str(workers)] + list(more)
        self.process = subprocess.Popen(words, stdout=subprocess.PIPE, stderr=subprocess.PIPE)
        line = self.process.stdout.readline()
        found = re.fullmatch(rb"listening on 127\.0\.0\.1:(\d+)\n", line)
        if not found:
            sys.exit("the server printed %r and %r" % (line, self.process.stderr.read()))
        self.port = int(found.group(1))

    def kilobytes(self, which="VmRSS"):
        """The memory that the server has now, or the most that it had, `VmHWM`."""
        with open("/proc/%d/status" % self.process.pid, encoding="ascii") as source:
            return next(int(line.split()[1]) for line in source if line.startswith(which + ":"))

    def seconds(self):
        """The processor time that the server took so far, all its threads together."""
        with open("/proc/%d/stat" % self.process.pid, encoding="ascii") as source:
            user, system = source.read().rpartition(")")[2].split()[11:13]
        return (int(user) + int(system)) / os.sysconf("SC_CLK_TCK")

    def switches(self):
        """How often a thread of the server slept so far: the voluntary context switches of the threads that live."""
        found = 0
        for task in os.listdir("/proc/%d/task" % self.process.pid):
            with open("/proc/%d/task/%s/status" % (self.process.pid, task), encoding="ascii") as source:
                found += next(int(line.split()[1]) for line in source if line.startswith("voluntary_ctxt_switches:"))
        return found

    def stop(self):
        """Kills the server, which must still run."""
        if self.process.poll() is not None:
            sys.exit("the server ended with status %d: %r" % (self.process.returncode, self.process.stderr.read()))
        self.process.send_signal(signal.SIGKILL)
        self.process.wait()

    def terminated(self):
        """Asks the server to end, if it still runs, and gives its status and what it printed as errors."""
        self.process.terminate()
        _, printed = self.process.communicate()
        return self.process.returncode, printed

    def ended(self):
        """The status of the server once it has ended by itself."""
        return self.process.wait(timeout=60)


class Connection:
    """One connection. Replies come back in the order of the requests."""

    def __init__(self, port):
        self.socket = socket.create_connection(("127.0.0.1", port))
        self.socket.setsockopt(socket.IPPROTO_TCP, socket.TCP_NODELAY, 1)
        self.held = b""

    def send(self, data):
        self.socket.sendall(data)

    def bodies(self, count):
        """The bodies of the next `count` replies."""
        found = []
        while len(found) < count:
            head = LENGTH.match(self.held)
            if head and len(self.held) >= head.end() + int(head.group(1)):
                end = head.end() + int(head.group(1))
                found.append(self.held[head.end():end])
                self.held = self.held[end:]
            else:
                self.more()
        return found

    def skip(self, count):
        """Reads the next `count` replies, and looks only at the length of the last one."""
        seen, at = 0, 0
        while True:
            for head in LENGTH.finditer(self.held, at):
                seen += 1
                at = head.end()
                if seen == count:
                    end = at + int(head.group(1))
                    while len(self.held) < end:
                        self.more()
                    self.held = self.held[end:]
                    return
            self.more()

    def answers(self, session, seconds):
        """The bodies of all replies to a whole session, after which the server closes the connection.

        A notification waits for the replies to the requests before it, since an edit stops what runs. Each wait for bytes
        may take these seconds.
        """
        self.socket.settimeout(seconds)
        found = []
        for data, requests in batches_of(session):
            sender = threading.Thread(target=self.send, args=(data,), daemon=True)
            sender.start()
            found += self.bodies(requests)
            sender.join()
        if self.socket.recv(1):
            raise EOFError("the server sent more than the replies")
        self.socket.close()
        return found

    def more(self):
        data = self.socket.recv(1 << 20)
        if not data:
            raise EOFError("the server closed the connection")
        self.held += data

    def begin(self, *opens):
        """Initializes the session and opens files."""
        self.send(FIRST + b"".join(opens))
        self.bodies(1)

    def end(self):
        """Shuts the session down in order."""
        self.send(LAST)
        self.bodies(1)
        self.socket.close()
