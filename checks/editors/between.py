#!/usr/bin/env python3
"""Stands between a client and a server: runs the command, passes on what both write, and keeps it.

In the folder LOG are then these files:
- `wrote`: the bytes that the client wrote
- `passed`: a line of JSON for each message of both, in the order in which they were passed on: who wrote it (`client` or `server`),
  the seconds since the start, and the message; last the status of the server, from `end`
- `errors`: what the server wrote on standard error
A client that starts the server again begins with files `wrote-2`, `passed-2` and `errors-2`.

usage: checks/editors/between.py LOG COMMAND ..
"""
import contextlib
import json
import os
import re
import subprocess
import sys
import threading
import time


def file_of(folder, name):
    """A new file of the folder, `name` or the first `name-N` that is not there."""
    for number in range(1, 1000):
        try:
            return open(os.path.join(folder, name if number == 1 else "%s-%d" % (name, number)), "xb", buffering=0)
        except FileExistsError:
            pass
    raise SystemExit("the server was started a thousand times")


class Log:
    def __init__(self, folder):
        self.start, self.lock = time.monotonic(), threading.Lock()
        self.wrote, self.passed, self.errors = [file_of(folder, it) for it in ("wrote", "passed", "errors")]

    def keep(self, who, body):
        at = round(time.monotonic() - self.start, 3)
        line = b'{"from":"%s","at":%s,"message":%s}\n' % (who.encode(), json.dumps(at).encode(), body.replace(b"\n", b" "))
        with self.lock:
            self.passed.write(line)


def copy(source, sink, see):
    """Copies what comes from one file to another, after `see` saw it, and then closes the other."""
    while data := os.read(source, 65536):
        see(data)
        view = memoryview(data)
        while view:
            view = view[os.write(sink, view):]
    os.close(sink)


def keeper(who, log):
    """What sees the bytes that come, and keeps each message when its frame is whole."""
    rest = b""

    def see(data):
        nonlocal rest
        rest += data
        while head := re.match(rb"(?:[^\r\n]+\r\n)*?Content-Length: *(\d+)\r\n(?:[^\r\n]+\r\n)*\r\n", rest, re.I):
            end = head.end() + int(head.group(1))
            if end > len(rest):
                break
            log.keep(who, rest[head.end():end])
            rest = rest[end:]

    return see


def main():
    if len(sys.argv) < 3:
        sys.exit(__doc__.rstrip().rpartition("\n")[2])
    log = Log(sys.argv[1])
    server = subprocess.Popen(sys.argv[2:], stdin=subprocess.PIPE, stdout=subprocess.PIPE, stderr=subprocess.PIPE, bufsize=0)
    sees = keeper("client", log)

    def see(data):
        log.wrote.write(data)
        sees(data)

    down = threading.Thread(target=copy, args=(0, server.stdin.fileno(), see), daemon=True)
    errors = threading.Thread(target=copy, args=(server.stderr.fileno(), 2, log.errors.write), daemon=True)
    down.start()
    errors.start()
    with contextlib.suppress(BrokenPipeError):
        copy(server.stdout.fileno(), 1, keeper("server", log))
    status = server.wait()
    errors.join(1)
    log.keep("end", json.dumps({"status": status}).encode())
    # The other thread may wait for a client that writes nothing more.
    os._exit(status if status >= 0 else 128 - status)


if __name__ == "__main__":
    main()
