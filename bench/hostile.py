#!/usr/bin/env python3
"""Attacks `pq_server listen` with one hostile client or many, and prints what honest clients saw beside each attack.

Each part starts a server of its own by `bin/limited`, so with the limits on memory of `bin/pq_server listen`. Beside the attack two
honest clients each ask about a small file of their own, one request at a time, every 20 ms. Printed are the requests that they made,
the middle and the longest wait for a reply, how many replies were the error -32603 (refused), and how many connections were closed.

    reply       texts of 1 MB whose diagnostics would take gigabytes
    body        bodies of 16 MiB of small JSON objects, and the server's memory after them
    short       1,320 connections that send two bytes, which end the session by an error, and stay open
    drip        70 such connections that go on to send a byte each 0.2 seconds
    files       400 connections to a server that may open 48 files
    crowd       connections beyond the 64 that may be open
    turns       one worker: 30 dear requests of one client, and then a small one of another
    held        two workers: the same, with a dear request for each worker before the small one comes

The limits of each part are in its line. The status is 1 where an honest client waited longer, was refused or was closed.

usage: bench/hostile.py [--program PATH] [--memory MB] [--only WORD]
"""
import argparse
import multiprocessing
import os
import socket
import sys
import threading
import time

import files
from clients import Connection, Server
from shared import diagnosed, frame, opened

HERE = os.path.dirname(os.path.abspath(__file__))
PROGRAM = os.path.join(HERE, "..", "crates", "pq_server", "out", "pq_server")
LIMITED = os.path.join(HERE, "..", "bin", "limited")
PAUSE = 0.02
# Honest clients wait at most this long, in seconds, beside an attack that keeps the processors busy, and beside another one.
BUSY, IDLE = 0.5, 0.25
# The most memory, in MB, that the server keeps after an attack.
KEPT = 150


def middle(times):
    return sorted(times)[len(times) // 2]


def served(words, workers, *before):
    """A server with the limits of the launcher, begun by the words of `before`. What it prints as errors is read all along: a
    server whose lines are not read would wait for that."""
    os.environ["PQ_SERVER_MEMORY"] = str(words.memory)
    server = Server(words.program, workers, before=list(before) + [LIMITED])
    threading.Thread(target=server.process.stderr.read, daemon=True).start()
    return server


def honest(port, name, start, stop, sink):
    """A process with one connection that asks every 20 ms: its waits, refusals and closes."""
    waits, refused, closed = [], 0, 0
    try:
        client = Connection(port)
        client.begin(opened(name, files.proto_text(300)), diagnosed("first", name))
        client.bodies(1)
        start.release()
        while not stop.is_set():
            before = time.perf_counter()
            client.send(diagnosed(len(waits), name))
            body = client.bodies(1)[0]
            waits.append(time.perf_counter() - before)
            refused += b'"code":-32603,' in body
            time.sleep(PAUSE)
        client.end()
    except (OSError, EOFError):
        closed += 1
        start.release()
    sink.put((waits, refused, closed))


class Beside:
    """Two honest clients, from the entry of the block to its end."""

    def __init__(self, port):
        self.start, self.stop, self.sink = multiprocessing.Semaphore(0), multiprocessing.Event(), multiprocessing.Queue()
        self.processes = [multiprocessing.Process(target=honest, args=(port, "honest%d.proto" % i, self.start, self.stop, self.sink))
                          for i in range(2)]

    def __enter__(self):
        for process in self.processes:
            process.start()
        for _ in self.processes:
            self.start.acquire()
        time.sleep(0.2)
        return self

    def __exit__(self, *_):
        time.sleep(0.2)
        self.stop.set()
        found = [self.sink.get(timeout=120) for _ in self.processes]
        for process in self.processes:
            process.join()
        self.waits = [wait for waits, _, _ in found for wait in waits]
        self.refused = sum(refused for _, refused, _ in found)
        self.closed = sum(closed for _, _, closed in found)

    def says(self, title, longest):
        """Prints what the clients saw, and returns whether it is within the limits."""
        good = bool(self.waits) and max(self.waits) <= longest and not self.refused and not self.closed
        print("%s: honest clients made %d requests and waited %.1f ms in the middle, %.0f at most (%.0f allowed), %d refused, %d closed%s"
              % (title, len(self.waits), middle(self.waits or [0]) * 1e3, max(self.waits or [0]) * 1e3, longest * 1e3,
                 self.refused, self.closed, "" if good else "  <- past its limits"), flush=True)
        return good


def outcome(client, data):
    """What a hostile client got for the request that ends `data`. It reads a long reply without keeping it."""
    try:
        client.socket.settimeout(120)
        client.send(data)
        held = b""
        while b"\r\n\r\n" not in held:
            held += client.socket.recv(65536) or closed()
        header, _, held = held.partition(b"\r\n\r\n")
        length = int(header.split(b":")[1])
        begun, got, buffer = held, len(held), bytearray(1 << 20)
        while got < length:
            got += client.socket.recv_into(buffer) or closed()
            begun = begun or bytes(buffer[:200])
    except (OSError, EOFError):
        return "closed"
    return "refused" if b'"code":-32603,' in begun[:200] else "a reply of %.0f MB" % (length / 1e6)


def asked_dear(port, fields):
    """What a client gets that opens a text of so many equal fields, and asks for its diagnostics."""
    client = Connection(port)
    try:
        client.begin(opened("hostile.proto", dear_text(fields)))
    except (OSError, EOFError):
        return "closed"
    found = outcome(client, diagnosed("dear", "hostile.proto"))
    client.socket.close()
    return found


def closed():
    raise EOFError("the server closed the connection")


def dear_text(fields):
    """A text of messages with long names within each other, and so many equal fields in the innermost: each error names them all."""
    names = [("M%d" % i).ljust(833, "x") for i in range(60)]
    return ('syntax = "proto3";\n' + "".join("message %s {\n" % name for name in names)
            + "int32 a = 1;\n" * fields + "}" * len(names) + "\n")


def settled(server, port):
    """The server's memory in MB after an ordinary request of a new client."""
    time.sleep(2.5)
    client = Connection(port)
    client.begin(opened("after.proto", files.proto_text(300)), diagnosed("after", "after.proto"))
    client.bodies(1)
    client.end()
    time.sleep(0.2)
    return server.kilobytes() / 1024


def reply_part(words):
    server = served(words, 2)
    before = settled(server, server.port)
    with Beside(server.port) as beside:
        found = []
        for fields in (60_000, 78_000, 60_000):
            found.append("%.1f GB: " % (fields * 50e-6) + asked_dear(server.port, fields))
    after = settled(server, server.port)
    server.stop()
    print("reply: %s; the server has %.0f MB after it and had %.0f before (%d allowed)" % ("; ".join(found), after, before, KEPT))
    return beside.says("reply", BUSY) and after <= KEPT


def body_part(words):
    server = served(words, 2)
    before = settled(server, server.port)
    objects = ('{"jsonrpc":"2.0","id":7,"method":"x/none","params":{"a":[' + '{"a":{}},' * 1_800_000 + "0]}}").encode()
    with Beside(server.port) as beside:
        found = []
        for _ in range(3):
            client = Connection(server.port)
            client.begin()
            found.append(outcome(client, frame(objects)))
            client.socket.close()
    after = settled(server, server.port)
    server.stop()
    print("body: %d bytes: %s; the server has %.0f MB after it and had %.0f before (%d allowed)"
          % (len(objects), "; ".join(found), after, before, KEPT))
    return beside.says("body", BUSY) and after <= KEPT


def short_part(words):
    server = served(words, 2)
    with Beside(server.port) as beside:
        held = []
        for _ in range(1_320):
            held.append(socket.create_connection(("127.0.0.1", server.port)))
            held[-1].sendall(b"\r\n")
        threads = len(os.listdir("/proc/%d/task" % server.process.pid))
        open_files = len(os.listdir("/proc/%d/fd" % server.process.pid))
        late = time.perf_counter()
        client = Connection(server.port)
        client.begin()
        late = time.perf_counter() - late
        client.end()
    server.stop()
    for connection in held:
        connection.close()
    print("short: %d connections of two bytes: the server has %d threads and %d open files; the next client is served after %.0f ms"
          % (len(held), threads, open_files, late * 1e3))
    return beside.says("short", BUSY)


def drip_part(words):
    server = served(words, 2)
    with Beside(server.port) as beside:
        held = [socket.create_connection(("127.0.0.1", server.port)) for _ in range(60)]
        for connection in held:
            connection.sendall(b"\r\n")
        begun, longest = time.perf_counter(), 0
        while held and time.perf_counter() - begun < 20:
            time.sleep(0.2)
            for connection in list(held):
                try:
                    connection.sendall(b"x")
                except OSError:
                    held.remove(connection)
                    longest = time.perf_counter() - begun
    server.stop()
    print("drip: %d of 60 connections that send a byte each 0.2 seconds are open after %.1f seconds; the last one was cut after %.1f"
          % (len(held), time.perf_counter() - begun, longest))
    return beside.says("drip", IDLE) and not held


def files_part(words):
    server = served(words, 2, "sh", "-c", 'ulimit -n 48; exec "$@"', "sh")
    with Beside(server.port) as beside:
        held = []
        for _ in range(400):
            held.append(socket.create_connection(("127.0.0.1", server.port)))
            held[-1].sendall(b"\r\n")
        time.sleep(1)
        for connection in held:
            connection.close()
        time.sleep(3)
    client = Connection(server.port)
    client.begin()
    client.end()
    server.stop()
    print("files: 400 connections to a server that may open 48 files: it serves a client after them")
    return beside.says("files", BUSY)


def crowd_part(words):
    server = served(words, 2)
    with Beside(server.port) as beside:
        crowd = []
        for _ in range(62):
            client = Connection(server.port)
            client.begin()
            crowd.append(client)
        turned = 0
        for _ in range(1_000):
            extra = socket.create_connection(("127.0.0.1", server.port))
            turned += not extra.recv(1)
            extra.close()
        for client in crowd:
            client.end()
    server.stop()
    print("crowd: %d of 1,000 connections beyond 64 were turned away" % turned)
    return beside.says("crowd", BUSY) and turned == 1_000


def dear_asked(words, workers, small_after):
    """One client asks 30 dear requests at once; another then a small one: its wait, and the dear requests' time, in seconds."""
    server = served(words, workers)
    dear, small = Connection(server.port), Connection(server.port)
    small.begin(opened("small.proto", files.proto_text(300)), diagnosed("first", "small.proto"))
    small.bodies(1)
    text = files.proto_text(200_000)
    dear.begin(*[opened("dear%d.proto" % i, text) for i in range(30)])
    dear.send(b"".join(diagnosed(i, "dear%d.proto" % i) for i in range(30)))
    begun = time.perf_counter()
    time.sleep(small_after)
    before = time.perf_counter()
    small.send(diagnosed("second", "small.proto"))
    small.bodies(1)
    wait = time.perf_counter() - before
    dear.bodies(30)
    each = (time.perf_counter() - begun) / 30 * workers
    server.stop()
    return wait, each


def waits_for_two(words, title, workers):
    """Whether a small request waits for at most two dear ones of another client. Prints the times."""
    wait, each = dear_asked(words, workers, 0.02)
    good = wait <= 2.5 * each
    print("%s: %d workers, 30 requests of %.0f ms of another client: a small request waits %.0f ms (two of them allowed)%s"
          % (title, workers, each * 1e3, wait * 1e3, "" if good else "  <- past its limit"), flush=True)
    return good


def turns_part(words):
    return waits_for_two(words, "turns", 1)


def held_part(words):
    return waits_for_two(words, "held", 2)


PARTS = [("reply", reply_part), ("body", body_part), ("short", short_part), ("drip", drip_part), ("files", files_part),
         ("crowd", crowd_part), ("turns", turns_part), ("held", held_part)]


def main():
    words = argparse.ArgumentParser()
    words.add_argument("--program", default=PROGRAM)
    words.add_argument("--memory", type=int, default=2_000, help="PQ_SERVER_MEMORY, in MB")
    words.add_argument("--only", default="", help="a word of the parts to run")
    words = words.parse_args()
    print("%d processors" % os.cpu_count())
    good = True
    for name, part in PARTS:
        if words.only in name:
            good = part(words) and good
    return 0 if good else 1


if __name__ == "__main__":
    sys.exit(main())
