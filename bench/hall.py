#!/usr/bin/env python3
"""Measures `pq_server listen`: many connections over one store.

Each part starts a server of its own, and prints ratios of rates that were taken in the same run:

    requests    requests a second with 1, 8 and 64 connections and 1, 2 and 4 workers, where nothing changed. A connection has
                30 requests in flight, or one. The floor beside it is an echo of the same bytes by Python: it has one thread
                for a connection, which reads and writes
    woken       processor time and sleeps of the server for a small request, one in flight, with 1, 4, 16 and 32 workers
    files       first diagnostics of independent files, 8 connections: 4 workers by 1
    edit        from an edit to its diagnostics, by `listen` and by `script` over pipes
    reach       the same where the file that is asked reaches 1,000 others, for some cases of bench/workspaces.py
    flow        64 connections that come and go: replies in order and none lost, memory before and after
    lazy        a client that reads nothing: the rate of others beside it, and without it
    held        a client with a dear file, two workers: the time of another client's small request beside it
    ranges      a client with 95,000 ranged changes in one notification: the longest wait of another client for a small reply
    marks       a client with 1,100,000 edits of one small text: the same, and the memory of an edit

An edit of any client overtakes the requests that run, so some replies of `flow` say cancelled.

The clients are processes of this script. A ratio depends on the processors: they are printed first. The status is 1 where
a reply is lost or out of order, where memory grows in `flow`, or where `lazy`, `held`, `ranges` or `marks` hold another client up.

usage: bench/hall.py [--program PATH] [--quick] [--only WORD]
"""
import argparse
import multiprocessing
import os
import socket
import subprocess
import sys
import threading
import time

import files
import ranges
import workspaces
from clients import Connection, Server
from shared import FIRST, asked, changed, diagnosed, opened, read_body

HERE = os.path.dirname(os.path.abspath(__file__))
PROGRAM = os.path.join(HERE, "..", "crates", "pq_server", "out", "pq_server")
BATCH = 30
# The longest that a client may wait for a small reply beside a hostile one, in seconds.
LONGEST = 0.05


def play(clients, rounds, in_flight):
    """Sends each client's batch, and then reads all replies, so many times. Returns how many requests these were."""
    for _ in range(rounds):
        for client, batch in clients:
            client.send(batch)
        for client, _ in clients:
            client.skip(in_flight)
    return len(clients) * rounds * in_flight


def asked_by(port, names, rounds, in_flight, start, sink):
    """A process with one connection for each name, over which it plays its rounds."""
    text = files.proto_text(300)
    clients = []
    for name in names:
        client = Connection(port)
        client.begin(opened(name + ".proto", text))
        clients.append((client, b"".join(diagnosed(i, name + ".proto") for i in range(in_flight))))
    start.wait()
    count = play(clients, rounds, in_flight)
    for client, _ in clients:
        client.end()
    sink.put(count)


def echoed_by(port, names, rounds, in_flight, start, sink):
    """The same to an echo: each request comes back as it was sent."""
    clients = [(Connection(port), b"".join(diagnosed(i, name + ".proto") for i in range(in_flight))) for name in names]
    start.wait()
    count = play(clients, rounds, in_flight)
    for client, _ in clients:
        client.socket.close()
    sink.put(count)


def echo(listener):
    """Writes to each connection what it sends, on a thread of its own."""
    def serve(client):
        client.setsockopt(socket.IPPROTO_TCP, socket.TCP_NODELAY, 1)
        while data := client.recv(16_384):
            client.sendall(data)

    while True:
        threading.Thread(target=serve, args=(listener.accept()[0],), daemon=True).start()


class Echo:
    """An echo in a process of its own, with what is asked of a `Server`."""

    def __init__(self):
        with socket.create_server(("127.0.0.1", 0)) as listener:
            self.port = listener.getsockname()[1]
            self.process = multiprocessing.Process(target=echo, args=(listener,), daemon=True)
            self.process.start()

    seconds = Server.seconds

    def stop(self):
        self.process.kill()
        self.process.join()


def together(work, shares):
    """Runs `work(*share, start, sink)` for each share in a process, and gives the seconds from the start and what they put."""
    start, sink = multiprocessing.Event(), multiprocessing.Queue()
    started = [multiprocessing.Process(target=work, args=tuple(share) + (start, sink)) for share in shares]
    for process in started:
        process.start()
    time.sleep(0.5)
    before = time.perf_counter()
    start.set()
    found = [sink.get(timeout=300) for _ in started]
    took = time.perf_counter() - before
    for process in started:
        process.join()
        if process.exitcode != 0:
            sys.exit("a client failed")
    return took, found


def rate(server, work, connections, requests, in_flight):
    """Requests a second, and the server's processor microseconds for one."""
    processes = min(connections, 4)
    names = ["c%d" % i for i in range(connections)]
    rounds = max(1, requests // (connections * in_flight))
    before = server.seconds()
    took, found = together(work, [(server.port, names[i::processes], rounds, in_flight) for i in range(processes)])
    spent = server.seconds() - before
    server.stop()
    return sum(found) / took, spent / sum(found) * 1e6


def requests_part(program, quick):
    total = 30_000 if quick else 300_000
    rates = {}

    def show(title, connections, in_flight, found):
        print("%3d connections with %2d in flight, %s: %8.0f requests/s, %.1f us of the server's processors each"
              % ((connections, in_flight, title) + found), flush=True)

    for connections, in_flight in ((1, 1), (1, BATCH), (8, BATCH), (64, BATCH)):
        count = total if in_flight > 1 else total // 10
        for workers in (1, 2, 4):
            found = rate(Server(program, workers), asked_by, connections, count, in_flight)
            rates[connections, in_flight, workers] = found[0]
            show("%d workers" % workers, connections, in_flight, found)
        show("the floor", connections, in_flight, rate(Echo(), echoed_by, connections, count, in_flight))
    print("64 connections by 1, with 4 workers: %.2f" % (rates[64, BATCH, 4] / rates[1, BATCH, 4]))
    return True


def woken_part(program, quick):
    count = 2_000 if quick else 20_000
    spent = {}
    for workers in (1, 4, 16, 32):
        server = Server(program, workers)
        client = Connection(server.port)
        client.begin(opened("small.proto", files.proto_text(300)), diagnosed("first", "small.proto"))
        client.bodies(1)
        seconds, switches = server.seconds(), server.switches()
        for i in range(count):
            client.send(diagnosed(i, "small.proto"))
            client.bodies(1)
        spent[workers] = (server.seconds() - seconds) / count * 1e6
        print("one small request in flight, %2d workers: %6.1f us of the server's processors each, %.1f sleeps of its threads"
              % (workers, spent[workers], (server.switches() - switches) / count), flush=True)
        client.end()
        server.stop()
    print("32 workers by 1: %.2f" % (spent[32] / spent[1]))
    return True


def compiled_by(port, name, count, size, start, sink):
    """A process with one connection: it opens files of its own, and then asks for the diagnostics of each of them once."""
    text = files.proto_text(size)
    client = Connection(port)
    client.begin(*[opened("%s_%d.proto" % (name, i), text) for i in range(count)])
    client.send(asked(0, "x/none", "none"))
    client.bodies(1)
    start.wait()
    client.send(b"".join(diagnosed(i, "%s_%d.proto" % (name, i)) for i in range(count)))
    for body in client.bodies(count):
        if b'"items":[],' not in body:
            sys.exit("an answer that is not empty: %r" % body[:200])
    client.end()
    sink.put(count)


def files_part(program, quick):
    count = 4 if quick else 20
    rates = {}
    for workers in (1, 2, 4):
        server = Server(program, workers)
        took, found = together(compiled_by, [(server.port, "c%d" % i, count, 200_000) for i in range(8)])
        server.stop()
        rates[workers] = sum(found) / took
        print("8 connections with %d files of 200 kB each, %d workers: %6.1f files/s" % (count, workers, rates[workers]), flush=True)
    print("4 workers by 1: %.2f, 2 by 1: %.2f (3 wanted of 4 on 4 processors)" % (rates[4] / rates[1], rates[2] / rates[1]))
    return True


def middle(times):
    return sorted(times)[len(times) // 2]


def by_listen(program, begin, rounds):
    """The seconds from the send of each round to its reply, of a server with two workers."""
    server = Server(program, 2)
    client = Connection(server.port)
    client.begin(*begin)
    found = times_of(rounds, client.send, lambda: client.bodies(1))
    client.end()
    server.stop()
    return found


def by_script(program, begin, rounds):
    """The same by a script over pipes."""
    script = subprocess.Popen([program, "script"], stdin=subprocess.PIPE, stdout=subprocess.PIPE)

    def send(data):
        script.stdin.write(data)
        script.stdin.flush()

    send(FIRST + b"".join(begin))
    read_body(script.stdout)
    found = times_of(rounds, send, lambda: read_body(script.stdout))
    script.kill()
    script.wait()
    return found


def times_of(rounds, send, read):
    """The seconds from the send of each round to its reply."""
    found = []
    for data in rounds:
        before = time.perf_counter()
        send(data)
        read()
        found.append(time.perf_counter() - before)
    return found


def compared(title, program, begin, rounds):
    """Prints what the first round takes by `listen` and by `script`, and what the middle one of the others takes."""
    by_port, by_pipe = [by(program, begin, rounds) for by in (by_listen, by_script)]
    for which, port, pipe in (("first", by_port[0], by_pipe[0]), ("then", middle(by_port[1:]), middle(by_pipe[1:]))):
        print("%s, %s: %.0f us by listen, %.0f us by script: %.2f" % (title, which, port * 1e6, pipe * 1e6, port / pipe), flush=True)


def edit_part(program, quick):
    text = files.proto_text(1_000)
    rounds = [changed("a.proto", text + "message Last%d {}\n" % i) + diagnosed(i, "a.proto") for i in range(50 if quick else 500)]
    compared("from an edit of 1 kB to its diagnostics", program, [opened("a.proto", text)], rounds)
    return True


def reach_part(program, quick):
    count = 100 if quick else 1_000
    for title, case in workspaces.CASES:
        if title.startswith("the root"):
            side = workspaces.Side(None, "", case, count)
            first = diagnosed("all", side.asked_for)
            begin = [side.opens[len(FIRST):-len(first)]]
            compared("%s, %d files" % (title, count), program, begin, [first] + [side.round(i) for i in range(20)])
    return True


def joined(port, opens):
    """A connection that was not closed unanswered: for a moment after a session has ended its place is still taken."""
    while True:
        client = Connection(port)
        try:
            client.begin(opens)
            return client
        except (EOFError, ConnectionError):
            client.socket.close()


def flowing(port, first, sessions, requests, start, sink):
    """A process whose connections come and go: each session asks, checks its labels in order, and ends."""
    text = files.proto_text(300)
    start.wait()
    done, cancelled = 0, 0
    for session in range(sessions):
        name = "c%d_%d.proto" % (first, session % 4)
        client = joined(port, opened(name, text))
        for low in range(0, requests, BATCH):
            labels = range(low, min(low + BATCH, requests))
            client.send(b"".join(diagnosed(i, name) for i in labels))
            for label, body in zip(labels, client.bodies(len(labels))):
                overtaken = b'"code":-32801,' in body
                if b'"id":%d,' % label not in body or not overtaken and b'"items":[],' not in body:
                    sys.exit("label %d was answered %r" % (label, body[:200]))
                done += 1
                cancelled += overtaken
        client.end()
    sink.put((done, cancelled))


def flow_part(program, quick):
    total = 50_000 if quick else 1_000_000
    server = Server(program, 4)
    requests = 300
    sessions = max(1, total // (64 * requests))
    # the first round fills what the server keeps; memory is compared after it
    together(flowing, [(server.port, i, 2, requests) for i in range(64)])
    before = server.kilobytes()
    took, found = together(flowing, [(server.port, i, sessions, requests) for i in range(64)])
    after = server.kilobytes()
    server.stop()
    wanted, done = 64 * sessions * requests, sum(one for one, _ in found)
    print("%d requests of 64 connections at a time, %d sessions, in %.1f s: %d answered in order, %d of them cancelled; %.1f MB before, %.1f MB after"
          % (wanted, 64 * sessions, took, done, sum(one for _, one in found), before / 1024, after / 1024), flush=True)
    return done == wanted and after <= before * 1.2 + 4096


def lazy_part(program, quick):
    total = 10_000 if quick else 100_000
    server = Server(program, 2)
    shares = [(server.port, ["c%d" % i], total // (4 * BATCH), BATCH) for i in range(4)]
    alone, found = together(asked_by, shares)
    lazy = Connection(server.port)
    lazy.begin(opened("lazy.proto", "message M { int32 a = 0; }\n" * 2_000))
    lazy.socket.setblocking(False)
    data = b"".join(diagnosed(i, "lazy.proto") for i in range(100_000))
    sent = 0
    try:
        while sent < len(data):
            sent += lazy.socket.send(data[sent:sent + 65536])
    except BlockingIOError:
        pass
    beside, _ = together(asked_by, shares)
    server.stop()
    print("4 clients beside one that reads nothing (it posted %d of %d bytes): %.2f times their time alone" % (sent, len(data), beside / alone))
    return beside < 2 * alone


def held_part(program, quick):
    server = Server(program, 2)
    dear = Connection(server.port)
    dear.begin()
    size = 400_000 if quick else 900_000
    text = files.proto_text(size)
    other = Connection(server.port)
    other.begin(opened("small.proto", files.proto_text(300)))

    def asked(label):
        before = time.perf_counter()
        other.send(diagnosed(label, "small.proto"))
        other.bodies(1)
        return time.perf_counter() - before

    alone = middle([asked(i) for i in range(200)])
    times, whole = [], 0
    for i in range(5):
        before = time.perf_counter()
        dear.send(changed("dear.proto", text + "message Last%d {}\n" % i) + diagnosed(i, "dear.proto"))
        time.sleep(0.005)
        for k in range(3):
            times.append(asked(1000 + 10 * i + k))
        dear.bodies(1)
        whole = max(whole, time.perf_counter() - before)
    server.stop()
    print("a small request beside a file of %d bytes that takes %.0f ms: %.2f ms in the middle, %.2f at most, %.2f alone"
          % (size, whole * 1e3, middle(times) * 1e3, max(times) * 1e3, alone * 1e3))
    return middle(times) < whole / 4


def waits(port, name, start, stop, sink):
    """A process with one connection that asks about a small file all the time: the seconds that it waits for each reply."""
    client = Connection(port)
    client.begin(opened(name, files.proto_text(300)), diagnosed("first", name))
    client.bodies(1)
    start.set()
    found = []
    while not stop.is_set():
        found += times_of([diagnosed(len(found), name)], client.send, lambda: client.bodies(1))
    client.end()
    sink.put(found)


def beside(port, work):
    """The seconds that `work` takes, and those that another client waits for each of its replies meanwhile."""
    start, stop, sink = multiprocessing.Event(), multiprocessing.Event(), multiprocessing.Queue()
    process = multiprocessing.Process(target=waits, args=(port, "other.proto", start, stop, sink))
    process.start()
    start.wait()
    time.sleep(0.2)
    before = time.perf_counter()
    work()
    took = time.perf_counter() - before
    stop.set()
    found = sink.get(timeout=60)
    process.join()
    return took, found


def ranges_part(program, quick):
    count = 9_500 if quick else 95_000
    text, changes = ranges.scattered(count, 32)
    good = True
    for title, opens, data in (("a text of 8 MB and %d changes of it" % count, [], ranges.flood(count, 8_000_000)),
                               ("%d changes of 1 MiB" % count, [opened("a.proto", text)], changes)):
        round = data + asked("edited", "x/none", "none")
        alone = by_script(program, opens, [round])[0]
        server = Server(program, 2)
        hostile = Connection(server.port)
        hostile.begin(*opens)

        def edit():
            hostile.send(round)
            hostile.bodies(1)

        took, found = beside(server.port, edit)
        _, idle = beside(server.port, lambda: time.sleep(min(took, 5)))
        hostile.end()
        server.stop()
        print("%s, %d bytes: %.0f ms by listen, %.0f ms by script; another client waits %.1f ms at most for a small reply, %.2f in the middle"
              " (%.1f at most, %.2f in the middle beside nothing; %.0f at most wanted)"
              % (title, len(data), took * 1e3, alone * 1e3, max(found) * 1e3, middle(found) * 1e3, max(idle) * 1e3, middle(idle) * 1e3,
                 LONGEST * 1e3), flush=True)
        good = good and max(found) <= LONGEST
    return good


def marks_part(program, quick):
    blocks = 110 if quick else 1_100
    text = files.proto_text(10)
    block = changed("w.proto", text) * 1000 + asked("edited", "x/none", "none")
    server = Server(program, 2)
    writer = Connection(server.port)
    writer.begin(opened("w.proto", text))
    before = server.kilobytes()

    def edit():
        for _ in range(blocks):
            writer.send(block)
            writer.bodies(1)

    took, found = beside(server.port, edit)
    after = server.kilobytes()
    writer.end()
    server.stop()
    print("%d edits, %.0f a second: %.1f bytes an edit; another client waits %.1f ms at most for a small reply, %.2f in the middle (%.0f at most wanted)"
          % (blocks * 1000, blocks * 1000 / took, (after - before) * 1024 / blocks / 1000, max(found) * 1e3, middle(found) * 1e3,
             LONGEST * 1e3), flush=True)
    return max(found) <= LONGEST


PARTS = [("requests", requests_part), ("woken", woken_part), ("files", files_part), ("edit", edit_part), ("reach", reach_part), ("flow", flow_part),
         ("lazy", lazy_part), ("held", held_part), ("ranges", ranges_part), ("marks", marks_part)]


def main():
    words = argparse.ArgumentParser()
    words.add_argument("--program", default=PROGRAM)
    words.add_argument("--quick", action="store_true", help="a tenth of the input, to see that it runs")
    words.add_argument("--only", default="", help="a word of the parts to run")
    words = words.parse_args()
    print("%d processors" % os.cpu_count())
    good = True
    for name, part in PARTS:
        if words.only in name:
            good = part(words.program, words.quick) and good
    return 0 if good else 1


if __name__ == "__main__":
    sys.exit(main())
