#!/usr/bin/env python3
"""Soaks `pq_server listen`: connections that edit their own files, ask and withdraw at random, some of which vanish within a frame.

Each connection has two files of its own, of which one imports the other, so what is right for it depends on its own edits
alone, while each edit of any connection makes a revision and overtakes the runs of all. It edits the two in turns, so that the
diagnostics of the first say how many edits there were. After a connection has ended, its edits are sent through `pq_server script`, which says what the
diagnostics are after each of them. Then every reply is compared:

- the labels are those of the requests, in their order, and none is missing but where the connection vanished;
- an answer is what `script` says after so many of the connection's edits, no fewer than were posted before the request;
- it names a revision, and later states of the files come with higher revisions;
- a reply that says cancelled names two revisions, of which the second is the higher one;
- a reply that says withdrawn is of a request that its connection withdrew;
- no reply says that memory ran out.

One more connection sets a file of its own to one text again and again, `--edits` times in each life, so that many revisions
are made, of which each 1,024th ends every run. The status is 1 where a check fails.

usage: bench/soak.py [--program PATH] [--workers N] [--connections N] [--lives N] [--steps N] [--edits N] [--seed N]
"""
import argparse
import json
import multiprocessing
import os
import random
import subprocess
import sys
import traceback

from clients import Connection, Server
from shared import FIRST, LAST, bodies_of, changed, diagnosed, opened, withdrawn

HERE = os.path.dirname(os.path.abspath(__file__))
PROGRAM = os.path.join(HERE, "..", "crates", "pq_server", "out", "pq_server")


class Files:
    """The two files of a connection, which are edited in turns, and how many edits were made."""

    def __init__(self, place):
        self.names = [place + "/a.proto", place + "/b.proto"]
        self.edits = 0

    def text(self):
        """The next text: one of `b.proto` after an even count of edits, else one of `a.proto`."""
        n = self.edits // 2
        if self.edits % 2 == 0:
            return 'syntax = "proto3";\npackage p;\nmessage B%d {}\n' % (n % 3)
        uses = "".join("  B%d b%d = %d;\n" % (k, k, 10 + k) for k in range(3))
        return ('syntax = "proto3";\npackage p;\nimport "%s";\nmessage M {\n  int32 x%d = 1;\n  int32 x%d = 2;\n%s}\n'
                % (self.names[1], n, n, uses))

    def edit(self):
        """The bytes of the next edit."""
        name, text = self.names[1 - self.edits % 2], self.text()
        self.edits += 1
        return (opened if self.edits <= 2 else changed)(name, text)


def write(port, place, edits, start, sink):
    """Sets one file to one text `edits` times, in blocks; the connection asks after each block, and reads the reply."""
    name, text = place + "/w.proto", 'syntax = "proto3";\n'
    client = Connection(port)
    client.begin(opened(name, text))
    block = changed(name, text) * 1000
    start.wait()
    for label in range(edits // 1000):
        client.send(block + diagnosed(label, name))
        client.bodies(1)
    client.end()
    sink.put((place, (0, 0, 0, edits // 1000 * 1000)))


def live(program, port, place, seed, steps, start, sink):
    """The life of one connection, and the comparison of its replies."""
    try:
        sink.put((place, lived(program, port, place, random.Random(seed), steps, start)))
    except Exception:
        sink.put((place, traceback.format_exc()))


def lived(program, port, place, chance, steps, start):
    mine = Files(place)
    client = Connection(port)
    client.begin()
    vanishes = chance.random() < 0.3
    log, asked, replies, gone = [], [], [], set()
    start.wait()
    for step in range(steps):
        for _ in range(2 if step == 0 else chance.random() < 0.1):
            log.append(mine.edit())
            client.send(log[-1])
        count = chance.randrange(1, 30)
        labels = range(len(asked), len(asked) + count)
        client.send(b"".join(diagnosed(label, mine.names[0]) for label in labels))
        asked += [mine.edits] * count
        late = [label for label in labels if chance.random() < 0.1]
        client.send(b"".join(map(withdrawn, late)))
        gone.update(late)
        if vanishes and step == steps // 2:
            client.send(diagnosed(0, mine.names[0])[:-chance.randrange(1, 60)])
            client.socket.close()
            break
        replies += client.bodies(count)
    else:
        client.end()
    return compared(program, mine, log, asked, replies, gone)


def states(program, mine, log):
    """What `script` says of the first file after each edit, from the second on."""
    data = FIRST + b"".join(edit + diagnosed(i, mine.names[0]) for i, edit in enumerate(log)) + LAST
    done = subprocess.run([program, "script"], input=data, capture_output=True)
    return {json.dumps(json.loads(body)["result"]["items"]): i + 1 for i, body in enumerate(bodies_of(done.stdout)[1:-1]) if i > 0}


def compared(program, mine, log, asked, replies, gone):
    """The counts of answers, of cancelled replies, of withdrawn ones and of edits, or a text that says what is wrong."""
    of = states(program, mine, log)
    if len(of) != len(log) - 1:
        return "two states have one answer"
    answers, cancelled, said_so, seen = 0, 0, 0, []
    for label, (before, body) in enumerate(zip(asked, replies)):
        said = json.loads(body)
        if said["id"] != label:
            return "request %d was answered as %r" % (label, said["id"])
        if "error" in said:
            if said["error"]["code"] == -32801:
                cancelled += 1
            elif said["error"]["code"] == -32800 and label in gone:
                said_so += 1
            else:
                return "request %d: %r" % (label, said)
            continue
        state = of.get(json.dumps(said["result"]["items"]))
        if state is None or state < before:
            return "request %d, after %d edits, was answered with state %r: %s" % (label, before, state, body.decode())
        seen.append((int(said["result"]["resultId"]), state))
        answers += 1
    for (low, first), (high, last) in zip(sorted(seen), sorted(seen)[1:]):
        if last < first or (low == high and first != last):
            return "state %d at revision %d and state %d at revision %d" % (first, low, last, high)
    return answers, cancelled, said_so, len(log)


def main():
    words = argparse.ArgumentParser()
    words.add_argument("--program", default=PROGRAM)
    words.add_argument("--workers", type=int, default=4)
    words.add_argument("--connections", type=int, default=24)
    words.add_argument("--lives", type=int, default=4, help="how often each connection is followed by a new one")
    words.add_argument("--steps", type=int, default=60)
    words.add_argument("--edits", type=int, default=10000, help="the edits of the connection that writes one text, in each life")
    words.add_argument("--seed", type=int, default=1)
    words = words.parse_args()
    server = Server(words.program, words.workers)
    good, counts, lives = True, [0, 0, 0, 0], 0
    for life in range(words.lives):
        start, sink = multiprocessing.Event(), multiprocessing.Queue()
        places = ["l%d/c%d" % (life, i) for i in range(words.connections)]
        started = [multiprocessing.Process(target=live, args=(words.program, server.port, place, (words.seed, place).__repr__(), words.steps, start, sink))
                   for place in places]
        started.append(multiprocessing.Process(target=write, args=(server.port, "l%d/w" % life, words.edits, start, sink)))
        for process in started:
            process.start()
        start.set()
        for _ in started:
            place, found = sink.get(timeout=600)
            if isinstance(found, str):
                print("%s: %s" % (place, found))
                good = False
            else:
                counts, lives = [x + y for x, y in zip(counts, found)], lives + 1
        for process in started:
            process.join()
        print("%d lives: %d answers as `script` gives them, %d cancelled, %d withdrawn, %d edits; %.1f MB"
              % (lives, *counts, server.kilobytes() / 1024), flush=True)
    server.stop()
    return 0 if good else 1


if __name__ == "__main__":
    sys.exit(main())
