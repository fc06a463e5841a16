"""Sets of files that import one another, as a folder of an editor has them, and what a client asks among them.

The files are a tree: each imports three below it, and the hub. So the root, file 0, reaches all, and a leaf the hub alone. All
are opened, and then the diagnostics of one are asked for again and again, mostly after an edit of some file. Such a round is
measured with k and with 3k of them; the difference is the processor's time of 2k rounds. A round's wait is the time from
the write of the edit to the last byte of the response, by two pipes.
"""
import os
import statistics
import subprocess
import time

from shared import FIRST, LAST, changed, diagnosed, opened, read_body

WIDTH = 3
RECORDS = 10
COMMENT = "\n// Of no weight for what the files say.\n"
HUB = "hub.proto"
COUNTS = (100, 1_000)
# More rounds tell no more.
MOST_ROUNDS = 20_000


def name(n):
    return "node%d.proto" % n


def text(n, count, more=""):
    """File n of `count`, about 2 kB: it uses types of the files below it and of the hub. `more` is put before its messages."""
    below = range(WIDTH * n + 1, min(WIDTH * n + 1 + WIDTH, count))
    parts = ['syntax = "proto3";\n\npackage work.node%d;\n\nimport "hub.proto";\n' % n]
    parts += ['import "%s";\n' % name(i) for i in below]
    parts.append(more)
    for k in range(RECORDS):
        parts.append("\nmessage Record%d {\n  string name = 1;\n  repeated int64 counts = 2;\n  work.hub.Id id = 3;\n" % k)
        parts += ["  work.node%d.Record%d lower%d = %d;\n" % (i, k, i, at + 10) for at, i in enumerate(below)]
        parts.append("  map<string, Record0> parts = 20;\n}\n")
    return "".join(parts)


def hub(more=""):
    """The file that all import."""
    return 'syntax = "proto3";\n\npackage work.hub;\n' + more + "\nmessage Id {\n  uint64 value = 1;\n}\n"


def message(i):
    """A message, another for another `i`."""
    return "\nmessage Added {\n  string name%d = 1;\n}\n" % i


def root(count):
    return 0


def leaf(count):
    return count - 1


def edited(asked_for, edit, texts=(message(0), message(1))):
    """One file is edited, its own messages change, and the diagnostics of one are asked for."""
    return lambda count: (name(asked_for(count)), name(edit(count)), [text(edit(count), count, more) for more in texts])


def hub_edited(*more):
    return lambda count: (name(root(count)), HUB, [hub(text) for text in more])


def hub_moved(asked_for):
    """A line is put before everything in the hub, and taken away again."""
    return lambda count: (asked_for(count), HUB, [COMMENT + hub(), hub()])


# Each has a title, and then for a count of files the file that is asked for, the file that is edited, and the texts that it
# is given in turns.
LEAF, EDITED = "a leaf after its edit", "the root after its edit"
CASES = [("a leaf, nothing changed", lambda count: (name(leaf(count)), None, [])),
         ("the root, nothing changed", lambda count: (name(root(count)), None, [])),
         (LEAF, edited(leaf, leaf)),
         (EDITED, edited(root, root)),
         ("a leaf after the root's edit", edited(leaf, root)),
         ("the root after a leaf's edit", edited(root, leaf)),
         ("the root after a comment's edit in the hub", hub_edited(COMMENT, "")),
         ("the root after a message's edit in the hub", hub_edited(message(0), message(1))),
         ("a leaf after a comment in it", edited(leaf, leaf, (COMMENT, ""))),
         ("a leaf after a line before the hub's text", hub_moved(lambda count: name(leaf(count)))),
         ("the hub after a line before its text", hub_moved(lambda count: HUB))]


class Side:
    """One case among so many files."""

    def __init__(self, program, folder, case, count):
        self.program = program
        self.path = os.path.join(folder, "set%d" % count)
        self.asked_for, self.name, self.texts = case(count)
        self.opens = FIRST + opened(HUB, hub()) + b"".join(
            opened(name(n), text(n, count)) for n in range(count)) + diagnosed("all", self.asked_for)

    def round(self, i):
        """An edit or none, and a request."""
        edit = changed(self.name, self.texts[i % len(self.texts)]) if self.texts else b""
        return edit + diagnosed(i, self.asked_for)

    def written(self, rounds):
        """The path of the session with so many rounds."""
        path = "%s_%d" % (self.path, rounds)
        with open(path, "wb") as sink:
            sink.write(self.opens + b"".join(map(self.round, range(rounds))) + LAST)
        return path

    def difference(self, measure, rounds, runs):
        """What one round costs: the best of some runs with so many rounds, and with three times as many."""
        paths = [self.written(rounds), self.written(3 * rounds)]
        best = [min(costs) for costs in zip(*[[measure(self.program, path) for path in paths] for _ in range(runs)])]
        for path in paths:
            os.remove(path)
        return (best[1] - best[0]) / (2 * rounds)

    def wait(self, rounds):
        """The median of the seconds that a client waits in a round."""
        server = subprocess.Popen([self.program, "script"], stdin=subprocess.PIPE, stdout=subprocess.PIPE)
        with server:
            server.stdin.write(self.opens)
            server.stdin.flush()
            read_body(server.stdout)
            read_body(server.stdout)
            waits = []
            for i in range(rounds):
                data = self.round(i)
                before = time.perf_counter()
                server.stdin.write(data)
                server.stdin.flush()
                body = read_body(server.stdout)
                waits.append(time.perf_counter() - before)
                if b'"items":[],' not in body:
                    raise SystemExit("%s: %s" % (self.name, body[:400]))
            server.stdin.write(LAST)
            server.stdin.flush()
            read_body(server.stdout)
        if server.returncode != 0:
            raise SystemExit("%s ended with status %d" % (self.program, server.returncode))
        return statistics.median(waits)


def table(program, folder, cases, runs, measure, count_instructions):
    """Prints the time of a round of each case among few and among many files, and gives both by title.

    The last columns have the instructions of a round in thousands, where they are counted."""
    print("\n| Request | ms at %d files | ms at %d | ratio | wait at %d, ms | 1,000 instructions at %d | at %d | ratio |" % (
        *COUNTS, COUNTS[1], *COUNTS))
    print("|---|---|---|---|---|---|---|---|")
    found = {}
    for title, case in cases:
        sides = [Side(program, folder, case, count) for count in COUNTS]
        times = []
        for side in sides:
            rough = max(side.difference(measure, 5, 1), 1e-5)
            times.append(side.difference(measure, min(MOST_ROUNDS, max(5, int(0.3 / rough))), runs))
        found[title] = times
        wait = sides[1].wait(100)
        counted = " | | "
        if count_instructions:
            few, many = [side.difference(count_instructions, 5, 1) for side in sides]
            counted = "%.0f | %.0f | %.2f" % (few / 1e3, many / 1e3, many / few)
        print("| %s | %.3f | %.3f | %.2f | %.3f | %s |" % (
            title, times[0] * 1e3, times[1] * 1e3, times[1] / times[0], wait * 1e3, counted), flush=True)
    return found
