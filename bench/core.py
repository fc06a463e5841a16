#!/usr/bin/env python3
"""Measures the calls of a core, with rules of `Sums`: clients with full windows, edits among them, and what is kept.

The program is a few lines of Rattle in core.rt.txt, which says how each round goes. It is put into a scratch repository with
a copy of the crates that it stands on, proved and built there by `rt`. Its outboxes are lists. Files are in groups of ten:
the first has the names of the others, of which three are set and six are absent, since inputs take 4,096 files. All are Low.

Rates: a round is measured with k and with 3k of them; the difference is the processor's time of 2k rounds. The runs take
turns, and the best times count. The instructions of a round are counted by callgrind. A call is one of accept, edit,
start, look (the work that it hands out is carried out), give, release, take, open and close.

Ratios: the instructions of what a case names, at two sizes. Where a title says `less`, those of another case are taken off.

Memory: what is allocated at most at once, by valgrind, or the peak of resident memory, by Debian's `time`, of a process at
two sizes, and the difference for one thing.

usage: bench/core.py [--runs N] [--program PATH] [--only rates|ratios|memory]
"""
import argparse
import subprocess
import sys
import tempfile

import parts

CRATES = ["pq_lex", "pq_names", "pq_inputs", "pq_rules", "pq_memo", "pq_claims", "pq_core"]
USES = "pq_inputs pq_names pq_rules pq_core"
WINDOW = 32
CLIENTS = (1, 8, 64)
FEW, MANY = 10, 10_000
# The requests whose instructions are counted: they go to each of the many files.
SPREAD = 10_240
# The requests of k rounds that are timed.
TIMED = 100_000

# How rounds go whose rates are measured: a title, and the name that the program knows.
ROUNDS = [("nothing changed", "quiet"),
          ("an edit, then each key looked at", "edited"),
          ("the same, runs in turns", "turns"),
          ("an edit that stops all runs", "stopped")]


class Side(parts.Rounds):
    """Rounds of one kind, with so many clients and files."""

    def __init__(self, program, how, clients, files):
        self.program, self.words, self.path, self.said = program, [how, str(clients), str(files)], "/dev/null", b""
        self.requests = clients * WINDOW
        self.best = [float("inf"), float("inf")]
        self.rounds = max(1, TIMED // self.requests)

    def more(self, measure, few, many):
        """What the rounds after the first `few` take, of `many`."""
        return self.measured(measure, many) - self.measured(measure, few)

    def calls(self, few, many):
        """The calls of those rounds. Each request has to be answered, or stopped where an edit comes in between."""
        def counts(rounds):
            done = subprocess.run([self.program, str(rounds)] + self.words, capture_output=True, check=True)
            return [int(word) for word in done.stdout.split()]
        calls, taken, stopped = [b - a for a, b in zip(counts(few), counts(many))]
        wanted = self.requests * (many - few)
        if taken != wanted or stopped != (wanted if self.words[0] == "stopped" else 0):
            sys.exit("%s: %d replies taken and %d runs stopped of %d" % (self.words, taken, stopped, wanted))
        return calls

    def rate(self):
        """Calls a second."""
        return self.calls(self.rounds, 3 * self.rounds) / 2 / self.rounds / self.time()

    def each(self):
        """The instructions and the count of the calls of enough rounds to ask for each file, after the first."""
        many = 1 + max(1, SPREAD // self.requests)
        return self.more(parts.instructions, 1, many), self.calls(1, many)


def rates(program, runs):
    """Prints the table of rates."""
    sides = [(title, files, [Side(program, how, clients, files) for clients in CLIENTS])
             for title, how in ROUNDS for files in (FEW, MANY)]
    parts.in_turns([side for _, _, row in sides for side in row], runs)
    print("| Rounds | files | calls a second at 1 client | at 8 | at 64 | calls of a request | instructions of a call at 1 | at 64 |")
    print("|---|---|---|---|---|---|---|---|")
    for title, files, row in sides:
        counted = [side.each() for side in (row[0], row[-1])]
        print("| %s | %d | %s | %.1f | %s |" % (
            title, files, " | ".join("%d" % side.rate() for side in row), counted[-1][1] / SPREAD,
            " | ".join("%d" % (count / calls) for count, calls in counted)), flush=True)


# Instructions, in thousands, of what a case names.

def round_of(how, clients=None, files=None, rounds=5):
    """A round, of so many: n is the count of clients, or that of files where clients are given."""
    def counted(program, n):
        side = Side(program, how, clients or n, files or n)
        return side.more(parts.instructions, 1, 1 + rounds) / rounds / 1e3
    return counted


def less(first, second):
    return lambda program, n: first(program, n) - second(program, n)


def requests(how):
    """n requests of 64 clients among 10,000 files."""
    def counted(program, n):
        side = Side(program, how, CLIENTS[-1], MANY)
        return side.more(parts.instructions, 1, 1 + n // side.requests) / 1e3
    return counted


def at_rest(program, n):
    """One question whether the core is at rest."""
    return less(round_of("rest", files=FEW), round_of("quiet", files=FEW))(program, n) / (n * WINDOW)


BOTH = (32, 64)
FILES = (5_000, MANY)
REQUESTS = (16_384, 32_768)
RATIOS = [("requests, nothing changed", REQUESTS, requests("quiet")),
          ("requests, an edit before 2,048", REQUESTS, requests("edited")),
          ("requests, stopped by edits", REQUESTS, requests("stopped"))]
RATIOS += [("clients, a round: " + title, BOTH, round_of(how, files=MANY)) for title, how in ROUNDS]
RATIOS += [("clients, a round: fixed texts", BOTH, round_of("fixed", files=FEW)),
           ("clients, a round: nothing changed, all closed and opened anew", BOTH, round_of("renewed", files=FEW)),
           ("clients, open among n: one more opened and closed", (31, 63), round_of("opened", files=FEW, rounds=100)),
           ("clients, at rest: one question", BOTH, at_rest)]
RATIOS += [("files, a round of 64 clients: " + title, FILES, round_of(how, CLIENTS[-1])) for title, how in ROUNDS]
RATIOS += [("files, first demand of each, less the setting of files", FILES,
            less(round_of("first", CLIENTS[-1], rounds=1), round_of("set", CLIENTS[-1], rounds=1))),
           ("files, an edit that nothing reads, a demand of each", FILES, round_of("each", 1, rounds=1)),
           ("files, then one of a file with all their names", FILES,
            less(round_of("hub", 1, rounds=1), round_of("each", 1, rounds=1)))]


def ratios(program):
    """Prints the table of ratios."""
    print("| Case | n, 2n | 1,000 instructions at n | at 2n | ratio |\n|---|---|---|---|---|")
    for title, sizes, counted in RATIOS:
        small, large = [counted(program, n) for n in sizes]
        print("| %s | %d, %d | %.1f | %.1f | %.2f |" % (title, *sizes, small, large, large / small), flush=True)


# What is kept: a title, what n counts, how many things each is, and the words of the program at n.

def of_clients(how, rounds):
    return lambda n: [str(rounds), how, str(n), str(FEW)]


def of_rounds(how, each=1):
    """n things, of which a round has so many."""
    return lambda n: [str(n // each), how, "1", str(FEW)]


HEAP = [("open clients", BOTH, 1, of_clients("opened", 0)),
        ("requests that wait, their clients too", BOTH, WINDOW, of_clients("posted", 1)),
        ("runs that were started", BOTH, WINDOW, of_clients("started", 1)),
        ("runs that were looked at once", BOTH, WINDOW, of_clients("looked", 1)),
        ("clients closed while their window waits, no start", (4_000, 8_000), 1, of_rounds("left"))]
MANY_TIMES = (500_000, 1_000_000)
RESIDENT = [("replies put and taken, of one client", MANY_TIMES, of_rounds("quiet", WINDOW)),
            ("replies with fixed texts, of one client", MANY_TIMES, of_rounds("fixed", WINDOW)),
            ("replies put and taken, a client for each window", MANY_TIMES, of_rounds("renewed", WINDOW)),
            ("clients opened and closed", MANY_TIMES, of_rounds("opened")),
            ("clients closed while their window waits, starts asked for", (40_000, 80_000), of_rounds("passed"))]


def heap(words):
    """The most bytes that a process had allocated at once, as valgrind counts them."""
    with tempfile.NamedTemporaryFile() as found:
        subprocess.run(["valgrind", "--tool=massif", "--massif-out-file=" + found.name] + words, capture_output=True, check=True)
        return max(int(line.partition(b"=")[2]) for line in found if line.startswith(b"mem_heap_B="))


def memory(program):
    """Prints the tables of memory."""
    print("| What | n, 2n | bytes allocated at n | at 2n | bytes each |\n|---|---|---|---|---|")
    for title, sizes, each, words in HEAP:
        small, large = [heap([program] + words(n)) for n in sizes]
        print("| %s | %d, %d | %d | %d | %.0f |" % (
            title, sizes[0] * each, sizes[1] * each, small, large, (large - small) / (sizes[1] - sizes[0]) / each), flush=True)
    empty, _ = parts.peak([program, "0", "opened", "0", str(FEW)])
    print("\nA core with %d files and no client: %d kB.\n" % (FEW, empty))
    print("| What | n, 2n | peak at n, kB | at 2n | bytes each | seconds at 2n |\n|---|---|---|---|---|---|")
    for title, sizes, words in RESIDENT:
        (small, _), (large, seconds) = [parts.peak([program] + words(n)) for n in sizes]
        print("| %s | %d, %d | %d | %d | %.1f | %.2f |" % (
            title, *sizes, small, large, (large - small) * 1024 / (sizes[1] - sizes[0]), seconds), flush=True)


def main():
    words = argparse.ArgumentParser()
    words.add_argument("--runs", type=int, default=7)
    words.add_argument("--program", help="the program, built before")
    words.add_argument("--only", default="", choices=["", "rates", "ratios", "memory"])
    words = words.parse_args()
    with tempfile.TemporaryDirectory() as folder:
        program = words.program or parts.built_from(folder, "core_calls", CRATES, USES, "core.rt.txt")
        if words.only in ("", "rates"):
            rates(program, words.runs)
            print()
        if words.only in ("", "ratios"):
            ratios(program)
            print()
        if words.only in ("", "memory"):
            memory(program)
    return 0


if __name__ == "__main__":
    sys.exit(main())
