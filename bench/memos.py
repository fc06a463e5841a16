#!/usr/bin/env python3
"""Measures demands on an engine after edits, with rules of `Sums`, on sets of files that this script makes.

The program is a few lines of Rattle in memos.rt.txt. It is put into a scratch repository with a copy of the crates that it
stands on, proved and built there by `rt`. A case is a script of edits and demands in two parts: the second is played again
and again, and its time is measured, at two sizes. Each run is made with k and with 3k rounds; the difference is the
processor's time of 2k rounds without the process's start and the first part. The runs take turns, and the best times count.
With --count the instructions are counted by callgrind in their place, which other work on the machine does not disturb.

The first table has the time of one round at both sizes, their ratio, and the rules that one round starts at the larger
size, which are checked. The second has ratios of two cases at the larger size.

usage: bench/memos.py [--runs N] [--count] [--program PATH] [--only WORD]
"""
import argparse
import os
import re
import shutil
import subprocess
import sys
import tempfile

import parts

HERE = os.path.dirname(os.path.abspath(__file__))
CRATES = ["pq_names", "pq_inputs", "pq_rules", "pq_memo"]
CUT = "-\n"


def name(i):
    """A file name of 30 bytes."""
    return "a/company/project/api/v1/f%04d" % i


def low(file, *names):
    return "low %s=%s\n" % (file, " ".join(names))


def high(file, *names):
    return "high %s=%s\n" % (file, " ".join(names))


def ask(file):
    return "Sum %s\n" % file


def names(n):
    return [name(i) for i in range(n)]


def all_files(n, line=low):
    """n files, and a file that has all their names."""
    return "".join(line(file) for file in names(n)) + line("all", *names(n))


# Each case returns the two parts of its script, and how many rules the second starts.

def first_demand(n):
    """A file of n files, each of which has the name of one more: everything is demanded for the first time."""
    files = "".join(low(file, "t" + file) + low("t" + file) for file in names(n // 2))
    return files + low("all", *names(n // 2)) + CUT + ask("all"), n + 1 - n % 2


def files_set(n):
    return first_demand(n)


def from_scratch(n):
    return first_demand(n)


def nothing_each(n):
    """n keys are demanded one by one, and nothing changed."""
    demands = "".join(ask(file) for file in names(n))
    return all_files(n) + demands + CUT + demands, 0


def nothing_root(n):
    """A durable key over n others is demanded after an edit that no key reads."""
    return all_files(n, high) + ask("all") + low("other") + CUT + low("other", "x") + ask("all") + low("other") + ask("all"), 0


def nothing_walked(n):
    """The key over n others is demanded after an edit that no key reads; all are of that edit's durability."""
    return all_files(n) + ask("all") + low("other") + CUT + low("other", "x") + ask("all") + low("other") + ask("all"), 0


def leaf_alone(n):
    """One of n files that have the name of a file over ten is edited, and its key demanded."""
    ten = names(n + 10)[n:]
    files = "".join(low(file) for file in ten) + low("hub", *ten) + "".join(low(file, "hub") for file in names(n))
    edit = [low(name(n // 2), "hub", word) + ask(name(n // 2)) for word in ("hub", "")]
    return files + low("all", *names(n)) + ask("all") + CUT + "".join(edit), 2


def leaf_all(n):
    """The same edit, and the key over all n files is demanded: it looks at each."""
    before, _ = leaf_alone(n)
    edit = [low(name(n // 2), "hub", word) + ask("all") for word in ("hub", "")]
    return before.split(CUT)[0] + CUT + "".join(edit), 4


def leaf_durable(n):
    """The same, where all files but the edited one and the one over all are durable."""
    ten, own = names(n + 10)[n:], name(n // 2)
    files = "".join(high(file) for file in ten) + high("hub", *ten)
    files += "".join((low if file == own else high)(file, "hub") for file in names(n))
    edit = [low(own, "hub", word) + ask("all") for word in ("hub", "")]
    return files + low("all", *names(n)) + ask("all") + CUT + "".join(edit), 4


def hub_same(n):
    """A file whose name n files have is edited, and its answer stays: the n are confirmed."""
    files = low("x") + low("y") + low("hub", "x") + "".join(low(file, "hub") for file in names(n)) + low("all", *names(n))
    return files + ask("all") + CUT + low("hub", "y") + ask("all") + low("hub", "x") + ask("all"), 2


def hub_changed(n):
    """The same, and its answer changes: the rules of the n files start."""
    files = low("x") + low("hub", "x") + "".join(low(file, "hub") for file in names(n)) + low("all", *names(n))
    return files + ask("all") + CUT + low("hub") + ask("all") + low("hub", "x") + ask("all"), 2 * (n + 2)


def high_edited(n):
    """A file of High durability among n such files is edited, and its answer stays."""
    files = all_files(n, high) + high("x") + high("y") + high(name(0), "x")
    return files + ask("all") + CUT + high(name(0), "y") + ask("all") + high(name(0), "x") + ask("all"), 2


def ring(n, *more):
    return "".join(low(file, *more, name((i + 1) % n)) for i, file in enumerate(names(n)))


def ring_cut(n):
    """A ring of n files is cut before the one that is demanded, and closed again."""
    last, key = name(n // 2 - 1), name(n // 2)
    return ring(n) + ask(key) + CUT + low(last) + ask(key) + low(last, key) + ask(key), n + 1


def ring_stays(n):
    """A file on a ring of n files is edited, and the ring stays."""
    edits = [low(name(n - 1), word, name(0)) + ask(name(n // 2)) for word in ("y", "x")]
    return low("x") + low("y") + ring(n) + low(name(n - 1), "x", name(0)) + ask(name(n // 2)) + CUT + "".join(edits), 2 * n


def ring_grows(n):
    """A file is put onto a ring of n files, before its least, and taken off again."""
    longer, shorter = low(name(n - 1), name(n)), low(name(n - 1), name(0))
    more = ring(n) + low(name(n), name(0)) + ask(name(n // 2))
    return more + CUT + longer + ask(name(n // 2)) + shorter + ask(name(n // 2)), 2 * n + 1


# A case: its title, how it is played, its script, its two sizes, and how many edits a round has.
CASES = [("first demand, files set", "first", first_demand, 1500, 3000),
         ("files set alone", "inputs", files_set, 1500, 3000),
         ("from scratch, files set", "scratch", from_scratch, 1500, 3000),
         ("nothing changed, each key demanded", "engine", nothing_each, 1500, 3000),
         ("unrelated edit, one durable root (2 edits)", "engine", nothing_root, 1500, 3000),
         ("unrelated edit, each key looked at (2 edits)", "engine", nothing_walked, 1500, 3000),
         ("a leaf, its key demanded (2 edits)", "engine", leaf_alone, 100, 1000),
         ("a leaf, the key over all demanded (2 edits)", "engine", leaf_all, 100, 1000),
         ("the same, all others durable (2 edits)", "engine", leaf_durable, 100, 1000),
         ("a hub, its answer stays (2 edits)", "engine", hub_same, 500, 1000),
         ("a hub, its answer changes (2 edits)", "engine", hub_changed, 500, 1000),
         ("a file of High durability (2 edits)", "engine", high_edited, 500, 1000),
         ("a ring, cut and closed again (2 edits)", "engine", ring_cut, 1000, 2000),
         ("a file on a ring that stays (2 edits)", "engine", ring_stays, 1000, 2000),
         ("a ring, longer and shorter (2 edits)", "engine", ring_grows, 1000, 2000)]


def built(folder):
    """The program, built in the folder."""
    with open(os.path.join(folder, "crates.txt"), "w") as sink:
        for crate in CRATES:
            shutil.copytree(os.path.join(HERE, "..", "crates", crate), os.path.join(folder, "crates", crate), symlinks=True)
            for line in open(os.path.join(HERE, "..", "crates.txt")):
                if line.startswith(crate + ":"):
                    sink.write(line)
        sink.write("memos: pq_inputs pq_rules pq_memo\n")
    home = os.path.join(folder, "crates", "memos")
    os.makedirs(os.path.join(home, "src"))
    shutil.copy(os.path.join(HERE, "memos.rt.txt"), os.path.join(home, "src", "main.rt"))
    done = subprocess.run(["rt", "run"], cwd=home, input=b"", capture_output=True)
    program = os.path.join(home, "out", "memos")
    if not os.path.exists(program):
        sys.exit(done.stdout.decode() + done.stderr.decode())
    return program


def counted(words, path):
    """The instructions of one process."""
    tool = ["valgrind", "--tool=callgrind", "--callgrind-out-file=/dev/null"]
    with open(path, "rb") as source:
        done = subprocess.run(tool + words, stdin=source, capture_output=True)
    found = re.search(r"Collected : (\d+)", done.stderr.decode())
    if done.returncode or not found:
        sys.exit(done.stderr.decode())
    return int(found.group(1))


class Side:
    """One size of a case: its script, and how many rounds take about a fifth of a second."""

    def __init__(self, program, folder, how, make, n, count, title=None):
        script, self.starts = make(n)
        self.path = os.path.join(folder, "%s%s%d" % (how, title or make.__name__, n))
        self.words = [program, how]
        self.count = count
        self.best = [float("inf"), float("inf")]
        with open(self.path, "w") as sink:
            sink.write(script)
        self.check()
        self.rounds = 1 if count else self.fitting()

    def started(self, rounds):
        with open(self.path, "rb") as source:
            done = subprocess.run(self.words + [str(rounds)], stdin=source, capture_output=True)
        return int(done.stdout.split()[0])

    def check(self):
        """The second round has to start as many rules as its case says, if it says how many."""
        found = self.started(2) - self.started(1)
        if self.starts is None:
            self.starts = found
        if self.words[1] in ("engine", "first") and found != self.starts:
            sys.exit("%s: %d rules in place of %d" % (self.path, found, self.starts))

    def cost(self, rounds):
        words = self.words + [str(rounds)]
        if self.count:
            return counted(words, self.path)
        with open(self.path, "rb") as source:
            return parts.processor_time(words, source)

    def fitting(self):
        rounds = 1
        while rounds < 4096 and self.cost(rounds) - self.cost(1) < 0.05:
            rounds *= 4
        return rounds

    def run(self):
        for i in (0, 1):
            self.best[i] = min(self.best[i], self.cost(self.rounds * (1, 3)[i]))

    def value(self):
        """Microseconds, or thousands of instructions, of one round."""
        return (self.best[1] - self.best[0]) / (2 * self.rounds) * (1e-3 if self.count else 1e6)


def measured(program, runs, cases, count, side_of=Side):
    """The best of each case at both sizes. All runs of all cases take turns."""
    with tempfile.TemporaryDirectory() as folder:
        sides = [[side_of(program, folder, how, make, n, count) for n in sizes] for _, how, make, *sizes in cases]
        for _ in range(runs):
            for pair in sides:
                for side in pair:
                    side.run()
        return [[(side.value(), side.starts) for side in pair] for pair in sides]


def printed(cases, found, count):
    """Prints the table of the cases."""
    unit = "1,000 instructions" if count else "µs"
    print("| Case | sizes | %s | %s | ratio | rules started |\n|---|---|---|---|---|---|" % (unit, unit))
    for (title, _, _, n, more), ((small, _), (large, starts)) in zip(cases, found):
        print("| %s | %d, %d | %.1f | %.1f | %.2f | %d |" % (title, n, more, small, large, large / small, starts))


def options(runs):
    """The words of the command line; `runs` is the usual number of runs."""
    words = argparse.ArgumentParser()
    words.add_argument("--runs", type=int, default=runs)
    words.add_argument("--count", action="store_true", help="count instructions")
    words.add_argument("--program", help="the program, built before")
    words.add_argument("--only", default="", help="a word of the titles of the cases to run")
    return words.parse_args()


def main():
    words = options(7)
    cases = [case for case in CASES if words.only in case[0]]
    with tempfile.TemporaryDirectory() as folder:
        found = measured(words.program or built(folder), 1 if words.count else words.runs, cases, words.count)
    printed(cases, found, words.count)
    of = {case[2]: pair[1][0] for case, pair in zip(cases, found)}
    if {first_demand, files_set, from_scratch} <= set(of):
        engine, scratch = (of[case] - of[files_set] for case in (first_demand, from_scratch))
        print("\nA first demand took %.2f times as long as an answer from scratch." % (engine / scratch))
    return 0


if __name__ == "__main__":
    sys.exit(main())
