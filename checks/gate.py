#!/usr/bin/env python3
"""Prints what the gate, `rt ci`, takes by crate, with the budget beside it, and runs it on demand.

Without `--run` it proves nothing: it prints a Markdown table of the processor minutes that gate_times.tsv has for each
crate, with the memory that the gate plans for it and its budget, and the wall time that gate_model.py predicts. It warns
of a crate past its budget or past the memory at which it loses its lane, and then its status is 1.

With `--run` it runs the gate at the top of the repository, best of a clean clone, and what the gate prints is passed on.
Meanwhile it looks at the processes below the gate, a few times a second, and adds the processor time of each to a crate
and a phase: its proof, its tests or its must-fail edits. It tells a process by its words: the prover is given the crate's
name, and `--test` for tests; an edit is tried in a folder of its own, `rt-edit-..`. Any other process counts as its parent
does. At the end it prints the same table of this run, the row `rest` being what no process was seen to use (work of `rt`
itself, and the last moments of each process), the run's processor and wall minutes, and rows for gate_times.tsv. The
status is that of `rt ci`.

With `--page` it writes the table and the prediction into docs/GATE.md, between its two lines of comment.

usage: checks/gate.py [--page] [--top FOLDER]
       checks/gate.py --run [--top FOLDER] [--every SECONDS]
"""
import argparse
import contextlib
import io
import os
import re
import resource
import subprocess
import sys
import threading
import time

import gate_model

HERE = os.path.dirname(os.path.abspath(__file__))
TICK = os.sysconf("SC_CLK_TCK")
PHASES = ["proof", "tests", "edits"]


def words_of(pid):
    with open("/proc/%d/cmdline" % pid, "rb") as it:
        return it.read().decode(errors="replace").split("\0")


def place_of(pid, words):
    """The crate and the phase that a process works for, by its own words and folder, or None."""
    program = os.path.basename(words[0])
    if "--crate-name" in words[:-1]:
        crate = words[words.index("--crate-name") + 1]
        folder = os.path.basename(os.readlink("/proc/%d/cwd" % pid))
        if folder.startswith("rt-edit"):
            return crate, "edits"
        return crate, "tests" if "--test" in words else "proof"
    if "/out/" in words[0]:
        crate = os.path.basename(os.path.dirname(os.path.dirname(words[0])))
        return crate, "tests" if program.endswith("_tests") else "proof"
    return None


def time_of(pid):
    """The parent of a process, when it started, and the processor seconds that it has used without its children."""
    with open("/proc/%d/stat" % pid) as it:
        # The name, in parentheses, can hold blanks.
        fields = it.read().rpartition(")")[2].split()
    return int(fields[1]), int(fields[19]), (int(fields[11]) + int(fields[12])) / TICK


def memory_of(pid):
    """The most memory that a process had at once, in GB."""
    try:
        with open("/proc/%d/status" % pid) as it:
            return next((int(line.split()[1]) / 1e6 for line in it if line.startswith("VmHWM:")), 0.0)
    except OSError:
        return 0.0


class Watch:
    """The processes below one process: the seconds of each, and what they are for."""

    def __init__(self, root):
        self.root = root
        self.seconds = {}
        self.places = {}
        self.memory = {}
        self.over = threading.Event()

    def look(self):
        """Reads the times of all processes that are below the root now."""
        parents, found = {}, {}
        for name in os.listdir("/proc"):
            if name.isdigit():
                try:
                    parents[int(name)], started, found[int(name)] = time_of(int(name))
                except OSError:
                    continue
                found[int(name)] = started, found[int(name)]
        below = {self.root: None}
        waiting = {}
        for pid, parent in parents.items():
            waiting.setdefault(parent, []).append(pid)
        line = [self.root]
        while line:
            parent = line.pop()
            for pid in waiting.get(parent, []):
                line.append(pid)
                below[pid] = self.add(pid, found[pid], below[parent])

    def add(self, pid, found, above):
        """Keeps the time of a process, and gives its place. A number may serve for one process after another."""
        started, seconds = found
        try:
            place = place_of(pid, words_of(pid)) or above
        except OSError:
            place = self.places.get((pid, started), above)
        if (pid, started) not in self.places or place:
            self.places[pid, started] = place
        self.seconds[pid, started] = seconds
        if place:
            self.memory[place[0]] = max(self.memory.get(place[0], 0.0), memory_of(pid))
        return place

    def run(self, every):
        while not self.over.wait(every):
            self.look()

    def table(self):
        """The seconds of each crate and phase."""
        sums = {}
        for key, seconds in self.seconds.items():
            place = self.places[key]
            if place:
                sums[place] = sums.get(place, 0.0) + seconds
        return sums


def cells(values):
    """Minutes as cells of a row; nothing for none."""
    return " | ".join("%.1f" % it if it > 0.04 else "" for it in values)


def table(minutes, crates):
    """Prints the table, the dearest crate first. The minutes are those of each crate and phase."""
    print("| Crate | planned GB | %s | sum | budget |" % " | ".join(PHASES))
    print("|%s" % ("---|" * (len(PHASES) + 4)))
    sums = {name: [minutes.get((name, phase), 0.0) for phase in PHASES] for name in crates}
    for name in sorted(crates, key=lambda it: -sum(sums[it])):
        print("| `%s` | %.1f | %s | %g |" % (name, gate_model.planned(crates, name), cells(sums[name] + [sum(sums[name])]), crates[name].budget))
    whole = [sum(it[at] for it in sums.values()) for at in range(len(PHASES))]
    print("| all | | %s | %g |" % (cells(whole + [sum(whole)]), sum(it.budget for it in crates.values())))
    return {name: sum(it) for name, it in sums.items()}


def warn(sums, crates):
    """Says which crates are past their budget or lose their lane, and returns how many."""
    found = 0
    for name, it in crates.items():
        if sums[name] > it.budget + 0.05:
            found += 1
            print("warning: %s takes %.1f processor minutes, and its budget is %g" % (name, sums[name], it.budget))
        if gate_model.planned(crates, name) > gate_model.MOST:
            found += 1
            print("warning: the gate plans %.1f GB for %s, more than %.1f" % (gate_model.planned(crates, name), name, gate_model.MOST))
    return found


def predicted(top):
    """Prints the table of the figures in gate_times.tsv and the model's wall time, and returns the sums and the crates."""
    times = os.path.join(HERE, "gate_times.tsv")
    crates = gate_model.read(top, times)
    minutes = {}
    for name, it in crates.items():
        minutes.update(zip([(name, phase) for phase in PHASES], [it.proof, it.tests, it.edit_minutes()]))
    sums = table(minutes, crates)
    print()
    gate_model.say(crates, gate_model.MACHINES)
    return sums, crates


def page(top):
    """Writes the table and the prediction into docs/GATE.md, between its two lines of comment."""
    wrote = io.StringIO()
    with contextlib.redirect_stdout(wrote):
        predicted(top)
    path = os.path.join(top, "docs", "GATE.md")
    with open(path, encoding="utf-8") as it:
        text = it.read()
    text = re.sub(r"(<!-- by checks/gate.py -->\n).*?(<!-- end -->)", lambda it: it[1] + wrote.getvalue() + it[2], text, flags=re.S)
    with open(path, "w", encoding="utf-8") as it:
        it.write(text)


def rows(watch, sums, crates):
    """Prints what was seen as rows of gate_times.tsv."""
    for name, it in crates.items():
        proof, tests, edits = [sums.get((name, phase), 0.0) for phase in PHASES]
        edit = max(0.0, (edits - proof - 60 * gate_model.LAST) / it.edits) if it.edits > 1 else 60 * it.edit
        print("%s\t%.0f\t%.0f\t%.0f\t%.1f\t%g" % (name, proof, tests, edit, watch.memory.get(name, 0.0), it.budget))


def measured(top, every):
    """Runs the gate, prints what it took, and returns its status."""
    before = time.monotonic()
    gate = subprocess.Popen(["rt", "ci"], cwd=top, stdin=subprocess.DEVNULL)
    watch = Watch(gate.pid)
    watcher = threading.Thread(target=watch.run, args=(every,), daemon=True)
    watcher.start()
    try:
        status = gate.wait()
    except KeyboardInterrupt:
        gate.terminate()
        status = gate.wait()
    watch.over.set()
    watcher.join()
    wall = (time.monotonic() - before) / 60
    used = resource.getrusage(resource.RUSAGE_CHILDREN)
    total = (used.ru_utime + used.ru_stime) / 60
    print(flush=True)
    crates, sums = gate_model.read(top, os.path.join(HERE, "gate_times.tsv")), watch.table()
    seen = table({key: it / 60 for key, it in sums.items()}, crates)
    print("| rest | | | | | %.1f | |" % max(0.0, total - sum(sums.values()) / 60))
    print("\n%.1f processor minutes, %.1f minutes, on %d processors\n" % (total, wall, len(os.sched_getaffinity(0))))
    rows(watch, sums, crates)
    warn(seen, crates)
    return status


def main():
    words = argparse.ArgumentParser(usage=__doc__[__doc__.index("usage: ") + 7:])
    words.add_argument("--top", default=os.path.join(HERE, ".."), help="the top of the repository")
    words.add_argument("--run", action="store_true", help="run the gate and time it")
    words.add_argument("--page", action="store_true", help="write the table into docs/GATE.md")
    words.add_argument("--every", type=float, default=0.25, help="seconds between two looks at the processes")
    words = words.parse_args()
    if words.run:
        return measured(words.top, words.every)
    if words.page:
        page(words.top)
    return 1 if warn(*predicted(words.top)) else 0


if __name__ == "__main__":
    sys.exit(main())
