#!/usr/bin/env python3
"""Predicts the wall time of the gate, `rt ci`, by the rules by which it starts its tasks.

A crate has a proof, tests and must-fail edits. A proof waits for the proofs of all crates below, and tests wait for the
same. A crate with several edits is proved once more, as the seed that each edit begins with: it waits for the proofs below.
An edit is a task of its own, which waits for the proof, the tests and the seed; a last check of the unedited crate follows
the edits. A single edit is checked from nothing, which costs a proof. The gate starts a task once a processor is idle and
the memory that it plans for the task is free, or once nothing else runs. First come proofs and tests, by the lines of .rt
in a chain behind them; seeds and edits fill what these leave, and wait while one of them waits for memory. A proof or a
test takes idle processors as further jobs, as far as planned memory goes, and so does a seed if nothing else is ready;
an edit takes one, and seven tenths of the memory.

The gate plans memory by lines: 1 GB, 1 MB a line of .rt (tests, comments and blank lines too), 0.2 MB a line of .antt,
0.08 MB a line of .rt of each crate below, and for libraries of the kit five times what they load, at most 2.5 GB.
All tasks together may plan 85 % of the memory that is free.

The script reads lines, edits and what stands on what from the repository, and processor seconds from gate_times.tsv. The
model was compared with the toolchain's own function over the same table: 160.8 and 162.8 minutes, 214.8 and 214.9.

usage: checks/gate_model.py [--top FOLDER] [--times FILE] [--machine PROCESSORS,GIGABYTES].. [--scale FACTOR]
    --plan     also prints the plan: for each crate its memory, lines, edits and minutes
    --trace    also prints when each task starts and ends
"""
import argparse
import os
import subprocess

HERE = os.path.dirname(os.path.abspath(__file__))
SERIAL = 0.4   # minutes of a check that no second job shortens: loading, reading, the end
SHARED = 0.75  # what a further job adds to the first
LAST = 0.6     # minutes of the check of the unedited crate that follows two or more edits
OVER = 0.7     # the share of a proof's memory that the gate plans for an edit over a seed
FILLS = {"seed", "edits", "last"}
MOST = 6.4     # planned GB of a crate past which two do not run side by side on 16 GB, nor three on 24
MACHINES = ["4,23", "2,23"]  # what is free of 24 GB
# libraries of the kit that the plan does not count
SEALED = {"core", "std", "std_alloc", "std_collections", "std_heap", "std_io", "io", "libc", "os"}


class Crate:
    """What the model knows of a crate: what it uses, its lines, its edits, and processor minutes."""

    def __init__(self, name, deps, kit, lines, antt, edits):
        self.name, self.deps, self.kit, self.lines, self.antt, self.edits = name, deps, kit, lines, antt, edits
        self.proof, self.tests, self.edit, self.memory, self.budget = 1.0, 0.0, 0.7, 0.0, 0.0

    def edit_minutes(self):
        """The minutes of all edits. The first pays for a second proof; one edit alone ends within it."""
        if not self.edits:
            return 0.0
        return self.proof if self.edits == 1 else self.proof + self.edits * self.edit + LAST

    def minutes(self):
        """The minutes of the proof, the tests and the edits."""
        return self.proof + self.tests + self.edit_minutes()

    def take(self, row):
        """Takes a row of the table of times."""
        self.proof, self.tests, self.edit = [float(it) / 60 for it in row[:3]]
        self.memory, self.budget = float(row[3]), float(row[4])


def lines_below(folder, ending):
    """The lines of all files with an ending, below a folder."""
    found = 0
    for at, _, names in os.walk(folder):
        if "/out" not in at and "/must-fail" not in at:
            for name in names:
                if name.endswith(ending):
                    with open(os.path.join(at, name), "rb") as it:
                        found += it.read().count(b"\n")
    return found


def rows_of(times):
    """The rows of the table of times, by crate."""
    with open(times, encoding="utf-8") as it:
        rows = [line.partition("#")[0].split() for line in it]
    return {row[0]: row[1:] for row in rows if row}


def read(top, times):
    """The crates of the repository, by name."""
    crates, rows = {}, rows_of(times)
    with open(os.path.join(top, "crates.txt"), encoding="utf-8") as it:
        lines = [line.partition("#")[0].strip().partition(":") for line in it]
    lines = [(head.split()[0], uses.split()) for head, _, uses in lines if head]
    names = {name for name, _ in lines}
    for name, uses in lines:
        folder = os.path.join(top, "crates", name)
        fails = os.path.join(folder, "must-fail")
        edits = len([it for it in os.listdir(fails) if it.endswith(".edit")]) if os.path.isdir(fails) else 0
        deps, kit = [it for it in uses if it in names], {it for it in uses if it not in names} | {"std"}
        crates[name] = Crate(name, deps, kit, lines_below(folder, ".rt"), lines_below(folder, ".antt"), edits)
        if name in rows:
            crates[name].take(rows[name])
    return crates


def below(crates, name, found=None):
    """All crates below a crate, those at the bottom first."""
    found = [] if found is None else found
    for dep in crates[name].deps:
        below(crates, dep, found)
        if dep not in found:
            found.append(dep)
    return found


SIZES = {}


def kit_gigabytes(names):
    """What the plan adds for libraries of the kit."""
    if not SIZES:
        try:
            kit = os.path.dirname(subprocess.run(["rt", "doc"], stdout=subprocess.PIPE, text=True).stdout.strip())
        except OSError:
            kit = ""
        folder = os.path.join(kit, "rlibs")
        for name in os.listdir(folder) if os.path.isdir(folder) else []:
            file = os.path.join(folder, name, "toolchain", "checked.a")
            SIZES[name[: -len(".rlib")]] = os.path.getsize(file) / 1e9 if os.path.isfile(file) else 0.0
        SIZES[""] = 0.0
    return min(5 * sum(SIZES.get(it, 0.0) for it in names - SEALED), 2.5)


def planned(crates, name):
    """The gigabytes that the gate plans for each task of a crate."""
    it, under = crates[name], below(crates, name)
    kit = set().union(it.kit, *[crates[low].kit for low in under])
    return 1.0 + 0.001 * it.lines + 0.0002 * it.antt + 0.00008 * sum(crates[low].lines for low in under) + kit_gigabytes(kit)


def wall(cpu, jobs):
    """The wall minutes of a task by its processor minutes and its jobs."""
    serial = min(cpu, SERIAL)
    return serial + (cpu - serial) / (1 + SHARED * (jobs - 1))


def tasks_of(crates):
    """The tasks: what each waits for, its lines, its memory and its processor minutes; and the lines in a chain behind each."""
    tasks = {}
    for name in sorted(crates, key=lambda it: len(below(crates, it))):
        it, waits, needs = crates[name], [(low, "proof", 0) for low in below(crates, name)], planned(crates, name)
        own = [(name, "proof", 0), (name, "tests", 0)]
        tasks[name, "proof", 0] = waits, it.lines, needs, it.proof
        tasks[name, "tests", 0] = waits, it.lines * bool(it.tests), needs, it.tests
        if it.edits == 1:
            tasks[name, "edits", 0] = own, it.lines, needs, it.proof
        if it.edits > 1:
            tasks[name, "seed", 0] = waits, 0, needs, it.proof
            each = [(name, "edits", number) for number in range(it.edits)]
            for key in each:
                tasks[key] = [*own, (name, "seed", 0)], it.lines, OVER * needs, it.edit
            tasks[name, "last", 0] = each, 0, OVER * needs, LAST
    behind = {key: 0 for key in tasks}
    for key in reversed([*tasks]):
        behind[key] += tasks[key][1]
        for low in tasks[key][0]:
            behind[low] = max(behind[low], behind[key])
    return tasks, behind


def jobs_of(key, at, ready, proofs, idle, room, needs):
    """How many jobs the gate gives a task that it starts: a proof those that no other proof waits for, a seed those that nothing does."""
    if key[1] in FILLS - {"seed"}:
        return 1
    others = len(proofs) - proofs.index(key) if key in proofs else len(ready) - at
    return max(1, min(4, idle // others, 1 + int((room / needs - 1) / 0.6)))


def run(crates, processors, gigabytes, trace=False):
    """Returns the wall minutes, the processor minutes, and the minutes with at most one processor busy."""
    tasks, behind = tasks_of(crates)
    memory, running, given = 0.85 * gigabytes, {}, set()
    left = sorted(tasks, key=lambda it: (it[1] in FILLS, -behind[it]))
    now = total = lonely = 0.0
    while left or running:
        ready = [it for it in left if all(low in given for low in tasks[it][0])]
        proofs, lacks = [it for it in ready if it[1] not in FILLS], False
        for at, key in enumerate(ready):
            if lacks and key[1] in FILLS:
                break
            needs, cpu = tasks[key][2], tasks[key][3]
            room = memory - sum(it[1] for it in running.values())
            idle = processors - sum(it[2] for it in running.values())
            if idle > 0 and (not running or needs <= room):
                left.remove(key)
                jobs = jobs_of(key, at, ready, proofs, idle, room, needs)
                running[key] = now + wall(cpu, jobs), needs * (1 + 0.6 * (jobs - 1)), jobs
                total += cpu
                if trace and cpu:
                    print("%6.1f  %-15s %-5s jobs %d  until %6.1f  planned %4.1f GB" % (now, *key[:2], jobs, running[key][0], needs))
            else:
                lacks = lacks or idle > 0 and key in proofs
        ended = min(it[0] for it in running.values())
        lonely += (ended - now) * (sum(it[2] for key, it in running.items() if tasks[key][3]) <= 1)
        now = ended
        for key in [it for it in running if running[it][0] <= now + 1e-9]:
            given.add(key)
            del running[key]
    return now, total, lonely


def say(crates, machines, trace=False):
    """Prints what the model predicts for each machine."""
    for text in machines:
        processors, gigabytes = text.split(",")
        minutes, total, lonely = run(crates, int(processors), float(gigabytes), trace)
        print("- %d crates, %s processors, %s GB free: %.0f minutes of wall time, %.0f processor minutes; at most one processor is busy for %.0f minutes." % (len(crates), processors, gigabytes, minutes, total, lonely))


def main():
    words = argparse.ArgumentParser(usage=__doc__[__doc__.index("usage: ") + 7:])
    words.add_argument("--top", default=os.path.join(HERE, ".."))
    words.add_argument("--times", default=os.path.join(HERE, "gate_times.tsv"))
    words.add_argument("--machine", action="append", default=[])
    words.add_argument("--scale", type=float, default=1.0)
    for it in ["--plan", "--trace"]:
        words.add_argument(it, action="store_true")
    words = words.parse_args()
    crates = read(words.top, words.times)
    for it in crates.values():
        it.proof, it.tests, it.edit = it.proof * words.scale, it.tests * words.scale, it.edit * words.scale
    if words.plan:
        for name, it in crates.items():
            print("%-15s %4.1f GB  .rt %5d  .antt %5d  edits %2d  proof %5.1f  tests %5.1f  edits %5.1f" % (name, planned(crates, name), it.lines, it.antt, it.edits, it.proof, it.tests, it.edit_minutes()))
    say(crates, words.machine or MACHINES, trace=words.trace)


if __name__ == "__main__":
    main()
