#!/usr/bin/env python3
"""Proves crates of two trees, each pair at the same time, and prints what they take and the ratio.

Machines differ, and one machine differs from hour to hour: crates that had not changed took 1.2 to 1.6 times as long in
another run of the gate (bench/results/gate.txt). What is proved at the same time shares that. So the ratio, times what the crate
took in the run by which the budgets were set, is what a budget of docs/GATE.md is compared with.

Each crate is proved from nothing, as `rt ci` proves it, over the crates below it in its tree, which have to be proved: run
`rt ci` in both trees before, or copy the folders out/ of crates that are the same. Nothing is written into the trees. It is
meant for libraries, and was tried with some that start no thread. A library that carries its statements, as this script makes it,
loads faster than one of `rt check`: `pq_core` took 4 % more over such a `pq_memo`. So both trees must have a library in one form.

usage: checks/beside.py BEFORE NOW CRATE..
"""
import os
import subprocess
import sys
import tempfile


def libraries(tree):
    """The crates of a tree by name, each with the libraries that it uses."""
    found = {}
    with open(os.path.join(tree, "crates.txt")) as file:
        for line in file:
            name, colon, used = line.split("#")[0].partition(":")
            if colon:
                found[name.split()[0]] = used.split()
    return found


def below(crates, name):
    """The crates of the tree below a crate."""
    found = []
    for it in crates[name]:
        if it in crates:
            found += [low for low in below(crates, it) + [it] if low not in found]
    return found


def words_of(kit, tree, name, into):
    """The command that proves a crate."""
    crates = libraries(tree)
    kept = {it: os.path.join(tree, "crates", it, "out", "rlib") for it in crates}
    kits = os.path.join(kit, "rlibs")
    words = [os.path.join(kit, "bin", "rattle"), "build", "--crate-name", name, "src/lib.rt", "-L", "dependency=" + kits]
    for it in ["std"] + crates[name]:
        words += ["--extern", "%s=%s.rlib" % (it, os.path.join(kept.get(it, kits), it))]
    for it in below(crates, name):
        words += ["-L", "dependency=" + kept[it]]
    return words + ["--antt-project", os.path.join(kit, "rattle", "logic", "antt-project.json"), "--logic-built", os.path.join(kit, "logic_built"),
                    "--links", name + "=", "--jobs", "1", "--statements", "-o", os.path.join(into, name + ".rlib"), "--empty-contracts"]


def carries_statements(tree, name):
    """Whether the library of a crate was made by the words of this script, and not by those of `rt check`."""
    with open(os.path.join(tree, "crates", name, "out", "rlib", name + ".rlib", "format")) as file:
        return "carries %s\n" % name in file


def check_forms(trees, name):
    """Stops where the trees have a crate below in two forms."""
    for low in sorted(set.intersection(*[set(below(libraries(tree), name)) for tree in trees])):
        if len({carries_statements(tree, low) for tree in trees}) > 1:
            sys.exit("the library of %s carries its statements in one tree alone" % low)


def begun(kit, tree, name, into):
    """The process that proves a crate of a tree."""
    with open(os.path.join(into, "said"), "w") as said:
        return subprocess.Popen(words_of(kit, tree, name, into), cwd=os.path.join(tree, "crates", name), stdout=said, stderr=said)


def seconds(process, into):
    """The processor seconds that a process used, once it has ended."""
    _, status, used = os.wait4(process.pid, 0)
    if status:
        with open(os.path.join(into, "said")) as said:
            sys.exit(said.read()[-2000:])
    return used.ru_utime + used.ru_stime


def main():
    if len(sys.argv) < 4:
        sys.exit(__doc__.split("\n\n")[-1])
    kit = os.path.dirname(subprocess.run(["rt", "doc"], capture_output=True, text=True, check=True).stdout.strip())
    trees = [os.path.realpath(it) for it in sys.argv[1:3]]
    print("| Crate | before | now | ratio |\n|---|---|---|---|")
    for name in sys.argv[3:]:
        check_forms(trees, name)
        with tempfile.TemporaryDirectory() as first, tempfile.TemporaryDirectory() as second:
            pairs = [(begun(kit, tree, name, into), into) for tree, into in zip(trees, (first, second))]
            before, now = [seconds(*it) for it in pairs]
            print("| `%s` | %.0f s | %.0f s | %.2f |" % (name, before, now, now / before), flush=True)


if __name__ == "__main__":
    main()
