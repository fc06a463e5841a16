#!/usr/bin/env python3
"""Lists what a check saved of each function of a crate, the largest first: the cheapest measure of what a proof costs.

It reads the folder out/incremental that `rt check` left, so it takes no processor time and is the same on a busy machine.
A function costs about half a processor second a megabyte in a check from nothing, beside its searches. What else is checked
from nothing is counted by `rt check --progress` at the function that comes next: so a function that looks dear there and is
small here is not dear by itself.

usage: checks/steps.py CRATE.. [--most N]
"""
import argparse
import collections
import os
import re

TOP = os.path.realpath(os.path.join(os.path.dirname(os.path.abspath(__file__)), ".."))
KINDS = [("format", lambda x: x.endswith(".fmt")), ("equality and order", lambda x: x.rsplit(".", 1)[-1] in ("eq", "cmp", "partial_cmp")), ("drop", lambda x: "Destruct" in x), ("functions", lambda x: True)]


def sizes(crate):
    """Bytes by function: all that was saved of it, and its steps alone; and what belongs to no function."""
    kept = os.path.join(TOP, "crates", crate, "out", "incremental")
    kept = os.path.join(kept, max(os.listdir(kept), key=lambda x: os.path.getmtime(os.path.join(kept, x))))
    head = "Rattle-%s-proofs." % crate
    names = [x[:-len(".oantt")] for x in os.listdir(kept) if x.endswith(".oantt")]
    functions = {x[len(head):-len(".Lts")] for x in names if x.startswith(head) and x.endswith(".Lts")}
    whole, steps, rest = collections.Counter(), collections.Counter(), 0
    for name in names:
        size = os.path.getsize(os.path.join(kept, name + ".oantt"))
        parts = name[len(head):].split(".") if name.startswith(head) else []
        owner = next((".".join(parts[:n]) for n in range(len(parts), 0, -1) if ".".join(parts[:n]) in functions), None)
        in_cycle = re.match(r"(.*\.\+\w+)\.Lts-(\w+)$", name[len(head):]) if name.startswith(head) else None
        if in_cycle:
            owner = in_cycle[1] + " " + in_cycle[2]
        if owner:
            whole[owner] += size
            steps[owner] += size if name.endswith(".Lts") or in_cycle else 0
        else:
            rest += size
    return whole, steps, rest


def main():
    words = argparse.ArgumentParser()
    words.add_argument("crates", nargs="+")
    words.add_argument("--most", type=int, default=20)
    words = words.parse_args()
    for crate in words.crates:
        whole, steps, rest = sizes(crate)
        kinds = collections.Counter()
        for name, size in whole.items():
            kinds[next(kind for kind, test in KINDS if test(name))] += size
        print("%s: %d functions, %.1f MB; beside them %.1f MB; %s" % (crate, len(whole), sum(whole.values()) / 1e6, rest / 1e6, ", ".join("%s %.1f" % (kind, kinds[kind] / 1e6) for kind, _ in KINDS)))
        for name, size in whole.most_common(words.most):
            print("%7.1f MB, steps %5.1f  %s" % (size / 1e6, steps[name] / 1e6, name))


if __name__ == "__main__":
    main()
