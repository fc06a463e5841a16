#!/usr/bin/env python3
"""Runs the random tests: sets of files, scripts and lists of events drawn from a seed, each beside a plain model.

They are modules of the crates of tests, in checks/random_models/CRATE/ at the paths that they have in the crate. Their names end in
.rt.txt, since the gate wants each .rt file to be one that it proves. This script copies the repository's crates into a scratch
folder, puts the modules in as .rt files, and runs all tests of these crates by `rt try`, which compiles without a proof. A
module is declared in the file above it, in lib.rt as one of tests. What the modules use beside what their crate uses stands in
checks/random_models/uses.txt.

The gate does not run them, since it proves each test, and they are nearly half of what three crates had. Whoever changes a rule, the engine, the core or
`play` runs those of the crate that compares it before the change lands. The status is 1 where a test fails.

usage: checks/random_models.py [CRATE..] [--seconds N]
"""
import argparse
import os
import shutil
import subprocess
import sys
import tempfile

HERE = os.path.dirname(os.path.abspath(__file__))
TOP = os.path.dirname(HERE)
MODULES = os.path.join(HERE, "random_models")
SUFFIX = ".rt.txt"


def declare(above, name, is_root):
    """Declares the module `name` in the file above it, before the first line that is no comment and no attribute."""
    with open(above, encoding="utf-8") as it:
        lines = it.read().split("\n")
    first = next(n for n, line in enumerate(lines) if line and not line.startswith(("//", "#![")))
    lines[first:first] = (["#[cfg(test)]"] if is_root else []) + ["mod %s;" % name]
    with open(above, "w", encoding="utf-8") as it:
        it.write("\n".join(lines))


def put_in(crate, folder):
    """Puts the random modules of a crate into its copy."""
    source, target = os.path.join(MODULES, crate, "src"), os.path.join(folder, "crates", crate, "src")
    for at, _, names in os.walk(source):
        into = os.path.join(target, os.path.relpath(at, source))
        # The modules below a module that is put in are declared by it.
        is_below = os.path.isfile(at + SUFFIX)
        for name in sorted(names):
            os.makedirs(into, exist_ok=True)
            module = name[: -len(SUFFIX)]
            shutil.copy(os.path.join(at, name), os.path.join(into, module + ".rt"))
            if not is_below:
                is_root = os.path.samefile(into, target)
                declare(os.path.join(target, "lib.rt") if is_root else os.path.normpath(into) + ".rt", module, is_root)


def uses_of(path):
    """What each crate uses by a table such as crates.txt."""
    with open(path, encoding="utf-8") as it:
        lines = [line.partition("#")[0].partition(":") for line in it]
    return {name.strip(): uses.split() for name, _, uses in lines if name.strip()}


def copy(folder, crates):
    """A copy of the repository's crates with the random modules of `crates`."""
    shutil.copytree(os.path.join(TOP, "crates"), os.path.join(folder, "crates"), ignore=shutil.ignore_patterns("out", "must-fail"))
    uses, more = uses_of(os.path.join(TOP, "crates.txt")), uses_of(os.path.join(MODULES, "uses.txt"))
    with open(os.path.join(folder, "crates.txt"), "w", encoding="utf-8") as it:
        for name, used in uses.items():
            it.write("%s: %s\n" % (name, " ".join(used + more.get(name.split()[0], []))))
    for crate in crates:
        put_in(crate, folder)


def main():
    all_crates = sorted(name for name in os.listdir(MODULES) if os.path.isdir(os.path.join(MODULES, name)))
    words = argparse.ArgumentParser()
    words.add_argument("crates", nargs="*", default=all_crates)
    words.add_argument("--seconds", type=int, default=3600)
    words = words.parse_args()
    failed = []
    with tempfile.TemporaryDirectory() as folder:
        copy(folder, words.crates)
        for crate in words.crates:
            print("== " + crate, flush=True)
            run = ["rt", "try", "--test", "--seconds", str(words.seconds)]
            if subprocess.run(run, cwd=os.path.join(folder, "crates", crate)).returncode:
                failed.append(crate)
    if failed:
        sys.exit("failed: " + " ".join(failed))


if __name__ == "__main__":
    main()
