#!/usr/bin/env python3
"""Lists the files that `rt fmt` would change, and the scripts that have the name of a standard module of Python.

The status is 1 if there is one. The gate refuses a file of the first kind only when it comes to its crate, which may be after
half an hour; this takes some seconds. It lays out a copy of the crates, and changes nothing here. A script `random.py` would be
imported in place of Python's `random` by all scripts beside it, also where a standard module imports that.

It needs Python 3.10, the first that lists its standard modules.

usage: checks/layout.py [--top FOLDER]
"""
import os
import sys

HERE = os.path.dirname(os.path.realpath(__file__))
# A script of this folder that has the name of a standard module must not stop this one.
sys.path = [it for it in sys.path if os.path.realpath(it) != HERE]

import argparse
import filecmp
import shutil
import subprocess
import tempfile

TOP = os.path.dirname(HERE)
PASSED_OVER = {".git", "out", "target"}


def files_of(folder):
    """The paths of the files below a folder, from there."""
    found = []
    for at, folders, names in os.walk(folder):
        folders[:] = [it for it in folders if it not in PASSED_OVER]
        found += [os.path.relpath(os.path.join(at, name), folder) for name in names]
    return sorted(found)


def changed(top):
    """The files that `rt fmt` changes in a copy of the crates."""
    with tempfile.TemporaryDirectory() as copy:
        crates = os.path.join(copy, "crates")
        shutil.copytree(os.path.join(top, "crates"), crates, ignore=shutil.ignore_patterns("out"))
        shutil.copy(os.path.join(top, "crates.txt"), copy)
        for name in sorted(os.listdir(crates)):
            subprocess.run(["rt", "fmt"], cwd=os.path.join(crates, name), check=True, stdout=subprocess.DEVNULL)
        return [it for it in files_of(crates) if not filecmp.cmp(os.path.join(crates, it), os.path.join(top, "crates", it), shallow=False)]


def shadowing(top):
    """The scripts that have the name of a standard module."""
    return [it for it in files_of(top) if it.endswith(".py") and os.path.basename(it)[:-len(".py")] in sys.stdlib_module_names]


def main():
    parser = argparse.ArgumentParser(usage=__doc__.split("usage: ")[1])
    parser.add_argument("--top", default=TOP)
    top = os.path.realpath(parser.parse_args().top)
    if sys.version_info < (3, 10):
        sys.exit("checks/layout.py needs Python 3.10 or later, and this is %d.%d" % sys.version_info[:2])
    found = ["%s: Python has a standard module of this name" % it for it in shadowing(top)]
    found += ["crates/%s: rt fmt would change it" % it for it in changed(top)]
    for line in found:
        print(line)
    return 1 if found else 0


if __name__ == "__main__":
    sys.exit(main())
