#!/usr/bin/env python3
"""Runs neovim with `stdio` over a tree of real files, makes checkouts with git under it, and compares the diagnostics it shows.

FOLDER is a root: imports are written from it. Its .proto files are copied into a new repository, as branch `one`. On branch `two`
at most N files have a message renamed that files which import them use as a field's type. Those importers that are the same on
both branches are opened in neovim, and each gets a comment as its first line, unsaved. Then git checks out `two`, `one` and `two`,
and nobody tells the editor. Right are line, column and text of what `script --loose` of the same program says of the branch's
files, with the texts of the buffers in their places. The buffers have ten seconds to show that after each checkout, and have to
show it a second later too.

It prints a line for the tree, and one for each step: how many buffers are right, and the seconds from the end of the checkout to
the last of them. The status is 1 if a buffer is not right. Where no neovim is that it can run, that is printed, and the status is
0. PROGRAM is by default the one that was built without a proof.

usage: checks/editors/checkouts.py --tree FOLDER [--program PROGRAM] [--files N]
"""
import argparse
import contextlib
import json
import os
import re
import signal
import subprocess
import sys
import tempfile
import time

HERE = os.path.dirname(os.path.realpath(__file__))
sys.path.append(os.path.dirname(HERE))

from real_files import PROTO3
from run import LIMIT, PROGRAM, Neovim, block
from server_process import write
from stdio_client import shown_by_rights
from stdio_disk import git
from texts import texts_in

IMPORT = re.compile(r'^import\s+(?:public\s+)?"([^"]+)"', re.M)
MESSAGE = re.compile(r"^message\s+(\w+)", re.M)
FIELD = re.compile(r"^\s+(?:(?:repeated|optional)\s+)?\.?(?:\w+\.)*(\w+)\s+\w+\s*=\s*\d", re.M)
# The line that each buffer gets at its top.
LINE = "// not saved"
# The branch at each step. The first one is there when the files are opened.
STEPS = ["one", "two", "one", "two"]


def users_of(texts):
    """For each file and message of it, the proto3 files that import the file and seem to use the message as a field's type."""
    found = {}
    for user, text in texts.items():
        types = set(FIELD.findall(text)) - set(MESSAGE.findall(text))
        for name in IMPORT.findall(text) if PROTO3.search(text) else []:
            for message in types.intersection(MESSAGE.findall(texts.get(name, ""))):
                found.setdefault((name, message), set()).add(user)
    return found


def chosen(texts, most):
    """A message of each of at most `most` files, those with many users first, and the users of these messages in other files."""
    users, messages, kept = users_of(texts), {}, set()
    for (name, message), its in sorted(users.items(), key=lambda it: (-len(it[1]), it[0])):
        others = sorted(its - messages.keys(), key=lambda it: (it not in kept, it))
        if others and name not in messages and name not in kept and len(messages) < most:
            messages[name] = message
            kept.add(others[0])
    return messages, sorted({user for it in messages.items() for user in users[it]} - messages.keys())


def renamed(text, message):
    """A text with another name of a message, but in the paths of imports."""
    return re.sub(r'(?<!["/])\b%s\b' % message, message + "OfTwo", text)


def lists_of(program, texts, names):
    """What is right for the buffers of some files, in neovim's units: lines and columns from 0, these in bytes, and texts."""
    files, found = {**texts, **{name: "%s\n%s" % (LINE, texts[name]) for name in names}}, {}
    right = shown_by_rights(program, files)
    for name in names:
        lines, found[name] = files[name].split("\n"), []
        for it in right[name]:
            line, column = it["range"]["start"]["line"], it["range"]["start"]["character"]
            before = lines[line].encode("utf-16-le")[:2 * column].decode("utf-16-le")
            found[name].append([line, len(before.encode()), it["message"]])
        found[name].sort()
    return found


def repository(folder, states):
    """Makes a repository with a branch for each state, and checks out the first."""
    os.mkdir(folder)
    git(folder, "init", "-q", "-b", "none")
    for branch, files in states.items():
        git(folder, "checkout", "-q", "-b", branch)
        write(folder, files)
        git(folder, "add", "-A", ".")
        git(folder, "commit", "-q", "-m", branch)
    git(folder, "checkout", "-q", STEPS[0])


@contextlib.contextmanager
def neovim(place, folder, program):
    """Neovim with the lines of docs/EDITORS.md in a folder. It is ended behind that."""
    write(place, {"lines.lua": block("Neovim", "lua", 1).replace("/path/bin/pq_server", program), "home/none": ""})
    command = ["nvim", "--headless", "-n", "-i", "NONE", "-u", os.path.join(place, "lines.lua"),
               "-c", "luafile " + os.path.join(HERE, "checkouts.lua")]
    environment = {"PATH": os.environ["PATH"], "HOME": os.path.join(place, "home"), "PLACE": place}
    with open(os.path.join(place, "printed"), "wb") as printed:
        process = subprocess.Popen(command, cwd=folder, env=environment, stdin=subprocess.PIPE, stdout=printed,
                                   stderr=subprocess.STDOUT, start_new_session=True)
    try:
        yield process
    finally:
        with contextlib.suppress(ProcessLookupError):
            os.killpg(process.pid, signal.SIGKILL)
        process.wait()
        process.stdin.close()


def ended(place, process, number):
    """The seconds of a step, and what is wrong at its end."""
    path, end = os.path.join(place, "ended %d" % number), time.monotonic() + LIMIT
    while not os.path.exists(path):
        if process.poll() is not None or time.monotonic() > end:
            with open(os.path.join(place, "printed"), encoding="utf-8", errors="replace") as printed:
                sys.exit("checks/editors/checkouts.py: neovim did not end step %d; it printed %r" % (number, printed.read()))
        time.sleep(0.05)
    with open(path, encoding="utf-8") as source:
        return json.load(source)


def are_right(place, program, states, lists, names):
    """Makes the steps, and prints their lines. Returns whether all buffers were right after each."""
    folder, holds = os.path.join(place, "work"), True
    repository(folder, states)
    write(place, {"steps": json.dumps({"names": names, "line": LINE, "lists": [lists[branch] for branch in STEPS]})})
    with neovim(place, folder, program) as process:
        for number, branch in enumerate(STEPS, 1):
            git(folder, "checkout", "-q", branch)
            write(place, {"begun %d" % number: ""})
            seconds, wrong = ended(place, process, number)
            what = "checkout of " + branch if number > 1 else "opened"
            count = len(names) - len(wrong)
            print("    %-16s %d of %d buffers are right, after %.2f s" % (what, count, len(names), seconds), flush=True)
            for name, shown in wrong:
                print("        %s: shown %s, wanted %s" % (name, json.dumps(shown), json.dumps(lists[branch][name])))
            holds = holds and not wrong
    return holds


def main():
    words = argparse.ArgumentParser(usage=__doc__.split("usage: ")[1])
    words.add_argument("--tree", required=True, metavar="FOLDER")
    words.add_argument("--program", default=PROGRAM)
    words.add_argument("--files", type=int, default=16, metavar="N")
    words = words.parse_args()
    program, editor = os.path.realpath(words.program), Neovim()
    if not os.access(program, os.X_OK):
        sys.exit("checks/editors/checkouts.py: %s is not there" % program)
    if not editor.version() or editor.lacks():
        print("skipped: neovim 0.7 to 0.9 is not here")
        return 0
    texts = texts_in(words.tree)
    messages, names = chosen(texts, words.files)
    states = {"one": texts, "two": {**texts, **{name: renamed(texts[name], message) for name, message in messages.items()}}}
    lists = {branch: lists_of(program, files, names) for branch, files in states.items()}
    count = sum(lists["one"][name] != lists["two"][name] for name in names)
    print("%s: %d files; renamed is a message in %d; of %d that are open %d change their lists"
          % (os.path.basename(os.path.abspath(words.tree)), len(texts), len(messages), len(names), count), flush=True)
    if not count:
        sys.exit("checks/editors/checkouts.py: no list changes, so nothing is tried")
    with tempfile.TemporaryDirectory(ignore_cleanup_errors=True) as place:
        return 0 if are_right(os.path.realpath(place), program, states, lists, names) else 1


if __name__ == "__main__":
    sys.exit(main())
