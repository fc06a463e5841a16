#!/usr/bin/env python3
"""Compares the public contracts of two commits: which are gone, which are new, and which differ.

A contract is the signature of a function and its clauses (`requires`, `ensures`, `ghost`), with the head of the `impl` that it is in.
Comments are left out and white space is folded. A function is known by its crate, its type and its name, so one that moved to another
file is the same. Compared are these:
- each `pub fn` that lib.rt passes on by `pub use`, or that is in lib.rt or in a module that is public there
- each `pub fn` of a type that lib.rt passes on
- each function of a trait that lib.rt passes on, and those of the impls of traits for a type that it passes on

A name in a clause is one of a definition, by the `ghost use` lines of the file. Where the words are the same and a name is that of
another definition, the contract differs. What the definitions themselves say is not compared, and neither are the views of types.

Without NEW the second state is that of the files as they are. The status is 1 if a contract is gone or differs; new ones are listed.

usage: checks/contracts.py OLD [NEW] [--crate NAME].. [--top FOLDER]
"""
import argparse
import collections
import difflib
import glob
import os
import re
import subprocess
import sys

import reach

CRATES = ["pq_core", "pq_play"]
# What is no structure: comments, strings, characters. A lifetime is none of these.
QUIET = re.compile(r"""(?P<comment>//[^\n]*|/\*.*?\*/)|r(?P<raw>#*)".*?"(?P=raw)|"(?:\\.|[^"\\])*"|'(?:\\[^\n']+|\\'|[^'\\])'""", re.S)
SEEN = r"(?P<seen>pub(?:\([^)]*\))?\s+)?"
FUNCTION = re.compile(SEEN + r"(?:(?:const|unsafe|async)\s+)*fn\s+(?P<name>\w+)")
BLOCK = re.compile(SEEN + r"(?:unsafe\s+)?(?P<kind>impl|trait|mod)\b\s*(?P<name>\w*)")
# These end at a semicolon, whatever braces they have.
LONG = re.compile(SEEN + r"(?:use|ghost|const|static|type)\b")
CLAUSE = re.compile(r"(?:\b(?:requires|ensures)\b\*?(?:\s+[^\s{]+)?|\bghost\s+\w+\s*[:=]|=)\s*$")
CLOSING = {"(": ")", "[": "]", "{": "}"}
Contract = collections.namedtuple("Contract", "lines names")
# A function: the block that it is in, the match of its head, and where its signature and each clause are in the text of its file.
Found = collections.namedtuple("Found", "block head places")


def folded(text):
    return " ".join(text.split())


def blanked(text, which):
    """The text with spaces in place of comments, or of strings and characters too."""
    return QUIET.sub(lambda it: " " * len(it.group()) if which == "all" or it.group("comment") else it.group(), text)


def without_angles(text):
    """The text without what is between `<` and `>`."""
    depth, found = 0, []
    for at, sign in enumerate(text):
        if sign == "<":
            depth += 1
        elif sign == ">" and text[at - 1] not in "-=":
            depth -= 1
        elif depth == 0:
            found.append(sign)
    return "".join(found)


class Source:
    """The functions of a file of src/."""

    def __init__(self, text):
        self.whole, self.text, self.shape = text, blanked(text, "comments"), blanked(text, "all")
        self.table, self.traits, self.functions = {}, set(), []
        for line in text.splitlines():
            reach.note_import(line, self.table)
        self.items(0, len(self.shape), None)

    def closed(self, at):
        """The place after the bracket that closes the one at `at`."""
        want = [CLOSING[self.shape[at]]]
        while want:
            at += 1
            if self.shape[at] in CLOSING:
                want.append(CLOSING[self.shape[at]])
            elif self.shape[at] == want[-1]:
                want.pop()
        return at + 1

    def next_mark(self, at, end):
        """The place of the next `{` or `;` outside of brackets."""
        while at < end and self.shape[at] not in "{;":
            at = self.closed(at) if self.shape[at] in "([" else at + 1
        return at

    def items(self, at, end, block):
        tested = False
        while at < end:
            if self.shape[at].isspace():
                at += 1
            elif self.shape[at] == "#":
                start, at = at, self.closed(self.shape.index("[", at))
                tested = tested or "cfg(test)" in self.shape[start:at]
            else:
                at = self.item(at, end, block, tested)
                tested = False

    def item(self, start, end, block, tested):
        """Notes the item that begins at `start`, and returns the place after it."""
        at = self.next_mark(start, end)
        head = self.shape[start:at]
        function, inner = FUNCTION.match(head), BLOCK.match(head)
        if function:
            return self.function(start, end, block, function, tested)
        if LONG.match(head):
            while at < end and self.shape[at] == "{":
                at = self.next_mark(self.closed(at), end)
            return at + 1
        if at >= end or self.shape[at] == ";":
            return at + 1
        after = self.closed(at)
        if inner and not tested:
            if inner.group("kind") == "trait":
                self.traits.add(inner.group("name"))
            about = block if inner.group("kind") == "mod" else (inner.group("kind"), inner.group("seen"), folded(self.text[start:at]))
            self.items(at + 1, after - 1, about)
        return after

    def function(self, start, end, block, function, tested):
        places, at, last = [], start, start
        while True:
            at = self.next_mark(at, end)
            clause = CLAUSE.search(self.shape[last:at]) if at < end and self.shape[at] == "{" else None
            if not clause:
                break
            if not clause.group().startswith("="):
                places.append((last, last + clause.start()))
                last += clause.start()
            at = self.closed(at)
        places.append((last, at))
        if not tested:
            self.functions.append(Found(block, function, places))
        return self.closed(at) if at < end and self.shape[at] == "{" else at + 1

    def lines(self, found):
        """The signature of a function and its clauses."""
        return [line for line in (folded(self.text[start:end]) for start, end in found.places) if line]


def about(header):
    """The trait, if any, and the type of the head of an `impl`."""
    words = re.split(r"\bwhere\b", without_angles(header))[0]
    names = [re.findall(r"\w+", part)[-1] for part in re.sub(r"^(?:unsafe\s+)?impl\b", "", words).split(" for ")]
    return (names[0] if len(names) > 1 else None), names[-1]


class Crate:
    """The public contracts of a crate, by name."""

    def __init__(self, files):
        self.sources = {path: Source(text) for path, text in sorted(files.items())}
        lib = next((blanked(text, "all") for path, text in files.items() if path == "lib.rt"), "")
        self.passed_on, self.open = set(), {"lib"} | set(re.findall(r"^pub mod (\w+)", lib, re.M))
        for use in re.finditer(r"^pub use ([\w:]+?)(?:::\{([^}]*)\}|::(\*))?;", lib, re.M):
            path, names, all_of = use.groups()
            if all_of:
                self.open.add(path.split("::")[-1])
            self.passed_on |= {name.split(" as ")[0].strip() for name in (names or path.split("::")[-1]).split(",")} - {""}
        self.traits = set().union(*(it.traits for it in self.sources.values()))
        found = collections.defaultdict(list)
        for path, source in self.sources.items():
            for function in source.functions:
                name = self.name_of(path, function)
                if name:
                    lines = ([function.block[2]] if function.block else []) + source.lines(function)
                    words = {word for line in lines for word in reach.TOKEN.findall(line)}
                    found[name].append((lines, {word: ".".join(source.table[word]) for word in words if word in source.table}))
        self.contracts = {name: Contract([line for lines, _ in sorted(all_of, key=str) for line in lines],
                                         {word: to for _, names in all_of for word, to in names.items()}) for name, all_of in found.items()}

    def is_open(self, path, name):
        return name in self.passed_on or re.split(r"[/.]", path)[0] in self.open

    def name_of(self, path, function, inside=False):
        """The name of a function, if it can be reached from outside, or if it is wanted from inside too."""
        name, is_pub = function.head.group("name"), (function.head.group("seen") or "").strip() == "pub"
        if function.block is None:
            return name if inside or is_pub and self.is_open(path, name) else None
        kind, seen, header = function.block
        if kind == "trait":
            of = re.search(r"\btrait\s+(\w+)", header).group(1)
            return "%s::%s" % (of, name) if inside or (seen or "").strip() == "pub" and self.is_open(path, of) else None
        trait, of = about(header)
        if not (inside or self.is_open(path, of)):
            return None
        if trait:
            return "<%s as %s>::%s" % (of, trait, name) if inside or trait not in self.traits or self.is_open(path, trait) else None
        return "%s::%s" % (of, name) if inside or is_pub else None


def git(top, *words):
    done = subprocess.run(["git", "-C", top, *words], capture_output=True, text=True, encoding="utf-8")
    return done.stdout if done.returncode == 0 else sys.exit(done.stderr.strip())


def files_of(top, commit, crate):
    """The files of src/ of a crate, without tests, by their paths from there."""
    folder = "crates/%s/src/" % crate
    if commit:
        paths = git(top, "ls-tree", "-r", "--name-only", commit, folder).splitlines()
    else:
        paths = [os.path.relpath(it, top) for it in glob.glob(os.path.join(top, folder, "**", "*"), recursive=True)]
    found = {}
    for path in paths:
        if path.endswith(".rt") and "/src/tests" not in path:
            if commit:
                found[path[len(folder):]] = git(top, "show", "%s:%s" % (commit, path))
            else:
                with open(os.path.join(top, path), encoding="utf-8") as file:
                    found[path[len(folder):]] = file.read()
    if not found:
        sys.exit("%s has no crate %s" % (commit or top, crate))
    return found


def shown(crate, name, what, lines):
    print("%s %s: %s" % (crate, name, what))
    for line in lines:
        print("    " + line)


def compare(crate, old, new):
    """Prints what is gone, new or differs. Returns how many there are of each, and of the same ones."""
    counts = collections.Counter()
    for name in sorted(old.keys() | new.keys()):
        before, now = old.get(name), new.get(name)
        if now is None:
            what, lines = "gone", ["- " + line for line in before.lines]
        elif before is None:
            what, lines = "new", ["+ " + line for line in now.lines]
        elif before.lines != now.lines:
            what, lines = "differs", [line for line in difflib.ndiff(before.lines, now.lines) if not line.startswith("?")]
        elif before.names != now.names:
            moved = sorted(word for word in before.names.keys() | now.names.keys() if before.names.get(word) != now.names.get(word))
            what = "differs: the same words, other definitions"
            lines = ["%s: %s, now %s" % (word, before.names.get(word, "none"), now.names.get(word, "none")) for word in moved]
        else:
            counts["same"] += 1
            continue
        counts[what.split(":")[0]] += 1
        shown(crate, name, what, lines)
    return counts


def main():
    parser = argparse.ArgumentParser(description=__doc__, formatter_class=argparse.RawDescriptionHelpFormatter)
    parser.add_argument("old")
    parser.add_argument("new", nargs="?")
    parser.add_argument("--crate", action="append", help="a crate to compare; without it " + " and ".join(CRATES))
    parser.add_argument("--top", default=os.path.dirname(os.path.dirname(os.path.abspath(__file__))), help="the top of the repository")
    given = parser.parse_args()
    failed = False
    for crate in given.crate or CRATES:
        old, new = (Crate(files_of(given.top, commit, crate)).contracts for commit in (given.old, given.new))
        counts = compare(crate, old, new)
        print("%s: %d gone, %d new, %d differ, %d the same" % (crate, *(counts[it] for it in ("gone", "new", "differs", "same"))))
        failed = failed or counts["gone"] + counts["differs"] > 0
    return 1 if failed else 0


if __name__ == "__main__":
    sys.exit(main())
