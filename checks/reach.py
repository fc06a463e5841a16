#!/usr/bin/env python3
"""Follows the names of definitions from contracts through specs/.

A definition is reached if a clause of a contract names it, or if a definition that is reached names it. A name is resolved
by the `use` lines of its file. What stands inside a `module` block is not seen. Comments and imports are no definition lines.

Without --from the roots are the clauses and views of all public functions and types. With --from they are those of single
functions, each as FILE:FUNCTION with the file below crates/. Printed are the definition lines that are reached, of all that
there are, in specs/ and in specs/aux/; --list adds a line for each file.

With --page it writes the counts of the headline, the contract of `play`, into docs/THEOREMS.md, and prints nothing.

usage: checks/reach.py [--top FOLDER] [--list] [--from pq_play/src/run.rt:play ..]
       checks/reach.py --page [--top FOLDER]
"""
import argparse
import collections
import glob
import os
import re

TOP = os.path.dirname(os.path.dirname(os.path.abspath(__file__)))
PLAY = "pq_play/src/run.rt:play"
WORDS = {"abbrev", "unfoldable", "data", "record", "type", "pub", "opaque"}
TOKEN = re.compile(r"[^\s(){}\[\],;:=λ×→.]+")
FUNCTION = re.compile(r"\s*(pub(?:\([a-z]+\))? )?(?:const )?fn (\w+)")
IMPORT = re.compile(r"\s*(?:ghost )?(?:pub )?use ([\w.]+)\.\{(.*)\}")


def note_import(line, table):
    """Adds the names that a line imports to a table of name to module and old name. True if the line is an import."""
    use = IMPORT.match(line)
    for name in use.group(2).split(",") if use else []:
        old, _, new = name.strip().partition(" as ")
        table[new or old] = (use.group(1), old)
    return bool(use)


class Specs:
    """The definitions below crates/*/specs: the lines of each, its place, and what it names."""

    def __init__(self, top):
        self.lines, self.place, self.imports, self.parts = collections.defaultdict(list), {}, {}, {}
        self.crates = os.path.join(top, "crates")
        for path in sorted(glob.glob(os.path.join(self.crates, "*", "specs", "**", "*.antt"), recursive=True)):
            self.read(os.path.relpath(path, self.crates))
        self.graph = {one: {d for line in lines for d in self.named(one[0], line)} - {one} for one, lines in self.lines.items()}

    def read(self, path):
        module = "Rattle." + path[:-len(".antt")].replace("/", ".")
        table, now = self.imports.setdefault(module, {}), None
        with open(os.path.join(self.crates, path), encoding="utf-8") as text:
            for number, line in enumerate(text, 1):
                words = line.split()
                if not words or line.startswith("--") or note_import(line, table) or "mod" in words[:2]:
                    continue
                if not line[0].isspace():
                    now = self.begun(module, words, path, number) or now
                elif now:
                    part = re.match(r"\s+(?:pub )?([A-Za-z]\w*)\s*:", line)
                    if part:
                        self.parts.setdefault((module, part.group(1)), now)
                if now:
                    self.lines[now].append(line.split("--")[0])

    def begun(self, module, words, path, number):
        """The definition that a line at the margin declares or goes on with."""
        rest = [word for word in words if word not in WORDS]
        if words[0] in WORDS and rest:
            one = (module, rest[0].rstrip(":"))
            self.place[one] = (path, number)
            return one
        return (module, words[0]) if (module, words[0]) in self.place else None

    def resolve(self, module, name, depth=0):
        if (module, name) in self.place:
            return module, name
        if (module, name) in self.parts:
            return self.parts[module, name]
        if depth < 5 and name in self.imports.get(module, {}):
            return self.resolve(*self.imports[module][name], depth + 1)
        return None

    def named(self, module, line):
        return {d for d in (self.resolve(module, word) for word in TOKEN.findall(line)) if d}

    def closure(self, roots):
        seen, todo = set(roots), list(roots)
        while todo:
            for one in self.graph[todo.pop()] - seen:
                seen.add(one)
                todo.append(one)
        return seen

    def counts(self, reached):
        """Of each file the definition lines that are reached, and all."""
        found = collections.defaultdict(lambda: [0, 0])
        for one, (path, _) in self.place.items():
            found[path][1] += len(self.lines[one])
            found[path][0] += len(self.lines[one]) if one in reached else 0
        return {path: got for path, got in sorted(found.items()) if got[1]}

    def from_function(self, end):
        """What the contract of FILE:FUNCTION reaches."""
        path, _, function = end.partition(":")
        return self.closure(self.roots_of(path, function))

    def headline(self):
        """Of each file the definition lines that the contract of `play` reaches, if any."""
        return {path: got[0] for path, got in self.counts(self.from_function(PLAY)).items() if got[0]}

    def from_all(self):
        """What the public contracts and views of all crates reach."""
        files = glob.glob(os.path.join(self.crates, "*", "src", "**", "*.rt"), recursive=True)
        paths = [os.path.relpath(path, self.crates) for path in files if "/src/tests" not in path]
        return self.closure(set().union(*(self.roots_of(path) for path in paths)))

    def roots_of(self, path, function=None):
        with open(os.path.join(self.crates, path), encoding="utf-8") as text:
            lines = text.readlines()
        table, found = {}, set()
        for line in lines:
            note_import(line, table)
        for name, public, line in clauses(lines):
            if name == function if function else public:
                found |= {self.resolve(*table[word]) for word in TOKEN.findall(line) if word in table}
        return found - {None}


def clauses(lines):
    """Each line of a file of src/, with the function it belongs to and whether that is public. Views count as public."""
    name, public, inside = None, False, False
    for line in lines:
        function = FUNCTION.match(line)
        if re.match(r"(pub )?(trait|impl)\b", line):
            inside = bool(re.match(r"pub trait|impl.* for ", line)) or line.rstrip().startswith("impl") and "{" not in line
        if function:
            name = function.group(2)
            public = function.group(1) == "pub " or inside and not function.group(1) and line.startswith("    ")
        text = line.strip()
        if text.startswith(("ghost Value", "ghost view")):
            yield None, True, line.split("//")[0]
        elif not text.startswith(("ghost ", "//")):
            yield name, public, line.split("//")[0]


def stated(counts):
    """What docs/THEOREMS.md says of the headline: of all files, and in the row of each."""
    rows = [(*path[:-len(".antt")].split("/specs/"), lines) for path, lines in counts.items()]
    return ["%d files, %d lines of definitions" % (len(counts), sum(counts.values()))] + ["| `%s` | `%s` | %d |" % row for row in rows]


def page(top):
    """Writes the counts of the headline into docs/THEOREMS.md: each in the place of another number."""
    path = os.path.join(top, "docs", "THEOREMS.md")
    with open(path, encoding="utf-8") as it:
        text = it.read()
    for words in stated(Specs(top).headline()):
        text = re.sub(r"\b\d+".join(map(re.escape, re.split(r"\b\d+", words))), lambda _: words, text)
    with open(path, "w", encoding="utf-8") as it:
        it.write(text)


def main():
    parser = argparse.ArgumentParser(description=__doc__, formatter_class=argparse.RawDescriptionHelpFormatter)
    parser.add_argument("--top", default=TOP, help="the top of the repository")
    parser.add_argument("--page", action="store_true", help="write the counts of the headline into docs/THEOREMS.md")
    parser.add_argument("--list", action="store_true", help="a line for each file")
    parser.add_argument("--from", nargs="+", dest="ends", default=[], help="FILE:FUNCTION, the file below crates/")
    given = parser.parse_args()
    if given.page:
        return page(given.top)
    specs = Specs(given.top)
    reached = set().union(*(specs.from_function(end) for end in given.ends)) if given.ends else specs.from_all()
    for aux in (False, True):
        rows = [(path, got) for path, got in specs.counts(reached).items() if ("/aux" in path) == aux]
        files = sum(1 for _, got in rows if got[0])
        print("%s: %d of %d definition lines, in %d files" % (
            "specs/aux" if aux else "specs", sum(g[0] for _, g in rows), sum(g[1] for _, g in rows), files))
        for path, got in rows:
            if given.list and (got[0] if given.ends or aux else got[0] < got[1]):
                print("  %4d of %4d  %s" % (got[0], got[1], path))


if __name__ == "__main__":
    main()
