#!/usr/bin/env python3
"""Writes the tables of docs/theorems/: of each crate the public functions, the clauses of their contracts, and what these say.

Functions and clauses come from the source. What a clause says is the comment right above it. A comment that begins with names of
clauses, as "`some`, `none`: The run that holds the key.", says it of these.

A row has the functions and clauses of one text. It keeps its place on the page, and a new one comes last. A row whose function or
clause is gone is dropped. Of a function that is not public a page has only the clauses that it has already. Between tables a page is
written by hand; so is a table with another head than `Function | Clause | What it says`.

These are findings, and any gives the status 1:
- a clause of a public function that has no text, unless its page lists it as one without; this script only shortens that list
- a comment that names a clause which its function does not have, and two comments on one clause
- a crate without a page, and a page without a crate
- with --check, a page that is not what this script would write

usage: checks/theorems.py [--check] [--top FOLDER]
"""
import argparse
import collections
import os
import re
import sys

import contracts

TOP = os.path.dirname(os.path.dirname(os.path.abspath(__file__)))
FOLDER = os.path.join("docs", "theorems")
HEAD = ["| Function | Clause | What it says |", "|---|---|---|"]
UNTOLD = "These clauses have no text here: "
CLAUSE = re.compile(r"(ensures|requires)\b\*?\s*([^\s{]*)")
OF_NAMES = re.compile(r"((?:`[a-z]\w*(?: [a-z]\w*)?`(?:, )?)+): ")
TOKEN = re.compile(r"`([^`]+)`")
Row = collections.namedtuple("Row", "functions clauses text")


def crates_of(top):
    """The crates that have pages: all but those of tests alone."""
    with open(os.path.join(top, "crates.txt"), encoding="utf-8") as lines:
        return [re.match(r"\w+", line).group() for line in lines if line.startswith("pq_")]


def clause_name(text):
    """The name of a clause as pages have it: `x` of `ensures x`, `requires x`, `requires`, `ensures`."""
    kind, name = CLAUSE.match(text).groups()
    return name or kind if kind == "ensures" else ("requires " + name).strip()


def comment_before(source, start):
    """The comment that ends right above the place `start`, as one line."""
    found, lines = [], source.whole[:start].split("\n")[:-1]
    while lines and re.match(r"\s*//[^/!]", lines[-1]):
        found.insert(0, lines.pop().strip()[2:].strip())
    return " ".join(found)


class Function:
    """The clauses of all functions of one name, and what their comments say of them."""

    def __init__(self):
        self.clauses, self.texts, self.findings = [], {}, []

    def add(self, source, found):
        places = [(start, clause_name(source.text[start:end])) for start, end in found.places if CLAUSE.match(source.text[start:end])]
        self.clauses += [name for _, name in places if name not in self.clauses]
        for start, name in places:
            text = comment_before(source, start)
            several = OF_NAMES.match(text)
            names, said = (TOKEN.findall(several.group(1)), text[several.end():]) if several else ([name], text)
            for of in names if text else []:
                if of not in self.clauses:
                    self.findings.append("a comment names `%s`, which is no clause" % of)
                elif self.texts.setdefault(of, said) != said:
                    self.findings.append("two comments on `%s`" % of)


def functions_of(top, crate):
    """The public functions of a crate by their names, and all of them."""
    public, every = collections.defaultdict(Function), collections.defaultdict(Function)
    it = contracts.Crate(contracts.files_of(top, None, crate))
    for path, source in it.sources.items():
        for found in source.functions:
            for named, name in ((public, it.name_of(path, found)), (every, it.name_of(path, found, True))):
                if name:
                    named[name].add(source, found)
    return public, every


def names_in(cell):
    """The functions that a cell names, as `a`, `A::b` or `A::{b, c}`."""
    found = []
    for token in TOKEN.findall(cell):
        group = re.match(r"^(.*::)\{(.*)\}$", token)
        found += [group.group(1) + name.strip() for name in group.group(2).split(",")] if group else [token]
    return found


def shown_names(names):
    owners = collections.OrderedDict()
    for name in names:
        owner, _, last = name.rpartition("::")
        owners.setdefault(owner or name, []).append(last)
    tokens = []
    for owner, lasts in owners.items():
        if lasts == [owner]:
            tokens.append(owner)
        else:
            tokens.append("%s::%s" % (owner, lasts[0]) if len(lasts) == 1 else "%s::{%s}" % (owner, ", ".join(lasts)))
    return ", ".join("`%s`" % token for token in tokens)


def shown_row(row):
    clauses = "" if row.clauses == ("ensures",) else ", ".join("`%s`" % name for name in row.clauses)
    return "| %s |%s| %s |" % (shown_names(row.functions), clauses and " %s " % clauses or " ", row.text)


class Page:
    """A page as a list of lines and tables."""

    def __init__(self, text):
        self.parts, self.untold = [], set()
        for line in text.splitlines():
            table = self.parts[-1] if self.parts and isinstance(self.parts[-1], list) else None
            if line.startswith(UNTOLD):
                for token in line[len(UNTOLD):].rstrip(".").split("; "):
                    name, _, clauses = token.partition(" (")
                    self.untold |= {(one, it) for one in names_in(name) for it in TOKEN.findall(clauses) or ["ensures"]}
            elif line == HEAD[0]:
                self.parts.append([])
            elif table is not None and line.startswith("|"):
                if line != HEAD[1]:
                    function, clause, said = [cell.strip() for cell in line.strip().strip("|").split("|", 2)]
                    table.append(Row(names_in(function), TOKEN.findall(clause) or ["ensures"], said))
            else:
                self.parts.append(line)
        if not any(isinstance(part, list) for part in self.parts):
            self.parts += ["", []]
        self.tables = [part for part in self.parts if isinstance(part, list)]

    def stored(self):
        """Of each function and clause the table that has it, and the row and the place in it."""
        found = {}
        for number, table in enumerate(self.tables):
            for at, row in enumerate(table):
                for place, function in enumerate(row.functions):
                    for clause in row.clauses:
                        found.setdefault((function, clause), (number, (at, place)))
        return found


def rows_of(entries):
    """The rows of a table: the functions that have one text of the same clauses are in one row.

    An entry is a place, a function, a clause and its text."""
    said, rows = collections.OrderedDict(), collections.OrderedDict()
    for _, function, clause, text in sorted(entries, key=lambda it: it[0]):
        said.setdefault((text, function), []).append(clause)
    for (text, function), clauses in said.items():
        rows.setdefault((text, tuple(clauses)), []).append(function)
    return [Row(functions, clauses, text) for (text, clauses), functions in rows.items()]


def shown_untold(untold):
    """The line of the clauses without a text, by function."""
    alike = collections.OrderedDict()
    for function, clauses in untold.items():
        alike.setdefault((function.rpartition("::")[0] or function, tuple(clauses)), []).append(function)
    return UNTOLD + "; ".join(shown_names(functions) + ("" if clauses == ("ensures",) else " (%s)" % ", ".join(
        "`%s`" % name for name in clauses)) for (_, clauses), functions in alike.items()) + "."


def written(text, functions, say):
    """The page of a crate as the source has it, where the page now is `text`. Each finding goes to `say`."""
    page = Page(text)
    public, every = functions
    stored, last = page.stored(), len(page.tables) - 1
    tables, untold, order = [[] for _ in range(last + 1)], collections.OrderedDict(), 0
    for name in every:
        function = public.get(name) or every[name]
        for finding in function.findings if name in public or any(name == there for there, _ in stored) else []:
            say("%s: %s" % (name, finding))
        for clause in function.clauses:
            order += 1
            there = stored.get((name, clause))
            if not there and name not in public:
                continue
            said = function.texts.get(clause)
            if said and "|" in said:
                say("%s: the text of `%s` has a `|`, which ends a cell" % (name, clause))
            elif said:
                number, at = there or (last, (len(stored), 0))
                tables[number].append(((at, order), name, clause, said))
            elif (name, clause) in page.untold:
                untold.setdefault(name, []).append(clause)
            else:
                say("%s: the clause `%s` has no text" % (name, clause))
    lines, tables = [], iter(tables)
    for part in page.parts:
        if isinstance(part, list):
            rows = rows_of(next(tables))
            lines += HEAD + [shown_row(row) for row in rows] if rows else []
        else:
            lines.append(part)
    while lines and not lines[-1]:
        lines.pop()
    return "\n".join(lines + (["", shown_untold(untold)] if untold else [])) + "\n"


def main():
    parser = argparse.ArgumentParser(description=__doc__, formatter_class=argparse.RawDescriptionHelpFormatter)
    parser.add_argument("--check", action="store_true", help="write nothing, and say which page differs")
    parser.add_argument("--top", default=TOP, help="the top of the repository")
    given = parser.parse_args()
    findings, folder, crates = [], os.path.join(given.top, FOLDER), crates_of(given.top)
    for name in sorted(os.listdir(folder)):
        if name.endswith(".md") and name[:-len(".md")] not in crates:
            findings.append("%s/%s: crates.txt has no such crate" % (FOLDER, name))
    for crate in crates:
        page, path = "%s/%s.md" % (FOLDER, crate), os.path.join(folder, crate + ".md")
        if not os.path.exists(path):
            findings.append("%s: there is no such page" % page)
            continue
        with open(path, encoding="utf-8") as file:
            old = file.read()
        new = written(old, functions_of(given.top, crate), lambda finding: findings.append("%s: %s" % (page, finding)))
        if new != old and given.check:
            findings.append("%s: it is not what checks/theorems.py writes" % page)
        elif new != old:
            with open(path, "w", encoding="utf-8") as file:
                file.write(new)
    for finding in findings:
        print(finding)
    return 1 if findings else 0


if __name__ == "__main__":
    sys.exit(main())
