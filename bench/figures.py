#!/usr/bin/env python3
"""Writes docs/FIGURES.md from the files of bench/results/.

The page begins with aims that these files decide: the figure of each, and by what factor it is missed. Then each subject
has tables with some rows of one file or of two. A figure is a cell of a table in a file, or a number in a line of it. This
script has titles, limits and no figure. If a file has lost a table, a row or a line, it is named, and the status is 2.

With --write the page is written. With --check the status is 1 if the page is not what would be written; checks/pages.py
checks that too.

usage: bench/figures.py (--write | --check) [--top FOLDER]
"""
import argparse
import os
import re
import sys
from collections import namedtuple

PAGE = os.path.join("docs", "FIGURES.md")
RESULTS = "bench/results/"
WRITTEN = re.compile(r"Written (by|from the output of(?: \w+ runs of)?): (.*)")

# A table that is cut out of one file: its heads begin with `starts`, and the last ends with `ends`. A column is a head on the
# page (`%s` of it is the head there), the place of the cell in the file, and which part of the cell it is, if the cell has several.
# `titles` are the first cells of the rows that are shown, all of them if it is empty.
Cut = namedtuple("Cut", "file starts columns titles ends", defaults=((), ""))
# An aim: its words, its limit, whether that is the most that is allowed, the figure with its unit, and the file.
Aim = namedtuple("Aim", "words limit is_most figure unit file")


class Missing(Exception):
    """A table or a line that a file does not have."""


def cells_of(line):
    return [cell.strip() for cell in line.strip()[1:-1].split("|")]


def number(cell):
    return float(cell.replace(",", ""))


def lines_of_table(heads, rows):
    """A Markdown table, and the empty line after it."""
    line = "| %s |"
    return [line % " | ".join(heads), "|" + "---|" * len(heads)] + [line % " | ".join(row) for row in rows] + [""]


class Results:
    """The files of bench/results/."""

    def __init__(self, top):
        self.folder = os.path.join(top, RESULTS)

    def lines(self, name):
        with open(os.path.join(self.folder, name), encoding="utf-8") as source:
            return source.read().splitlines()

    def tables(self, name):
        """The tables of a file, as pairs of heads and rows."""
        found, inside = [], False
        for line in self.lines(name):
            is_row = line.startswith("|")
            if is_row and not inside:
                found.append((cells_of(line), []))
            elif is_row and not set(line) <= set("|- "):
                found[-1][1].append(cells_of(line))
            inside = is_row
        return found

    def table_of(self, name, starts, ends=""):
        """The heads and the rows of the one table whose heads begin and end like this."""
        found = [one for one in self.tables(name) if one[0][:len(starts)] == list(starts) and one[0][-1].endswith(ends)]
        if len(found) != 1:
            raise Missing("%s has %d tables with the heads %s" % (name, len(found), ", ".join(starts + (ends,))))
        return found[0]

    def table(self, name, starts, ends=""):
        """The rows of that table."""
        return self.table_of(name, starts, ends)[1]

    def row(self, name, starts, title, ends=""):
        """The row of that table which begins with this title."""
        for row in self.table(name, starts, ends):
            if row[0] == title:
                return row
        raise Missing("%s has no row `%s`" % (name, title))

    def said(self, name, pattern, until=None):
        """The groups of each line in which a pattern is found, up to the first line that begins with `until`."""
        found = []
        for line in self.lines(name):
            if until and line.startswith(until):
                break
            match = re.search(pattern, line)
            found += [match.groups()] if match else []
        if not found:
            raise Missing("%s has no line like `%s`" % (name, pattern))
        return found

    def preface(self, name):
        """What a file says of its commit and its machine: the lines after its first, up to the first empty one."""
        lines = self.lines(name)[1:]
        lines = lines[:lines.index("")]
        written = WRITTEN.match(lines[0])
        if not written:
            raise Missing("%s does not say what wrote it" % name)
        rest = re.sub(r"\. (?=[A-Z])", ".\n", " ".join(lines[1:])).splitlines()
        return ["`%s`, %s `%s`." % (name, *written.groups())] + rest


# The aims

# A row of small requests: connections, how many are in flight, who answers, how many a second, and the microseconds of one.
SMALL_REQUESTS = r"^ *(%s) connections with +(\d+) in flight, (%s): +(\d+) requests/s, ([\d.]+) us"


def aims_of_peers(results):
    """One for each kind of work beside `protoc` of which the bench wants a factor."""
    return [Aim("`protoc`'s instructions by ours, the least: %s" % kind, number(wanted), False, number(factor), "", "peers.txt")
            for kind, factor, wanted in results.said("peers.txt", r"^- (\w+): least factor ([\d.]+), wanted ([\d.]+)")]


def aims_of_compilations(results):
    """Rates and ratios of compilations from scratch."""
    installed = results.row("compile.txt", ("Files", "kB", "diagnostics, ms"), "10 installed files")
    rates = {row[0]: number(row[2].split(";")[1]) for row in results.table("compile.txt", ("Files", "kB", "MB/s"))}
    tree = "200 files in a tree of imports"
    made = min(rate for title, rate in rates.items() if title != tree)
    cases = max(number(row[-1]) for row in results.table("compile.txt", ("Case", "Query")))
    groups = max(number(row[-1]) for row in results.table("checks.txt", ("What the file has", "codes")))
    links = [number(row[-1]) for row in results.table("links.txt", ("Case", "n", "2n"))]
    return [Aim("diagnostics without the engine: installed files", 25, False, number(installed[3]), " MB/s", "compile.txt"),
            Aim("the same: made files, the slowest kind", 25, False, made, " MB/s", "compile.txt"),
            Aim("the same: %s" % tree, 25, False, rates[tree], " MB/s", "compile.txt"),
            Aim("the same for twice the input: each case, instructions", 2.2, True, cases, "", "compile.txt"),
            Aim("the same: each group of errors, instructions", 2.2, True, groups, "", "checks.txt"),
            Aim("links for twice the output, instructions", 2.2, True, max(links[:3] + links[-3:]), "", "links.txt")]


def aims_of_real(results):
    """First compilations of real files, and parsing them."""
    parsing = results.said("real.txt", r"^Parsing alone, .* ([\d.]+) now; ([\d.]+) at most wanted")[0]
    whole = results.said("real.txt", r"^A first compilation .* ([\d.]+) instructions a byte now; ([\d.]+) at most wanted")[0]
    return [Aim("real files, instructions a byte: to diagnostics", number(whole[1]), True, number(whole[0]), "", "real.txt"),
            Aim("the same: parsing", number(parsing[1]), True, number(parsing[0]), "", "real.txt")]


def aims_of_sessions(results):
    """Lexing and parsing, sessions at twice the size, and edits."""
    parsing = results.said("parsing.txt", r"^The ratios were [\d.]+ to ([\d.]+): from half a megabyte")[0][0]
    ratio = max(number(row[-1]) for row in results.table("sessions.txt", ("Session", "per second")))
    by_script = [number(time) / 1000 for time in reach_of(results, "then")]
    names = results.row("growth.txt", ("Shape",), "asks of n absent names")
    return [Aim("lexing and parsing twice the text, time", 2.2, True, number(parsing), "", "parsing.txt"),
            Aim("sessions of twice the size, time", 2.2, True, ratio, "", "sessions.txt"),
            Aim("diagnostics of a file that reaches 1,000 others, after an edit", 5, True, max(by_script), " ms", "hall.txt"),
            Aim("memory for each absent name that was asked", 1.5, True, number(names[7]) / 1000, " kB", "growth.txt")]


def reach_of(results, which):
    """The microseconds by `script` of requests for a file that reaches 1,000 others."""
    lines = results.said("hall.txt", r"^the root after .*, 1000 files, (\w+): \d+ us by listen, (\d+) us by script")
    return [time for word, time in lines if word == which]


def aims_of_engines(results):
    """Demands, and rounds of a core."""
    demands = results.row("memos.txt", ("Case", "size"), "nothing changed: n keys demanded one by one")
    looks = results.said("memos.txt", r"keys is looked at, an edit and its demand take ([\d.]+) ms")[0][0]
    leaf = results.row("memos.txt", ("Case", "sizes"), "a leaf, its key demanded (2 edits)", "before by now")
    proto = results.row("engine.txt", ("Case", "at 100 files"), "a message of a leaf, leaf demanded (2 edits)")
    durable = results.said("engine.txt", r"durable root covers all is met: ([\d.]+) microseconds")[0][0]
    rounds = results.table("core.txt", ("Case", "n, 2n"))
    lanes = results.said("core.txt", r"a call (\d+) where it was (\d+), at 10 files and one client")[0]
    grown = max(number(row[-1]) for row in rounds if row[0].startswith(("requests", "clients, a round")))
    return [Aim("3,000 keys, nothing changed, each demanded", 0.4, True, number(demands[3]), " ms", "memos.txt"),
            Aim("3,000 keys looked at after an edit", 0.4, True, number(looks), " ms", "memos.txt"),
            Aim("a leaf's key among 1,000 files by one among 100, instructions", 1.3, True, number(leaf[5]), "", "memos.txt"),
            Aim("the same with the rules of proto3 files", 1.3, True, number(proto[3]), "", "engine.txt"),
            Aim("an edit that a durable root does not read", 30, True, number(durable), " microseconds", "engine.txt"),
            Aim("a core with twice the requests or clients, instructions", 2.2, True, grown, "", "core.txt"),
            Aim("a call of a core where nothing changed, since it has lanes, instructions", number(lanes[1]), True, number(lanes[0]), "",
                "core.txt")]


def aims_of_editors(results):
    """Many clients, and attacks."""
    workers = results.said("hall.txt", r"^4 workers by 1: ([\d.]+), 2 by 1: [\d.]+ \((\d+) wanted")[0]
    waits = results.said("ranges.txt", r"another client waits ([\d.]+) ms at most .*; (\d+) at most wanted", "The commit before")
    honest = max(results.said("attacks.txt", r"(\d+) at most \((\d+) allowed\)"), key=lambda pair: number(pair[0]) / number(pair[1]))
    kept = max(results.said("attacks.txt", r"has (\d+) MB after it and had \d+ before \((\d+) allowed\)"), key=lambda pair: number(pair[0]))
    dear = max(results.said("attacks.txt", r"requests of (\d+) ms of another client: a small request waits (\d+) ms"),
               key=lambda pair: number(pair[1]) / number(pair[0]))
    small = {row[1]: row[4] for row in results.said("hall.txt", SMALL_REQUESTS % ("1", "4 workers"))}
    return [Aim("a small request of one connection, one in flight: processor time", 30, True, number(small["1"]), " microseconds", "hall.txt"),
            Aim("the same, 30 in flight", 8, True, number(small["30"]), " microseconds", "hall.txt"),
            Aim("files a second with 4 workers by 1, 8 connections", number(workers[1]), False, number(workers[0]), "", "hall.txt"),
            Aim("the longest wait beside a notification of 95,000 changes", number(waits[0][1]), True, max(number(one) for one, _ in waits),
                " ms", "ranges.txt"),
            Aim("the longest wait of honest clients beside an attack", number(honest[1]), True, number(honest[0]), " ms", "attacks.txt"),
            Aim("memory that the server keeps after long replies or bodies", number(kept[1]), True, number(kept[0]), " MB", "attacks.txt"),
            Aim("the wait of a small request behind dear ones of another client", 2 * number(dear[0]), True, number(dear[1]), " ms",
                "attacks.txt")]


def aims_of_growth(results):
    """How many shapes grow within their limits."""
    found = []
    for name, by in (("growth.txt", "script"), ("growth_listen.txt", "listen")):
        rows = results.table(name, ("Shape",))
        good = sum(row[8] == "" for row in rows)
        found.append(Aim("shapes of sessions by `%s` that grow within their limits" % by, len(rows), False, good, "", name))
    return found


def verdict(aim):
    """By what factor an aim is missed. Empty if it is met."""
    factor = aim.figure / aim.limit if aim.is_most else aim.limit / aim.figure
    return "" if factor <= 1 else ("%.2f" if factor < 1.1 else "%.1f") % factor


def aims(results):
    """The first section."""
    parts = (aims_of_growth, aims_of_sessions, aims_of_compilations, aims_of_real, aims_of_peers, aims_of_engines, aims_of_editors)
    rows = [[aim.words, "%s %g%s" % ("≤" if aim.is_most else "≥", aim.limit, aim.unit), "%g%s" % (aim.figure, aim.unit),
             verdict(aim), "`%s`" % aim.file] for part in parts for aim in part(results)]
    return lines_of_table(["Aim", "Limit", "Figure", "Missed by", "File"], rows)


# The subjects

def part_of(cell, mark=None, at=0):
    """A cell, or that part of it which is at a place between marks, without its unit."""
    return cell if mark is None else cell.split(mark)[at].split(" ")[0]


def cut(results, it):
    """Some rows and columns of a table of one file."""
    heads, rows = results.table_of(it.file, it.starts, it.ends)
    rows = [results.row(it.file, it.starts, title, it.ends) for title in it.titles] or rows
    return lines_of_table([column[0].replace("%s", heads[column[1]]) for column in it.columns],
                          [[part_of(row[column[1]], *column[2:]) for column in it.columns] for row in rows])


def peers(results):
    """The rows beside `protoc`, but for those that only vary another."""
    table = results.table("peers.txt", ("What", "Files"))
    rows = [[row[0], row[1], row[3], row[5]] for row in table if row[1] not in VARIATIONS]
    return lines_of_table(["What", "Files", "million instructions", "factor"], rows)


def made_files(results):
    """Made files without the engine, at the later of two commits."""
    commit = results.said("compile.txt", r"Commits \w+ and (\w+) in one run")[0][0]
    rows = [[row[0], part_of(row[2], "; ", 1), part_of(row[3], "; ", 1)] for row in results.table("compile.txt", ("Files", "kB", "MB/s"))]
    return ["Diagnostics at commit %s:" % commit, ""] + lines_of_table(["Files", "MB/s", "instructions a byte"], rows)


def rounds(results):
    """Rounds of a core among many files."""
    table = results.table("core.txt", ("Rounds", "files", "calls a second at 1 client"))
    return lines_of_table(["Rounds", "calls a second at 1 client", "at 64", "instructions of a call at 1", "at 64"],
                          [[row[0], row[2], row[4], row[6], row[7]] for row in table if row[1] == "10,000"])


def shapes(results):
    """Some shapes of sessions, by `script` and by `listen`."""
    rows = []
    for title in SHAPES:
        one, other = (results.row(name, ("Shape",), title) for name in ("growth.txt", "growth_listen.txt"))
        last = [cell.rpartition(" ")[2] for cell in (one[2], one[3], other[2], other[3])]
        rows.append([title] + last + [one[5].replace(" / ", " a ").replace(" a n", ""), one[7]])
    return lines_of_table(["Shape", "`script`", "ratio", "`listen`", "ratio", "for one", "bytes"], rows)


def rates(results):
    """Small requests and independent files."""
    requests = results.said("hall.txt", SMALL_REQUESTS % ("1|64", "4 workers|the floor"))
    files = results.said("hall.txt", r"^8 connections with .*, (\d+) workers: +([\d.]+) files/s")
    return (lines_of_table(["connections", "in flight", "answered by", "small requests a second", "microseconds each"], requests)
            + lines_of_table(["workers, 8 connections with files of 200 kB", "files a second"], files))


def reached(results):
    """A file that reaches 1,000 others, and edits of 1 kB."""
    lines = results.said("hall.txt", r"^(.*?)(?:, 1000 files)?, then: (\d+) us by listen, (\d+) us by script: ([\d.]+)")
    return lines_of_table(["Request", "microseconds by `listen`", "by `script`", "factor"], lines)


def attacks(results):
    """What honest clients saw."""
    lines = results.said("attacks.txt", r"^(\w+): honest clients made \d+ requests and waited [\d.]+ ms in the middle, (\d+) at most "
                         r"\((\d+) allowed\), (\d+) refused, (\d+) closed")
    return lines_of_table(["Attack", "longest wait, ms", "allowed, ms", "refused", "closed"], lines)


# Rows of peers.txt that vary another row.
VARIATIONS = ("the same with comments", "a leaf after the root's edit", "the root after its edit", "the root after a leaf's edit",
              "the root after a message's edit in the hub")
# Shapes that a page cites, and the dearest of a kind.
SHAPES = ("fields: diagnostics", "references: diagnostics", "references to nothing: diagnostics", "messages",
          "towers of 60 messages: diagnostics", "imports of absent files: diagnostics",
          "n bytes: half a package of 17 parts, references to nothing", "n equal messages in a package of 10 n bytes",
          "n references in a package of 10 n bytes: descriptors", "a chain, one asked", "each file imports all before it, all asked",
          "each file publicly imports all before it, all asked", "a ring cut and closed, one asked", "a ring cut and closed, all asked",
          "the root after its edit, 10 rounds", "the root after a comment's edit in the hub, 10 rounds",
          "asks of n absent names", "a body of n MiB", "JSON: towers of 100 objects", "JSON: towers of 100 lists")
COMPILED = Cut("compile.txt", ("Files", "kB", "diagnostics, ms"), [
    ("Files", 0), ("diagnostics, MB/s", 3), ("instructions a byte", 10, ", ", 0), ("descriptors, MB/s", 5),
    ("instructions a byte", 10, ", ", 1)], ("10 installed files", "80 copies of each"))
SESSIONS = Cut("sessions.txt", ("Session", "per second"), [("Session", 0), ("a second", 1, ", ", 0), ("ratio", 2)], (
    "texts of 1 MB, opened and diagnosed", "small requests", "diagnostic, nothing changed", "definition, nothing changed",
    "diagnostic, each after an edit", "documentSymbol, each after an edit", "definition, each after an edit",
    "descriptor, each after an edit"))
ENGINE = Cut("engine.txt", ("Case",), [
    ("Case", 0), ("1,000 instructions (%s) at 100 files", 2, ", ", 0), ("at 1,000", 2, ", ", 1), ("ratio", 3)], (
    "first demand of the root, files set", "unrelated edit, durable root (2 edits)", "unrelated edit, root, each key looked at (2 edits)",
    "a message of a leaf, root demanded (2 edits)", "a message of the hub, each demanded (2 edits)",
    "a ring cut and closed, each demanded (2 edits)"), "before by now")
MEMOS = Cut("memos.txt", ("Case", "sizes"), [("Case", 0), ("n", 1, ", ", 1), ("1,000 instructions (%s)", 4, ", ", 1), ("ratio", 5)], (
    "first demand, files set", "a hub, its answer changes (2 edits)", "a ring, cut and closed again (2 edits)"), "before by now")

# A subject: its title, what its columns mean, the files that it is of, and what makes its tables.
SUBJECTS = [
    ("Beside `protoc`", "A factor is the cost of `protoc` by ours.", ["peers.txt"], [peers]),
    ("Compilations without the engine", "", ["compile.txt"],
     [COMPILED, made_files]),
    ("Sessions by `script`", "The ratio is the time of a session of twice the size.", ["sessions.txt"], [SESSIONS]),
    ("The engine", "A round has as many edits, each with its demands, as its title says. The second table is of the rules of `Sums`: its"
     " ratios are to half of n.", ["engine.txt", "memos.txt"], [ENGINE, MEMOS]),
    ("The core", "The rounds are among 10,000 files.", ["core.txt"], [rounds]),
    ("Many editors", "The microseconds of the first table are of the server's processors.", ["hall.txt"],
     [rates, reached]),
    ("Beside attacks", "", ["attacks.txt"], [attacks]),
    ("Shapes of sessions", "The cells are million instructions at the largest n, and their ratio to those at the size before. The last two are"
     " by `script`: the instructions and the peak of memory for one of n, or for one of what a cell names.",
     ["growth.txt", "growth_listen.txt"], [shapes])]


def subject(results, title, note, names, parts):
    """A section of the page."""
    lines = ["## " + title, ""]
    for name in names:
        lines += results.preface(name)
    lines += [""]
    lines += re.sub(r"\. (?=[A-Z])", ".\n", note).splitlines() + [""] if note else []
    for part in parts:
        lines += cut(results, part) if isinstance(part, Cut) else part(results)
    return lines


def page(results):
    """The text of docs/FIGURES.md."""
    lines = ["# Figures", "", "<!-- by bench/figures.py --write -->",
             "This page has the main figures that the benches measured; `bench/results/` has all.",
             "`docs/PERFORMANCE.md` says what they mean, how they are made, why an aim is missed.", "", "## Aims", "",
             "A missed aim has its factor: the figure by the limit, or the limit by the figure where that is a least one.", ""]
    lines += aims(results)
    for one in SUBJECTS:
        lines += subject(results, *one)
    return "\n".join(lines[:-1]) + "\n"


def main():
    words = argparse.ArgumentParser(usage=__doc__[__doc__.index("usage: ") + 7:])
    choice = words.add_mutually_exclusive_group(required=True)
    choice.add_argument("--write", action="store_true", help="write the page")
    choice.add_argument("--check", action="store_true", help="say by the status whether the page is what would be written")
    words.add_argument("--top", default=os.path.dirname(os.path.dirname(os.path.abspath(__file__))), help="the top of the repository")
    words = words.parse_args()
    path = os.path.join(words.top, PAGE)
    try:
        text = page(Results(words.top))
    except (Missing, OSError) as failure:
        print(failure)
        return 2
    if words.write:
        with open(path, "w", encoding="utf-8") as sink:
            sink.write(text)
        return 0
    if os.path.exists(path):
        with open(path, encoding="utf-8") as source:
            if source.read() == text:
                return 0
    print("it is not what bench/figures.py --write makes of bench/results/")
    return 1


if __name__ == "__main__":
    sys.exit(main())
