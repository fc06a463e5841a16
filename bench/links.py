#!/usr/bin/env python3
"""Measures links, scopes and resolution from scratch on sets of files that this script makes.

The program is a few lines of Rattle in schema.rt.txt. It is put into a scratch repository with a copy of the crates that
it stands on, proved and built there by `rt`. Each case is one question about a set of files, at n and at 2n, where the
sizes are such that what is read and answered grows by 2. Each run is made with k and with 3k rounds; the difference is
the processor's time of 2k rounds without the process's start and the setting of the files. The runs take turns, and the
best times count. Printed is a Markdown table with the time of one answer at n and at 2n and their ratio: 2 is linear.

The last two cases have texts of one length: 90,000 imports of one file, and one import among as many options. The ratio
of their times is printed below the table: an import costs no more where it is repeated.

usage: bench/links.py [--runs N] [--program PATH] [--only WORD] [--instructions]
"""
import argparse
import os
import sys
import tempfile

import parts

CRATES = ["pq_lex", "pq_names", "pq_inputs", "pq_rules", "pq_syntax", "pq_links", "pq_schema"]
USES = "pq_inputs pq_rules pq_schema"
SYNTAX = "syntax='proto3';"


def lines(files):
    return "".join("%s: %s%s\n" % (name, SYNTAX, text) for name, text in files)


def name(i):
    return "f%04d" % i


def chain(n):
    """Each file imports the next. The lists of what is reached have n * n / 2 names."""
    return lines((name(i), "import '%s';message M%d{}" % (name(i + 1), i)) for i in range(n)), "Linked", name(0)


def star(n):
    """n files import one, and a file imports them all."""
    files = [(name(i), "import 'one';message M%d{}" % i) for i in range(n)]
    top = "".join("import '%s';" % name(i) for i in range(n))
    return lines(files + [("one", "message One{}"), ("top", top)]), "Scope", "top"


def comb(n):
    """Each file imports the next and a file of its own. The lists of what is reached have n * n names."""
    files = [(name(i), "import '%s';import 't%d';" % (name(i + 1), i)) for i in range(n)]
    return lines(files + [("t%d" % i, "message T%d{}" % i) for i in range(n)]), "Linked", name(0)


def all_before(n):
    """Each file imports all files before it: n * n / 2 imports, whose lists have n * n * n / 6 names, which is what is
    joined. The lists of what is reached have only n * n / 2."""
    return lines((name(i), "".join("import '%s';" % name(k) for k in range(i))) for i in range(n)), "Linked", name(n - 1)


def ring(n):
    """n files in one ring, which is entered in its middle. The answers of the n files have n keys each."""
    return lines((name(i), "import '%s';" % name((i + 1) % n)) for i in range(n)), "Linked", name(n // 2)


def references(n):
    """A file with n references to one other file, each in a message of its own."""
    text = "import 'b';" + "".join("message M%d{T x=1;}" % i for i in range(n))
    return lines([("a", text), ("b", "message T{}")]), "Resolved", "a"


def repeated(n):
    """A file that has one import n times."""
    return lines([("a", "import 'b';" * n), ("b", "message T{}")]), "Linked", "a"


def once(n):
    """A file of the same length and as many statements that has the import once."""
    return lines([("a", "import 'b';" + "option b=c;" * (n - 1)), ("b", "message T{}")]), "Linked", "a"


# A case: its title, its files, and its two sizes.
CASES = [("a chain of files", chain, 707, 1000),
         ("a star", star, 1000, 2000),
         ("a comb", comb, 500, 707),
         ("each file imports all before it", all_before, 100, 126),
         ("a ring of 1,000 files", ring, 707, 1000),
         ("10,000 references to one file", references, 10_000, 20_000),
         ("an import 90,000 times", repeated, 45_000, 90_000),
         ("an import once", once, 45_000, 90_000)]


def side(program, folder, make, n):
    """One size of a case: its program, with its files and its question."""
    text, query, file = make(n)
    path = os.path.join(folder, "%s%d" % (make.__name__, n))
    with open(path, "w") as sink:
        sink.write(text)
    return parts.Rounds(program, [query, file], path)


def main():
    words = argparse.ArgumentParser()
    words.add_argument("--runs", type=int, default=7)
    words.add_argument("--program", help="the program, built before")
    words.add_argument("--only", default="", help="a word of the titles of the cases to run")
    words.add_argument("--instructions", action="store_true", help="count the instructions too, by valgrind")
    words = words.parse_args()
    cases = [case for case in CASES if words.only in case[0]]
    with tempfile.TemporaryDirectory() as folder:
        program = words.program or parts.built_from(os.path.join(folder, "build"), "schema", CRATES, USES)
        pairs = [[side(program, folder, make, n) for n in sizes] for _, make, *sizes in cases]
        parts.in_turns([side for pair in pairs for side in pair], words.runs)
        counts = [[side.instructions() for side in pair] if words.instructions else None for pair in pairs]
    print("| Case | n | 2n | ms at n | ms at 2n | ratio | of instructions |\n|---|---|---|---|---|---|---|")
    for (title, _, n, more), pair, count in zip(cases, pairs, counts):
        small, large = [side.time() for side in pair]
        counted = "%.2f" % (count[1] / count[0]) if count else ""
        print("| %s | %d | %d | %.2f | %.2f | %.2f | %s |" % (title, n, more, small * 1e3, large * 1e3, large / small, counted))
    of = {case[1]: pair[1].time() for case, pair in zip(cases, pairs)}
    if repeated in of and once in of:
        print("\nThe file with the import 90,000 times took %.2f times as long as its twin." % (of[repeated] / of[once]))
    return 0


if __name__ == "__main__":
    sys.exit(main())
