#!/usr/bin/env python3
"""Measures compilation from scratch: to diagnostics, to descriptors and to symbols.

The program is a few lines of Rattle in compile.rt.txt. It is put into a scratch repository with a copy of the crates that
it stands on, proved and built there by `rt`.

Each case is a file with n and with 2n of something, a query, and what the answer has to be. Each run is made with
k and with 3k rounds; the difference is the time of 2k rounds without the process's start and the reading of
files. Printed is a Markdown table with the time of one answer at n and at 2n and their ratio: 2 is linear, 2.2 the most.
A ratio of times above 2 can be that of a cache that is outgrown: the ratio of instructions says which it is.
Last come texts that take much for their length, with the peak of memory of a process and its time, by Debian's `time`.

With --rates it prints instead how many MB/s of files without an error are compiled to diagnostics: made files of a megabyte,
and a tree of 200 files that import one another, each compiled alone. Another program, built by an earlier commit, can be
measured beside: their runs take turns.

usage: bench/compile.py [--runs N] [--program PATH] [--only WORD] [--instructions] [--rates [--against PATH]]
"""
import argparse
import os
import sys
import tempfile

import files
import parts
import workspaces
from files import written

CRATES = ["pq_lex", "pq_names", "pq_inputs", "pq_rules", "pq_syntax", "pq_links", "pq_schema", "pq_checks", "pq_proto"]
USES = "pq_names pq_inputs pq_rules pq_checks pq_proto"


# Texts with n of something. Each maker gives the text and the count of its errors.

def message(body, errors=0):
    return 'syntax="proto3";message M{' + body + "}", errors


def number(i):
    """Field number i from 1, where those that protobuf keeps for itself are passed over."""
    return i if i < 19_000 else i + 1_000


def fields(n):
    return message("".join("int32 f%d=%d;" % (i, number(i)) for i in range(1, n + 1)))


def ranges(n):
    """Fields with odd numbers, and ranges between them in another order."""
    body = "reserved " + ",".join("%d to %d" % (40_000 + 2 * i, 40_000 + 2 * i) for i in reversed(range(n))) + ";"
    return message(body + "".join("int32 f%d=%d;" % (i, 40_001 + 2 * i) for i in range(n)))


def nested_ranges(n):
    """Fields each of which is in half of the ranges."""
    body = "reserved " + ",".join("%d to %d" % (40_000 + i, 900_000 - i) for i in range(n)) + ";"
    return message(body + "".join("int32 f%d=%d;" % (i, 40_000 + i) for i in range(n)), n)


def single_ranges(n):
    """Fields and as many statements with a range, in turns."""
    return message("".join("reserved %d;int32 f%d=%d;" % (40_000 + 2 * i, i, 40_001 + 2 * i) for i in range(n)))


def reserved_names(n):
    body = "reserved " + ",".join('"f%d"' % i for i in range(n)) + ";"
    return message(body + "".join("int32 f%d=%d;" % (i, number(i + 1)) for i in range(n)), n)


def values(n):
    return 'syntax="proto3";enum E{' + "".join("V%d=%d;" % (i, i) for i in range(n)) + "}", 0


def aliases(n):
    """Enum values with one number, without allow_alias."""
    return 'syntax="proto3";enum E{' + "".join("V%d=0;" % i for i in range(n)) + "}", n - 1


def one_number(n):
    return message("".join("int32 f%d=1;" % i for i in range(n)), n - 1)


def one_name(n):
    return message("".join("int32 f=%d;" % number(i) for i in range(1, n + 1)), n - 1)


def references(n):
    """References to as many messages."""
    return ('syntax="proto3";package a.b;' + "".join("message M%d{M%d x=1;}" % (i, n - 1 - i) for i in range(n))), 0


def dotted_references(n):
    """References whose first part is found in an outer scope."""
    return ('syntax="proto3";package a.b;message T{message U{}}' + "".join("message M%d{b.T.U x=1;}" % i for i in range(n))), 0


def missing_references(n):
    """References to what is nowhere."""
    return 'syntax="proto3";package a.b;' + "".join("message M%d{N%d x=1;}" % (i, i) for i in range(n)), n


def maps(n):
    return message("".join("map<string,M> f%d=%d;" % (i, number(i)) for i in range(1, n + 1)))


def oneofs(n):
    return message("".join("oneof o%d{int32 f%d=%d;}" % (i, i, number(i)) for i in range(1, n + 1)))


def nested(n):
    """Towers of 60 messages, each in the next. A full name in them has up to 60 parts."""
    return 'syntax="proto3";' + "".join("message T%d{" % i + "message M{" * 59 + "}" * 60 for i in range(n)), 0


def options(n):
    return message('int32 f=1[' + ",".join("(a.b%d).c='d'" % i for i in range(n)) + "];")


def methods(n):
    return 'syntax="proto3";message M{}service S{' + "".join("rpc R%d(M)returns(stream M);" % i for i in range(n)) + "}", 0


def absent_imports(n):
    return 'syntax="proto3";' + "".join("import 'f%d';" % i for i in range(n)), n


def one_line(n):
    """Errors on one line that is not ASCII."""
    return message("int32 f=0;/*\u00e9*/" * n, 2 * n - 1)


def ascii_line(n):
    return message("int32 f=0;/*ee*/" * n, 2 * n - 1)


# A case: its title, its text, its query and n.
CASES = [("fields", fields, "Diagnostics", 15_000),
         ("fields", fields, "Descriptor", 15_000),
         ("fields", fields, "Symbols", 15_000),
         ("reserved ranges against fields", ranges, "Diagnostics", 10_000),
         ("fields and ranges in turns", single_ranges, "Diagnostics", 5_000),
         ("fields and ranges in turns", single_ranges, "Descriptor", 5_000),
         ("fields in half of the ranges", nested_ranges, "Diagnostics", 10_000),
         ("reserved names against fields", reserved_names, "Diagnostics", 10_000),
         ("enum values", values, "Diagnostics", 25_000),
         ("enum values", values, "Descriptor", 25_000),
         ("enum values of one number", aliases, "Diagnostics", 25_000),
         ("fields of one number", one_number, "Diagnostics", 15_000),
         ("fields of one name", one_name, "Diagnostics", 15_000),
         ("references", references, "Diagnostics", 10_000),
         ("references", references, "Descriptor", 10_000),
         ("dotted references", dotted_references, "Diagnostics", 10_000),
         ("references to nothing", missing_references, "Diagnostics", 10_000),
         ("map fields", maps, "Diagnostics", 10_000),
         ("map fields", maps, "Descriptor", 10_000),
         ("oneofs of one field", oneofs, "Diagnostics", 10_000),
         ("oneofs of one field", oneofs, "Descriptor", 10_000),
         ("towers of 60 messages", nested, "Diagnostics", 500),
         ("towers of 60 messages", nested, "Descriptor", 500),
         ("options of one field", options, "Descriptor", 15_000),
         ("methods", methods, "Diagnostics", 10_000),
         ("methods", methods, "Descriptor", 10_000),
         ("imports of absent files", absent_imports, "Diagnostics", 15_000),
         ("errors on one ASCII line", ascii_line, "Diagnostics", 30_000),
         ("errors on one line, not ASCII", one_line, "Diagnostics", 30_000),
         ("errors on one ASCII line", ascii_line, "Symbols", 30_000),
         ("errors on one line, not ASCII", one_line, "Symbols", 30_000)]


def deep_package(n, references=0):
    """A package of n parts, and a message with references to what is nowhere."""
    body = "".join("N x%d=%d;" % (i, i + 1) for i in range(references))
    return 'syntax="proto3";package ' + ".".join("a" * n) + ";message M{" + body + "}", references


# Texts that take much of the compiler for their length: a title, a text, and how many errors it has.
HOSTILE = [("a package of 20,000 parts", deep_package(20_000)),
           ("the same with a reference to nothing", deep_package(20_000, 1)),
           ("a package of 40,000 parts with a reference to nothing", deep_package(40_000, 1)),
           ("a package of 20,000 parts with 10 of them", deep_package(20_000, 10))]


def hostile(program, folder):
    """Prints the table of the hostile texts: whole processes, each once."""
    print("\n| Text | bytes | peak of memory, kB | seconds |\n|---|---|---|---|")
    for title, (text, errors) in HOSTILE:
        path = written(os.path.join(folder, "hostile.proto"), text)
        said = b"\n%d errors, 0 nulls\n" % errors
        print("| %s | %d | %d | %.2f |" % (title, len(text), *parts.peak([program, "1", "Diagnostics", "a.proto", path], said)),
              flush=True)


def side(program, folder, make, query, n):
    """One size of a case."""
    text, errors = make(n)
    name = "%s%d.proto" % (make.__name__, n)
    path = written(os.path.join(folder, name), text)
    said = b"\n%d errors, 0 nulls\n" % (errors if query == "Diagnostics" else 0)
    return parts.Rounds(program, [query, name, path], said=said)


def table(program, folder, cases, runs, counts):
    """Prints the table of the cases, and gives the largest ratio."""
    sides = [[side(program, folder, make, query, times * n) for times in (1, 2)] for _, make, query, n in cases]
    parts.in_turns([one for pair in sides for one in pair], runs)
    print("\n| Case | Query | n | 2n | ms at n | ms at 2n | ratio | of instructions |\n|---|---|---|---|---|---|---|---|")
    worst = 0.0
    for (title, _, query, n), pair in zip(cases, sides):
        small, large = [one.time() for one in pair]
        counted = ""
        if counts:
            few, many = [one.instructions() for one in pair]
            counted = "%.2f" % (many / few)
        worst = max(worst, large / small)
        print("| %s | %s | %d | %d | %.2f | %.2f | %.2f | %s |" % (
            title, query, n, 2 * n, small * 1e3, large * 1e3, large / small, counted), flush=True)
    return worst


def rated():
    """Sets of files without an error: a title, and the texts by name."""
    for title, text in files.texts(1_000_000):
        yield title, {"a.proto": text}
    count = 200
    yield "%d files in a tree of imports" % count, {workspaces.HUB: workspaces.hub(), **{
        workspaces.name(i): workspaces.text(i, count) for i in range(count)}}


def rates(programs, folder, runs, counts):
    """Prints the table of the rates: the cells of a column have a figure for each program."""
    print("| Files | kB | MB/s | instructions a byte |\n|---|---|---|---|")
    for i, (title, texts) in enumerate(rated()):
        paths = {name: written(os.path.join(folder, str(i), name), text) for name, text in texts.items()}
        words = ["Diagnostics"] + [word for pair in paths.items() for word in pair]
        sides = [parts.Rounds(program, words, said=b"\n0 errors, 0 nulls\n") for program in programs]
        parts.in_turns(sides, runs)
        size = sum(map(len, texts.values()))
        print("| %s | %.0f | %s | %s |" % (
            title, size / 1e3, "; ".join("%.1f" % (size / side.time() / 1e6) for side in sides),
            "; ".join("%.0f" % (side.instructions() / size) for side in sides) if counts else ""), flush=True)


def main():
    words = argparse.ArgumentParser()
    words.add_argument("--runs", type=int, default=7)
    words.add_argument("--program", help="the program, built before")
    words.add_argument("--only", default="", help="a word of the titles of the cases to run")
    words.add_argument("--instructions", action="store_true", help="count the instructions too, by valgrind")
    words.add_argument("--rates", action="store_true", help="the rates of files without an error, and no cases")
    words.add_argument("--against", help="another program, for the rates")
    words = words.parse_args()
    cases = [case for case in CASES if words.only in case[0]]
    with tempfile.TemporaryDirectory() as folder:
        program = words.program or parts.built_from(os.path.join(folder, "build"), "compile", CRATES, USES)
        if words.rates:
            rates([words.against, program] if words.against else [program], folder, words.runs, words.instructions)
            return 0
        worst = table(program, folder, cases, words.runs, words.instructions)
        hostile(program, folder)
    print("\nlargest ratio %.2f, wanted at most %.1f" % (worst, parts.MOST))
    return 0 if worst <= parts.MOST else 1


if __name__ == "__main__":
    sys.exit(main())
