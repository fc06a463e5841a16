#!/usr/bin/env python3
"""Measures demands on an engine after edits, with the rules of proto3 files, on sets of files that this script makes.

The program is a few lines of Rattle in engine.rt.txt. It is put into a scratch repository with a copy of the crates that it
stands on, proved and built there by `rt`. The files are those of `workspaces.py`: a tree in which each imports three below
it, and a hub that all import, about 2 kB each. A ring has files of one import and one message.

A case is a script of edits and demands of diagnostics in two parts, as in `memos.py`, which says how it is measured. Each
case says how many errors its last answer has, and most how many rules a round starts: both are checked.

The table has the cost of one round at both sizes, their ratio, and the rules that one round starts at the larger size. Below
it are the factors of first demands to compilations from scratch, without the setting of the files.

usage: bench/engine.py [--runs N] [--count] [--program PATH] [--only WORD]
"""
import subprocess
import sys
import tempfile

import memos
import parts
import workspaces
from workspaces import hub, leaf, message, name, root, text

CRATES = ["pq_lex", "pq_names", "pq_inputs", "pq_rules", "pq_memo", "pq_syntax", "pq_links", "pq_schema", "pq_checks", "pq_proto"]
USES = "pq_names pq_inputs pq_rules pq_memo pq_checks pq_proto"
CUT = memos.CUT
HUB = "hub.proto"
COMMENTS = ["\n// Of no weight.\n", "\n// As before it.\n"]
SIZES = (100, 1_000)


def low(file, words):
    return "low %s=%s\n" % (file, words.replace("\n", "|"))


def high(file, words):
    return "high %s=%s\n" % (file, words.replace("\n", "|"))


def ask(file):
    return "Diagnostics %s\n" % file


def ask_root(n):
    return ask(name(root(n)))


def ask_each(n):
    return "".join(ask(name(i)) for i in range(n))


def tree(n, line=low):
    return line(HUB, hub()) + "".join(line(name(i), text(i, n)) for i in range(n))


def edits(line, file, texts, asked):
    """The file is given each of the texts, with the demands `asked` after each."""
    return "".join(line(file, words) + asked for words in texts)


# Each case returns the two parts of its script, the rules that the second starts, or None, and the errors of the last answer.

def first_of_root(n):
    """The diagnostics of the root, which reaches all, for the first time: 7 rules a file, for the root more."""
    return tree(n) + CUT + ask_root(n), None, 0


def files_set(n):
    return first_of_root(n)


def compile_root(n):
    return first_of_root(n)


def first_of_each(n):
    return tree(n) + CUT + ask_each(n), None, 0


def compile_each(n):
    return first_of_each(n)


def nothing_each(n):
    """The diagnostics of n files are demanded one by one, and nothing changed."""
    return tree(n) + ask_each(n) + CUT + ask_each(n), 0, 0


def unrelated(n, line):
    """The root's diagnostics are demanded after an edit of a file that it does not reach."""
    return tree(n, line) + ask_root(n) + CUT + edits(low, "other", ["", "x"], ask_root(n)), 0, 0


def nothing_durable(n):
    return unrelated(n, high)


def nothing_walked(n):
    return unrelated(n, low)


def edited(n, line, file, texts, asked, starts):
    """All were demanded, and then the file is edited twice, with demands after each edit."""
    return tree(n, line) + ask_each(n) + CUT + edits(line, file, texts, asked), starts, 0


def texts_of(i, n, more):
    return [text(i, n, words) for words in more]


def messages():
    return [message(0), message(1)]


def leaf_comment(n):
    """A comment of a leaf, as long as before; its diagnostics are demanded. Its text alone is parsed."""
    return edited(n, low, name(leaf(n)), texts_of(leaf(n), n, COMMENTS), ask(name(leaf(n))), 2)


def leaf_edit(n):
    """A message of a leaf; the leaf's diagnostics are demanded."""
    return edited(n, low, name(leaf(n)), texts_of(leaf(n), n, messages()), ask(name(leaf(n))), None)


def leaf_comment_root(n):
    """A comment of a leaf; the root's diagnostics are demanded."""
    return edited(n, low, name(leaf(n)), texts_of(leaf(n), n, COMMENTS), ask_root(n), 2)


def leaf_edit_root(n):
    """A message of a leaf; the root's diagnostics are demanded."""
    return edited(n, low, name(leaf(n)), texts_of(leaf(n), n, messages()), ask_root(n), None)


def root_edit(n):
    """A message of the root; the root's diagnostics are demanded."""
    return edited(n, low, name(root(n)), texts_of(root(n), n, messages()), ask_root(n), None)


def hub_comment(n):
    """A comment of the file that all import; the diagnostics of all are demanded."""
    return edited(n, low, HUB, [hub(words) for words in COMMENTS], ask_each(n), 2)


def moved_hub():
    """A line put before everything in the file that all import, and that line taken away."""
    return ["// Moved.\n" + hub(), hub()]


def hub_moved(n):
    """All text of the file that all import is moved; the diagnostics of the root are demanded. No rule of the root starts."""
    return edited(n, low, HUB, moved_hub(), ask_root(n), 4)


def hub_moved_each(n):
    """All text of the file that all import is moved; the diagnostics of each other file are demanded."""
    return edited(n, low, HUB, moved_hub(), ask_each(n), 4)


def hub_moved_hub(n):
    """All text of the file that all import is moved; its own diagnostics are demanded, which are put at their new places."""
    before = tree(n) + ask_each(n) + ask(HUB)
    return before + CUT + edits(low, HUB, moved_hub(), ask(HUB)), 6, 0


def hub_edit(n):
    """A message of the file that all import; the diagnostics of all are demanded."""
    return edited(n, low, HUB, [hub(words) for words in messages()], ask_each(n), None)


def hub_edit_root(n):
    """A message of the file that all import; the root's diagnostics are demanded."""
    return edited(n, low, HUB, [hub(words) for words in messages()], ask_root(n), None)


def high_comment(n):
    """A comment of a leaf of High durability, as all files are; the root's diagnostics are demanded."""
    return edited(n, high, name(leaf(n)), texts_of(leaf(n), n, COMMENTS), ask_root(n), 2)


def high_edit(n):
    """A message of a leaf of High durability, as all files are; the root's diagnostics are demanded."""
    return edited(n, high, name(leaf(n)), texts_of(leaf(n), n, messages()), ask_root(n), None)


def low_among_high(n):
    """A message of a leaf of Low durability, where all others are High, and the leaf's diagnostics are demanded."""
    before = tree(n, high) + low(name(leaf(n)), text(leaf(n), n)) + ask_each(n)
    return before + CUT + edits(low, name(leaf(n)), texts_of(leaf(n), n, messages()), ask(name(leaf(n)))), None, 0


def ring_text(i, n, cut=False):
    import_line = "" if cut else 'import "r%d.proto";' % ((i + 1) % n)
    return 'syntax="proto3";%smessage M%d{}' % (import_line, i)


def ring(n):
    """A ring of n files is cut before the one whose diagnostics are demanded, and closed again."""
    files = "".join(low("r%d.proto" % i, ring_text(i, n)) for i in range(n))
    last, asked = n // 2 - 1, ask("r%d.proto" % (n // 2))
    texts = [ring_text(last, n, True), ring_text(last, n)]
    return files + asked + CUT + edits(low, "r%d.proto" % last, texts, asked), None, 1


def ring_each(n):
    """The same, with the diagnostics of each file demanded after each edit."""
    files = "".join(low("r%d.proto" % i, ring_text(i, n)) for i in range(n))
    last, asked = n // 2 - 1, "".join(ask("r%d.proto" % i) for i in range(n))
    texts = [ring_text(last, n, True), ring_text(last, n)]
    return files + asked + CUT + edits(low, "r%d.proto" % last, texts, asked), None, 1


# A case: its title, how it is played, and its script.
CASES = [("first demand of the root, files set", "first", first_of_root),
         ("files set alone", "inputs", files_set),
         ("the root from scratch, files set", "scratch", compile_root),
         ("first demand of each file, files set", "first", first_of_each),
         ("each file from scratch, files set", "scratch", compile_each),
         ("nothing changed, each file demanded", "engine", nothing_each),
         ("unrelated edit, durable root (2 edits)", "engine", nothing_durable),
         ("unrelated edit, root, each key looked at (2 edits)", "engine", nothing_walked),
         ("a comment of a leaf, leaf demanded (2 edits)", "engine", leaf_comment),
         ("a message of a leaf, leaf demanded (2 edits)", "engine", leaf_edit),
         ("the same, all others durable (2 edits)", "engine", low_among_high),
         ("a comment of a leaf, root demanded (2 edits)", "engine", leaf_comment_root),
         ("a message of a leaf, root demanded (2 edits)", "engine", leaf_edit_root),
         ("a message of the root, root demanded (2 edits)", "engine", root_edit),
         ("a comment of the hub, each demanded (2 edits)", "engine", hub_comment),
         ("a line before all of the hub, root demanded (2 edits)", "engine", hub_moved),
         ("a line before all of the hub, each demanded (2 edits)", "engine", hub_moved_each),
         ("a line before all of the hub, hub demanded (2 edits)", "engine", hub_moved_hub),
         ("a message of the hub, each demanded (2 edits)", "engine", hub_edit),
         ("a message of the hub, root demanded (2 edits)", "engine", hub_edit_root),
         ("a comment of a High leaf, root demanded (2 edits)", "engine", high_comment),
         ("a message of a High leaf, root demanded (2 edits)", "engine", high_edit),
         ("a ring cut and closed, one demanded (2 edits)", "engine", ring),
         ("a ring cut and closed, each demanded (2 edits)", "engine", ring_each)]


class Side(memos.Side):
    """One size of a case, which says how many errors its last answer has."""

    def __init__(self, program, folder, how, make, n, count):
        _, starts, self.errors = make(n)
        super().__init__(program, folder, how, lambda n: make(n)[:2], n, count, make.__name__)

    def check(self):
        super().check()
        with open(self.path, "rb") as source:
            done = subprocess.run(self.words + ["1"], stdin=source, capture_output=True)
        if self.words[1] != "inputs" and int(done.stdout.split()[1]) != self.errors:
            sys.exit("%s: %s errors in place of %d" % (self.path, done.stdout.decode(), self.errors))


def main():
    words = memos.options(5)
    cases = [case + SIZES for case in CASES if words.only in case[0]]
    with tempfile.TemporaryDirectory() as folder:
        program = words.program or parts.built_from(folder, "engine", CRATES, USES)
        found = memos.measured(program, 1 if words.count else words.runs, cases, words.count, Side)
    memos.printed(cases, found, words.count)
    of = {case[2]: pair for case, pair in zip(cases, found)}
    for first, scratch, title in ((first_of_root, compile_root, "of the root"), (first_of_each, compile_each, "of each file")):
        if {first, scratch, files_set} <= set(of):
            engine, compiled = ([pair[0] - less[0] for pair, less in zip(of[case], of[files_set])] for case in (first, scratch))
            print("\nA first demand %s took %.2f times as long as from scratch at %d files, %.2f times at %d." % (
                title, engine[0] / compiled[0], SIZES[0], engine[1] / compiled[1], SIZES[1]))
    return 0


if __name__ == "__main__":
    sys.exit(main())
