#!/usr/bin/env python3
"""Tries the wrong bodies that checks/edits/CRATE.txt lists: the checker has to refuse each of them.

The gate tries the edits in crates/CRATE/must-fail, the wrong bodies of the promises in docs/theorems/. All others stand in these lists,
and whoever changes a crate runs its list before the change lands. A list is plain text. An edit in it looks like this:

    edit: asks_the_same_again
    verdict: refused
    clause: `first` (`turn`)
    file: src/linked.rt
    -Some(second) => Ok(Turn::Ask(S::linked_key(&second.file)?, ())),
    +Some(_) => Ok(Turn::Ask(S::linked_key(&import.file)?, ())),

The lines with `-` are the old text, which stands once in the file, and those with `+` are the new text. A text is what
follows the sign, and can be part of a line or several lines. Lines with `-` after lines with `+` begin another pair, and
a `file:` line can change the file. A line `+` alone is an empty new text. Blank lines and lines with `#` say nothing.

The verdict is one of:
    refused                 this script saw the refusal, and `clause` is what the checker said
    refused in the gate     `rt ci` refused it when it was in the gate; the clause was read from the contract, not seen
    refused in a review     a reviewer's check refused it, at `clause`
    not tried               nothing is known of it yet
    fails a test            no contract can refuse it, since it turns what threads do; the test that `clause` names fails with it

The edits are tried in a copy of the repository, over the work that the last `rt check` of the crate kept: run `rt check`
in the crate's folder first. Edits of different functions are tried together, in one `rt check --allow-holes`. A goal is
stated by the contracts of what a function calls, so no edit hides another. An edit counts as refused there if the checker
names a goal or an answer of the very function that it changes. An edit can bring answers of that function. Each other edit is
tried alone, and is let through if the whole crate is proved with it. A refusal by a name that the edit took away does not count.

An edit that fails a test has a line `tests:` with the crate of the test, or with `stdio` or `listen` for rows of the script of that
name in checks/. With `--tests` these edits are tried, and no others: each in a run of that crate's tests without a proof, or of those
rows over a program without a proof. A test or a row that `clause` names has to fail.

Printed are, for each edit, whether it was refused, the processor seconds, and what was refused first.
The status is 1 if an edit was let through or could not be tried.

usage: checks/edits.py CRATE [NAME..]     tries all edits of the crate, or those named
       checks/edits.py --all              tries those of all crates
       checks/edits.py --apply-only ..    proves nothing: says whether each edit still applies
       checks/edits.py --alone ..         tries each edit alone
       checks/edits.py --note ..          writes the verdict and the clause of each refused edit into the list
       checks/edits.py --tests ..         tries those that fail a test, and not the others
       checks/edits.py --jobs N ..        gives each check N processors, else one
"""
import argparse
import os
import re
import resource
import shutil
import subprocess
import sys
import tempfile

HERE = os.path.dirname(os.path.realpath(__file__))
TOP = os.path.dirname(HERE)
LISTS = os.path.join(HERE, "edits")
PARTS = ["src", "specs", "proofs"]
# what the checker says of a proof file that names what an edit took away
BY_NAME = r"has no field|is not in scope|has no `|was not admitted"
NAME_ALONE = "by a name alone: "
TESTED = "fails a test"
ROWS = ("stdio", "listen")
VERDICTS = ["refused", "refused in the gate", "refused in a review", "not tried", TESTED]


class Edit:
    """One edit of a list: its name, its verdict, its clause, and triples of a file, an old and a new text."""

    def __init__(self, name):
        self.name, self.verdict, self.clause, self.tests, self.pairs = name, "", "", "", []


def read_list(crate):
    """The edits of a crate's list. A line that cannot be read ends the script."""
    path = os.path.join(LISTS, crate + ".txt")
    if not os.path.isfile(path):
        sys.exit("there is no list %s" % path)
    edits, file, sign = [], None, ""
    with open(path, encoding="utf-8") as it:
        lines = it.read().split("\n")
    for number, line in enumerate(lines, 1):
        word, _, value = line.partition(": ")
        if line[:1] == "-" and file and edits:
            if sign == "-":
                edits[-1].pairs[-1][1] += "\n" + line[1:]
            else:
                edits[-1].pairs.append([file, line[1:], None])
        elif line[:1] == "+" and sign in "+-" and sign:
            last = edits[-1].pairs[-1]
            last[2] = line[1:] if last[2] is None else last[2] + "\n" + line[1:]
        elif word == "edit":
            edits.append(Edit(value))
            file = None
        elif word == "file" and edits:
            file = value
        elif word in ("verdict", "clause", "tests") and edits:
            setattr(edits[-1], word, value)
        elif line.strip() and line[0] != "#":
            sys.exit("%s:%d: this line has no meaning: %s" % (path, number, line))
        sign = line[:1] if line[:1] in ("+", "-") else ""
    for edit in edits:
        if edit.verdict not in VERDICTS or not edit.clause or not edit.pairs or any(new is None for _, _, new in edit.pairs):
            sys.exit("%s: %s lacks a verdict, a clause, an old text or a new text" % (path, edit.name))
        if (edit.verdict == TESTED) != bool(edit.tests):
            sys.exit("%s: %s needs a line `tests:` and the verdict `%s`, or neither" % (path, edit.name, TESTED))
    names = [edit.name for edit in edits]
    if len(set(names)) < len(names):
        sys.exit("%s: a name stands twice" % path)
    return edits


def changed(edit, folder):
    """The texts of the files that the edit changes, or why it cannot be applied."""
    texts = {}
    for file, old, new in edit.pairs:
        if file not in texts:
            if not os.path.isfile(os.path.join(folder, file)):
                return None, "there is no file %s" % file
            with open(os.path.join(folder, file), encoding="utf-8") as it:
                texts[file] = it.read()
        if texts[file].count(old) != 1:
            return None, "an old text is in %s %d times" % (file, texts[file].count(old))
        texts[file] = texts[file].replace(old, new)
    return texts, ""


def written(folder, texts):
    """Writes texts into files below the folder, and returns what stood there."""
    before = {}
    for file, text in texts.items():
        path = os.path.join(folder, file)
        with open(path, encoding="utf-8") as it:
            before[file] = it.read()
        with open(path, "w", encoding="utf-8") as it:
            it.write(text)
    return before


def copied(room, crate):
    """Copies the repository's sources into `room`, with the work that checks kept: links, but for the crate itself."""
    for name in ["crates.txt", "HANDLES"]:
        shutil.copy(os.path.join(TOP, name), room)
    os.mkdir(os.path.join(room, ".git"))
    for name in sorted(os.listdir(os.path.join(TOP, "crates"))):
        here, there = os.path.join(TOP, "crates", name), os.path.join(room, "crates", name)
        for part in PARTS:
            if os.path.isdir(os.path.join(here, part)):
                shutil.copytree(os.path.join(here, part), os.path.join(there, part))
        if os.path.isdir(os.path.join(here, "out")):
            shutil.copytree(os.path.join(here, "out"), os.path.join(there, "out"), copy_function=shutil.copy2 if name == crate else os.link)


def seconds():
    """The processor seconds of all processes that this one has waited for."""
    used = resource.getrusage(resource.RUSAGE_CHILDREN)
    return used.ru_utime + used.ru_stime


def check(folder, jobs, *flags):
    """The lines of a check of the crate in the folder, on `jobs` processors."""
    words = ["rt", "check", "--jobs", str(jobs), *flags]
    ran = subprocess.run(words, cwd=folder, stdin=subprocess.DEVNULL, stdout=subprocess.PIPE, stderr=subprocess.STDOUT, text=True, errors="replace")
    return ran.stdout.split("\n")


def owner_of(begun):
    """The type of the last `impl` of a text, and the trait after it, as the checker names the two: `LinkedQueryQuery`."""
    heads = re.findall(r"^(?:impl|trait)\b[^{]*\{", begun, re.M)
    head, shorter = heads[-1] if heads else "", None
    while head != shorter:
        shorter, head = head, re.sub(r"<[^<>]*>", "", head)
    words = re.findall(r"\w+", head.partition(" where")[0])[1:]
    return words[2] + words[0] if len(words) > 2 and words[1] == "for" else (words or [""])[0]


def function_of(edit, folder):
    """The file and the name of the one function that the edit changes, with its type, or None. What it brings of proofs counts for nothing."""
    found = set()
    for file, old, _ in edit.pairs:
        if file.startswith("proofs/"):
            continue
        with open(os.path.join(folder, file), encoding="utf-8") as it:
            text = it.read()
        head = r"^( *)(?:pub(?:\([a-z]+\))? )?fn (\w+)"
        begun = text[: text.find(old)]
        names = list(re.finditer(head, begun, re.M))
        # a closing brace as far to the left as the function's head ends it
        if not file.startswith("src/") or not names or re.search(r"^%s\}" % names[-1][1], begun[names[-1].start():], re.M) or re.search(head, old, re.M):
            return None
        found.add((file, (owner_of(begun) + "::" if names[-1][1] else "") + names[-1][2]))
    return found.pop() if len(found) == 1 else None


def own_refusal(lines, crate, function):
    """What the checker said of the function itself, or None where it said nothing, or spoke only of what it calls."""
    file, name = function
    module = re.sub(r"/main\.rt$|/lib\.rt$|\.rt$", "", file[len("src/"):]).replace("/", "::")
    said = [re.match(r"fn %s::(\S+): (.*)" % crate, it) for it in lines]
    # a closure has the path of its function, with `fn` before the function's name
    closures = [it for it in said if it and re.search(r"(^|::)fn::%s::\w+$" % name, it[1])]
    said = [it for it in said if it and ("::" + it[1]).endswith("::" + name)]
    # a method can stand in another module than its type
    said = [it for it in said if it[1].startswith(module + "::")] or said
    if len(said) != 1:
        return None
    for it in said + closures:
        if re.match(r"no proof|not proved", it[2]):
            goals = re.search(r"`search` did not prove (`[^`]+`)", it[2])
            refusal = "`%s` (%s)" % (it[1], goals[1]) if goals else named_error(lines, it[1])
            if refusal:
                return refusal
    return None


def named_error(lines, function):
    """The first error in the answers of a function, unless all its errors are of names that the edit took away."""
    folder = "proofs/%s/" % function.replace("::", "/")
    said = [it for it in lines if folder in it.partition(": ")[0] and ": error" in it and not re.search(BY_NAME, it)]
    said = [re.search(r": error: (`[^`]+`)", it) for it in said]
    return "`%s` (%s, an equation of its answers)" % (function, said[0][1]) if said and said[0] else None


def said_first(lines):
    """The first goal that the checker did not prove; one that a proof file cannot name comes last."""
    said = [it for it in lines if re.match(r"(note: )?\S+:\d+:\d+:", it)]
    said = [it for it in said if ": error" in it or it.startswith("note: ")] or said
    goals = [it for it in said if not (re.match(r"(\./)?proofs/", it) and re.search(BY_NAME, it))]
    if said and not goals:
        return NAME_ALONE + said[0]
    goals = [re.sub(r"^note: (src/\S+?):\d.*?\((`[^`]+`)\).*", r"a goal in \1 (\2)", it) for it in goals]
    return (goals or [it for it in lines if it.strip()][-1:] or ["it said nothing"])[0]


def tried(folder, crate, edit, jobs):
    """Whether the checker refuses the crate with the edit, and what it said first."""
    texts, why = changed(edit, folder)
    if texts is None:
        return False, "it cannot be applied: " + why
    function = function_of(edit, folder)
    before = written(folder, texts)
    try:
        lines = check(folder, jobs)
    finally:
        written(folder, before)
    if any(it.startswith("logic=proved") for it in lines):
        return False, "LET THROUGH"
    said = said_first(lines)[:300]
    if not any(it.startswith("logic=not-proved") for it in lines):
        return False, "it did not reach the checker: " + said
    own = function and own_refusal(lines, crate, function)
    return bool(own) or not said.startswith(NAME_ALONE), own or said


def of_different_functions(folder, edits):
    """The first edit of each function, by the function. Those that change no single function, or proofs of others, are left out."""
    chosen = {}
    for edit in edits:
        function = function_of(edit, folder)
        if function and function not in chosen and brings_own_proofs(edit, function[1]) and changed(edit, folder)[0]:
            chosen[function] = edit
    return chosen


def brings_own_proofs(edit, function):
    """Whether each proof file that the edit changes is one of its function."""
    own = r"^proofs/(.*/)?%s/\w+\.antt$" % function.replace("::", "/")
    return all(re.search(own, file) for file, _, _ in edit.pairs if not file.startswith("src/"))


def tried_together(folder, crate, chosen, jobs):
    """What was refused of each edit of a function of its own, by name, in one check."""
    before = {}
    try:
        for edit in chosen.values():
            texts = changed(edit, folder)[0]
            if texts:
                before = {**written(folder, texts), **before}
        lines = check(folder, jobs, "--allow-holes")
    finally:
        written(folder, before)
    found = {edit.name: own_refusal(lines, crate, function) for function, edit in chosen.items()}
    return {name: said for name, said in found.items() if said}


def apply_all(crate, edits):
    """Says which edits do not apply, and returns how many."""
    failed = 0
    for edit in edits:
        texts, why = changed(edit, os.path.join(TOP, "crates", crate))
        if texts is None:
            print("%s: %s: %s" % (crate, edit.name, why))
            failed += 1
    print("%s: %d edits, %d do not apply" % (crate, len(edits), failed))
    return failed


def note(crate, edit, clause):
    """Writes into the list that the edit was refused, and at which clause."""
    path = os.path.join(LISTS, crate + ".txt")
    with open(path, encoding="utf-8") as it:
        text = it.read()
    head = "edit: %s\n" % edit.name
    was = "%sverdict: %s\nclause: %s\n" % (head, edit.verdict, edit.clause)
    with open(path, "w", encoding="utf-8") as it:
        it.write(text.replace(was, "%sverdict: refused\nclause: %s\n" % (head, clause)))


def try_all(crate, edits, alone, notes, jobs):
    """Tries the edits, each check on `jobs` processors, says of each what is known as soon as it is, and returns how many were not refused."""
    refused = set()
    rooms = os.path.join(HERE, "out")
    os.makedirs(rooms, exist_ok=True)

    def say(edit, well, used, said):
        """Prints what is known of the edit, and notes it."""
        print("%-10s %-45s %-8s %6.1f s  %s" % (crate, edit.name, "refused" if well else "NOT SO", used, said), flush=True)
        if well:
            refused.add(edit.name)
            if notes:
                note(crate, edit, said)

    with tempfile.TemporaryDirectory(prefix="edits-", dir=rooms) as room:
        copied(room, crate)
        folder = os.path.join(room, "crates", crate)
        left = [] if alone else edits
        while left:
            chosen = of_different_functions(folder, left)
            left = [it for it in left if it not in chosen.values()] if len(chosen) > 1 else []
            start = seconds()
            found = tried_together(folder, crate, chosen, jobs) if len(chosen) > 1 else {}
            share = (seconds() - start) / max(len(found), 1)
            for edit in edits:
                if edit.name in found:
                    say(edit, True, share, found[edit.name])
        for edit in [it for it in edits if it.name not in refused]:
            start = seconds()
            well, said = tried(folder, crate, edit, jobs)
            say(edit, well, seconds() - start, said)
    return len(edits) - len(refused)


def run_tests(room, edit):
    """What a run of the tests of the edit's crate of tests says: of each test whether it passed, and its last line."""
    ran = subprocess.run(["rt", "try", "--test"], cwd=os.path.join(room, "crates", edit.tests), stdin=subprocess.DEVNULL,
                         stdout=subprocess.PIPE, stderr=subprocess.STDOUT, text=True, errors="replace")
    lines = [it for it in ran.stdout.split("\n") if it.strip()]
    found = (re.match(r"test (\S+) \.\.\. (.*)", line) for line in lines)
    return {it[1]: it[2] == "ok" for it in found if it}, lines[-1]


def run_rows(room, script, names):
    """What a run of these rows of a script of checks/ says, over a program that is built in the room without a proof."""
    program = os.path.join(room, "pq_server")
    build = [sys.executable, os.path.join(TOP, "bench", "unproved.py"), program, "--quick", "--crate", os.path.join(room, "crates", "pq_server")]
    ran = subprocess.run(build, stdin=subprocess.DEVNULL, stdout=subprocess.PIPE, stderr=subprocess.STDOUT, text=True, errors="replace")
    if ran.returncode != 0:
        return {}, ran.stdout.strip()[-200:]
    rows = [sys.executable, os.path.join(HERE, script + ".py"), "--program", program, "--only", *names]
    ran = subprocess.run(rows, stdin=subprocess.DEVNULL, stdout=subprocess.PIPE, stderr=subprocess.STDOUT, text=True, errors="replace")
    lines = [it for it in ran.stdout.split("\n") if it.strip()] or ["it printed nothing"]
    found = (re.match(r"(ok|FAILED) +(\w+) ", line) for line in lines)
    return {it[2]: it[1] == "ok" for it in found if it}, lines[-1]


def fails_a_test(crate, edit):
    """Whether a test of the edit's crate of tests, or a row of a script, fails with it, and what the run said last."""
    with tempfile.TemporaryDirectory(prefix="edits-") as room:
        for name in ["crates.txt", "HANDLES"]:
            shutil.copy(os.path.join(TOP, name), room)
        os.mkdir(os.path.join(room, ".git"))
        shutil.copytree(os.path.join(TOP, "crates"), os.path.join(room, "crates"), ignore=shutil.ignore_patterns("out", "must-fail"))
        texts, why = changed(edit, os.path.join(room, "crates", crate))
        if texts is None:
            return False, "it cannot be applied: " + why
        written(os.path.join(room, "crates", crate), texts)
        named = re.findall(r"`([\w:]+)`", edit.clause)
        passed, last = run_rows(room, edit.tests, named) if edit.tests in ROWS else run_tests(room, edit)
        if not any(name in passed for name in named):
            return False, "the test did not run: " + last[:200]
        failed = [name for name in named if not passed.get(name, True)]
        return bool(failed), "`%s`" % "`, `".join(failed) if failed else "LET THROUGH"


def try_tests(crate, edits):
    """Tries the edits that fail a test, and returns how many failed none."""
    left = 0
    for edit in edits:
        start = seconds()
        well, said = fails_a_test(crate, edit)
        left += not well
        print("%-10s %-45s %-8s %6.1f s  %s" % (crate, edit.name, "caught" if well else "NOT SO", seconds() - start, said), flush=True)
    return left


def main():
    words = argparse.ArgumentParser(usage=__doc__[__doc__.index("usage: ") + 7:])
    words.add_argument("crate", nargs="?")
    words.add_argument("names", nargs="*")
    words.add_argument("--all", action="store_true")
    for it in ["--apply-only", "--alone", "--note", "--tests"]:
        words.add_argument(it, action="store_true")
    words.add_argument("--jobs", type=int, default=1)
    words = words.parse_args()
    words.all = words.all or words.apply_only and not words.crate
    if not words.crate and not words.all:
        sys.exit(__doc__)
    crates = sorted(it[:-len(".txt")] for it in os.listdir(LISTS) if it.endswith(".txt")) if words.all else [words.crate]
    failed = 0
    for crate in crates:
        edits = read_list(crate)
        absent = [it for it in words.names if it not in {edit.name for edit in edits}]
        if absent:
            sys.exit("%s has no edit %s" % (crate, ", ".join(absent)))
        edits = [it for it in edits if it.name in words.names] if words.names else edits
        if words.apply_only:
            failed += apply_all(crate, edits)
        elif words.tests:
            failed += try_tests(crate, [it for it in edits if it.verdict == TESTED])
        else:
            failed += try_all(crate, [it for it in edits if it.verdict != TESTED], words.alone, words.note, words.jobs)
    return 1 if failed else 0


if __name__ == "__main__":
    sys.exit(main())
