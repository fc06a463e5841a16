#!/usr/bin/env python3
"""Checks what the pages of the repository claim, as far as names and counts show it.

It checks these; each finding is a line, and any finding gives the status 1.
- The lists of definitions in docs/theorems/ name files of specs/ that exist, and each file of
  specs/ that a public contract reaches (`reach.py`).
- The counts of "Read the headline in this order" are those of `reach.py`, and the files are those that it reaches.
- docs/theorems/ has a page for each crate, docs/THEOREMS.md a link to it, and both say alike what it is about.
- Each function, type and clause in a table of docs/theorems/ exists in its crate (`theorems.py` writes most of these tables).
- A public name has one path: only the names in RE_EXPORTED may be passed on by another crate.
- The map: docs/ARCHITECTURE.md has a row for each crate of the product, and names no crate below it that crates.txt does not give
  it; a crate names only crates that crates.txt gives it; code and definitions of specs/ rest on no lower crate's proofs; threads,
  locks and sockets are in the crates of HANDLES alone.
- README.md has a row or a line for each crate of crates.txt, docs/ARCHITECTURE.md mentions each script that is run,
  docs/GATE.md has at most 60 lines, and docs/THEOREMS.md at most 10,000 bytes.
- The pages of PLAIN count no files, lines or functions, but for limits, and for what a script writes: such a count is stale soon.
- Pages name no path of a machine, and each path of the repository that they name exists.
- docs/FIGURES.md is what bench/figures.py makes of bench/results/.

usage: checks/pages.py --check [--top FOLDER]
"""
import argparse
import collections
import glob
import os
import re
import subprocess
import sys

import reach
import theorems

RE_EXPORTED = {"Memory", "RunId", "Text", "Shared", "Items"}
HANDLES = {"pq_mail", "pq_hall", "pq_server"}
HANDLE = re.compile(r"\b(?:std::thread|std::net|Mutex|RwLock|Condvar|mpsc|TcpListener|TcpStream)\b")
TESTS = re.compile(r"^(?:test_support|stored_sessions|tests_\w+)$")
# These come and go: crates of tests, rows of cases, lists of wrong bodies.
OPTIONAL = re.compile(r"^(?:cases/|checks/edits/|crates/(?:test_support|stored_sessions|tests_\w+)|crates/pq_server/(?:stdin|stdout))")
TO_COME = set()
GATE_LINES = 60
THEOREMS_BYTES = 10_000
PLAIN = ["README.md", "CONTRIBUTING.md", "docs/ARCHITECTURE.md", "docs/GATE.md", "docs/LIMITS.md", "docs/THEOREMS.md"]
# The heads of the tables of docs/theorems/: those that a script writes, and those by hand.
HEADS = ("Function", "Type", "---")
COUNT = re.compile(r"(?<![\w.,])(?<!at most )(?<!under )(?<!about )(?<!more than )"
                   r"(?:\d[\d,]*\d|nine|ten|eleven|twelve|thirteen|fourteen|fifteen|sixteen|seventeen|eighteen|nineteen|twenty) "
                   r"(?:[\w-]+ )?(?:bodies|clauses|comments|crates|definitions|edits|files|functions|lines|modules|rows|scripts|sessions)\b", re.I)
WRITTEN = re.compile(r"<!-- by .*? -->.*?<!-- end -->", re.S)
MACHINE = re.compile(r"(?<![\w.])/(?:home|work|opt|farm|tmp|root|mnt)/")
PATH = re.compile(r"^(?:docs|bench|checks|examples|cases|crates|bin|\.ci)/[\w./+-]*$")
NAME = r"[A-Za-z_]\w*"


def text_of(*parts):
    with open(os.path.join(*parts), encoding="utf-8") as file:
        return file.read()


def in_backticks(line):
    return re.findall(r"`([^`]+)`", line)


def expanded(token):
    """The last names of `A::{b, c}`, `A::b` or `b`."""
    group = re.match(r"^(?:[\w<>, ]+::)?\{(.*)\}$", token)
    parts = [part.strip() for part in group.group(1).split(",")] if group else [token]
    return [part.split("::")[-1] for part in parts]


def clauses_of(code):
    """The names of the clauses of each function, by its name, and under `all` those of a whole crate, ghosts included."""
    found, now = collections.defaultdict(set), "all"
    for line in code.splitlines():
        function = re.match(r"\s*(?:pub(?:\([a-z]+\))? )?(?:const )?fn (\w+)", line)
        now = function.group(1) if function else now
        for kind, name in re.findall(r"\b(ensures|requires|invariant|ghost)\*?( %s)? ?[:{=(]" % NAME, line):
            name = (kind + name if kind == "requires" else name or kind).strip()
            found[now].add(name)
            found["all"].add(name)
    return found


class Repository:
    def __init__(self, top):
        self.top, self.findings = top, []
        self.uses = {}
        for line in text_of(top, "crates.txt").splitlines():
            if line.strip() and not line.startswith("#"):
                name, _, used = line.partition(":")
                self.uses[name.split()[0]] = used.split("#")[0].split()
        self.specs = reach.Specs(top)
        self.reached = self.modules(self.specs.from_all())

    def say(self, page, finding):
        self.findings.append("%s: %s" % (page, finding))

    def modules(self, definitions):
        """Of each crate the modules of specs/, not of specs/aux/, in which some of these definitions are."""
        found = collections.defaultdict(set)
        for path, (lines, _) in self.specs.counts(definitions).items():
            crate, _, rest = path.partition("/specs/")
            if lines and not rest.startswith("aux/"):
                found[crate].add(rest[:-len(".antt")])
        return found

    def exists(self, crate, module):
        there = os.path.join(self.top, "crates", crate, "specs", module)
        return os.path.exists(there + ".antt") or module.endswith("/") and os.path.isdir(there)

    def sources(self, crate):
        paths = glob.glob(os.path.join(self.top, "crates", crate, "src", "**", "*.rt"), recursive=True)
        return [path for path in sorted(paths) if "/src/tests" not in path]

    # Definitions

    def compare_lists(self, page, crate, listed):
        for module in sorted(listed):
            if not self.exists(crate, module):
                self.say(page, "%s has no specs/%s" % (crate, module))
        for module in sorted(self.reached[crate]):
            if module not in listed and not any(name.endswith("/") and module.startswith(name) for name in listed):
                self.say(page, "the definitions of %s lack %s, which a public contract reaches" % (crate, module))

    def check_theorem_lists(self):
        front = text_of(self.top, "docs", "THEOREMS.md")
        if len(front.encode()) > THEOREMS_BYTES:
            self.say("docs/THEOREMS.md", "more than %d bytes" % THEOREMS_BYTES)
        for crate in theorems.crates_of(self.top):
            page = "docs/theorems/%s.md" % crate
            if not os.path.exists(os.path.join(self.top, page)):
                self.say(page, "there is no such page")
                continue
            lines = text_of(self.top, page).splitlines()
            title = re.match(r"# %s: (.+)" % crate, lines[0])
            if not title:
                self.say(page, "it does not begin with `# %s: ` and what it is about" % crate)
            elif "| [`%s`](theorems/%s.md) | %s |" % (crate, crate, title.group(1)) not in front:
                self.say("docs/THEOREMS.md", "no row with a link to %s and its title" % page)
            definitions = [line for line in lines if line.startswith("Definitions:")]
            if not definitions:
                self.say(page, "no line of definitions")
                continue
            own = re.sub(r"`[^`]+` of `[^`]+`", "", definitions[0])
            self.compare_lists(page, crate, set(in_backticks(own)))

    def check_map_rows(self):
        page = "docs/ARCHITECTURE.md"
        rows = {}
        for line in text_of(self.top, page).splitlines():
            cells = [cell.strip() for cell in line.strip("|").split("|")]
            if len(cells) == 3 and re.match(r"^`pq_\w+`$", cells[0]):
                rows[in_backticks(cells[0])[0]] = cells
        for crate, cells in rows.items():
            if crate not in self.uses:
                if crate not in TO_COME:
                    self.say(page, "the map has %s, crates.txt has not" % crate)
                continue
            for other in in_backticks(cells[-1]):
                if other not in self.uses[crate]:
                    self.say(page, "%s depends on %s by the map, not by crates.txt" % (crate, other))
        for crate in self.uses:
            if crate.startswith("pq_") and crate not in rows:
                self.say(page, "the map lacks %s" % crate)

    def check_headline(self):
        page = "docs/THEOREMS.md"
        text = text_of(self.top, page)
        counts = self.specs.headline()
        if any("/aux/" in path for path in counts):
            self.say(page, "the contract of play reaches specs/aux")
        for words in reach.stated(counts):
            if words not in text:
                self.say(page, "the headline lacks `%s`; checks/reach.py --page writes the counts of rows that there are" % words)

    # Functions and clauses

    def check_names(self):
        for crate in self.uses:
            page = "docs/theorems/%s.md" % crate
            if not os.path.exists(os.path.join(self.top, page)):
                continue
            code = "".join(text_of(path) for path in self.sources(crate))
            terms = "".join(text_of(path) for path in glob.glob(
                os.path.join(self.top, "crates", crate, "specs", "**", "*.antt"), recursive=True))
            clauses = clauses_of(code)
            for line in text_of(self.top, page).splitlines():
                cells = [cell.strip() for cell in line.strip("|").split("|")]
                if not line.startswith("|") or len(cells) != 3 or cells[0] in HEADS:
                    continue
                names = [name for token in in_backticks(cells[0]) for name in expanded(token)]
                for name in names:
                    if not re.search(r"\b(?:fn|struct|enum|trait|type) %s\b" % re.escape(name), code):
                        self.say(page, "%s has no function or type `%s`" % (crate, name))
                # A clause belongs to each function of its row; a member of a type's impl to the crate.
                wide = not names or any(name[0].isupper() for name in names)
                for token in in_backticks(cells[1]):
                    there = [clauses["all"]] if wide else [clauses.get(name, set()) for name in names]
                    if not all(token in one for one in there):
                        self.say(page, "%s has no clause `%s` of %s" % (crate, token, cells[0]))
                # A text that begins with a relation, as "`Opens`: ..", names one of this crate.
                for word in re.findall(r"^`([A-Z]\w*)`: ", cells[2]):
                    if not re.search(r"^ *(?:abbrev |unfoldable |pub )*(?:data|record|abbrev|pub|unfoldable)(?: pub)? %s\b" % word, terms, re.M):
                        self.say(page, "%s has no definition `%s`" % (crate, word))

    # The map

    def check_paths(self):
        for crate in self.uses:
            text = " ".join(text_of(self.top, "crates", crate, "src", "lib.rt").split()) if os.path.exists(
                os.path.join(self.top, "crates", crate, "src", "lib.rt")) else ""
            for use in re.finditer(r"pub use (pq_\w+)::(\{[^}]*\}|%s)" % NAME, text):
                for name in re.findall(NAME, use.group(2)):
                    if name not in RE_EXPORTED:
                        self.say("crates/%s/src/lib.rt" % crate, "%s::%s has a second public path" % (use.group(1), name))

    def check_map(self):
        for crate, used in self.uses.items():
            for path in self.sources(crate):
                where = os.path.relpath(path, self.top)
                for line in text_of(path).splitlines():
                    code = line.split("//")[0]
                    for other in re.findall(r"(?<!\w)(pq_\w+)::", code):
                        if other != crate and other in self.uses and other not in used:
                            self.say(where, "names %s, which crates.txt does not give it" % other)
                    if re.search(r"use Rattle\.pq_\w+\.proofs\.", code):
                        self.say(where, "a contract imports a proof")
                    if crate not in HANDLES and not crate.startswith("tests_") and HANDLE.search(code):
                        self.say(where, "a thread, a lock or a socket outside %s" % ", ".join(sorted(HANDLES)))
            for path in glob.glob(os.path.join(self.top, "crates", crate, "specs", "**", "*.antt"), recursive=True):
                if "/specs/aux/" not in path and re.search(r"^use Rattle\.pq_\w+\.proofs\.", text_of(path), re.M):
                    self.say(os.path.relpath(path, self.top), "a definition of specs/ imports a proof")

    # Pages

    def check_readme(self):
        text = text_of(self.top, "README.md")
        for crate in self.uses:
            if "`%s`" % crate not in text:
                self.say("README.md", "no line for %s" % crate)
            row = re.search(r"^\| `%s` \| ([^|]*)\|" % crate, text, re.M)
            if crate.startswith("pq_") and not row:
                self.say("README.md", "no row for %s" % crate)
            elif row and len(row.group(1).split()) > 20:
                self.say("README.md", "the row of %s has more than 20 words" % crate)
        map_page = "docs/ARCHITECTURE.md"
        text = text_of(self.top, map_page)
        for path in sorted(glob.glob(os.path.join(self.top, "*", "*.py"))):
            if "\nif __name__ ==" in text_of(path) and "`%s`" % os.path.basename(path) not in text:
                self.say(map_page, "no mention of %s" % os.path.relpath(path, self.top))
        lines = len(text_of(self.top, "docs", "GATE.md").splitlines())
        if lines > GATE_LINES:
            self.say("docs/GATE.md", "%d lines, more than %d" % (lines, GATE_LINES))

    def check_counts(self):
        stated = reach.stated(self.specs.headline())[0]
        for page in PLAIN + self.theorem_pages():
            text = WRITTEN.sub("", text_of(self.top, page)).replace(stated, "")
            for line in text.splitlines():
                for found in COUNT.finditer(line):
                    self.say(page, "a count that no script writes: `%s`" % found.group())

    def theorem_pages(self):
        folder = os.path.join("docs", "theorems")
        return ["docs/theorems/" + name for name in sorted(os.listdir(os.path.join(self.top, folder))) if name.endswith(".md")]

    def check_links(self):
        pages = ["README.md", "CONTRIBUTING.md"] + [
            "docs/" + name for name in sorted(os.listdir(os.path.join(self.top, "docs"))) if name.endswith(".md")]
        pages += self.theorem_pages()
        pages += [page for page in ("cases/README.md", "cases/sessions/README.md", "examples/README.md")
                  if os.path.exists(os.path.join(self.top, page))]
        for page in pages:
            for number, line in enumerate(text_of(self.top, page).splitlines(), 1):
                if MACHINE.search(line):
                    self.say("%s:%d" % (page, number), "a path of a machine")
                links = re.findall(r"\]\(([^)#:]+)\)", line)
                for path in [token.split()[0] for token in in_backticks(line) if token.strip()] + links:
                    near = os.path.join(self.top, os.path.dirname(page), path)
                    here = os.path.join(self.top, path)
                    if not (PATH.match(path) or path in links) or OPTIONAL.match(path):
                        continue
                    if not any(map(os.path.exists, [here, here + ".antt"] + ([near] if path in links else []))):
                        self.say("%s:%d" % (page, number), "%s does not exist" % path)

    def check_figures(self):
        """The script says what is wrong, or nothing."""
        script = os.path.join(self.top, "bench", "figures.py")
        done = subprocess.run([sys.executable, script, "--check", "--top", self.top], capture_output=True, text=True)
        if done.returncode:
            self.say("docs/FIGURES.md", (done.stdout or done.stderr).strip().rpartition("\n")[2])


def main():
    parser = argparse.ArgumentParser(description=__doc__, formatter_class=argparse.RawDescriptionHelpFormatter)
    parser.add_argument("--check", action="store_true", help="the only thing that this script does")
    parser.add_argument("--top", default=os.path.dirname(os.path.dirname(os.path.abspath(__file__))), help="the top of the repository")
    it = Repository(parser.parse_args().top)
    it.check_theorem_lists()
    it.check_map_rows()
    it.check_headline()
    it.check_names()
    it.check_paths()
    it.check_map()
    it.check_readme()
    it.check_counts()
    it.check_links()
    it.check_figures()
    for finding in it.findings:
        print(finding)
    sys.exit(1 if it.findings else 0)


if __name__ == "__main__":
    main()
