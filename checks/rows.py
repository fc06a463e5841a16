"""Reads the rows of cases/: the files of each, what is asked of them, and the answer that is wanted.

cases/README.md says what a row, a table and a set of files look like. Whatever is of another form is refused, with its file
and line.
"""
import collections
import os
import re

import replies
from messages import METHODS

# A row. `place` is FILE:LINE and `label` a name of it among all rows; `files` are the texts by name, and `file` is asked about,
# at `position` if that is not None.
Row = collections.namedtuple("Row", "place label written query files file position want")
# The head of a table: FILE:LINE, its file, its name, what its rows ask and of what, and how many they are.
Head = collections.namedtuple("Head", "place path name query form count")

# The rows that are asked of a program with --loose, and those of session_cases.py.
LOOSE, SESSIONS = "cases/loose/", "cases/sessions/"
SYNTAX_LINE = 'syntax = "proto3";\n'
ALONE = "a.proto"
HEAD = re.compile(r"== (\w+): (\w+) of ([a-z ]+): (\d+) rows?")
NAME = re.compile(r"[\w./-]+", re.ASCII)
MARK = re.compile(r"<(?:(\d+)\*([^<>]+)|U\+([0-9A-F]{4,6}))>")


class Refused(Exception):
    """A line that is of no form; the text names its file and line."""

    def __init__(self, place, why):
        super().__init__("%s: %s" % (place, why))


def unmarked(text):
    """A text whose marks are carried out: `<N*PIECE>` is N times PIECE, and `<U+HEX>` is a character."""
    made = MARK.sub(lambda it: it[2] * int(it[1]) if it[1] else chr(int(it[3], 16)), text)
    made.encode()  # Half of a surrogate pair is refused.
    return made


def whole(text):
    """The text of a file that a row writes with `|` for each line feed."""
    return text.replace("|", "\n")


def after_syntax(text):
    """The text of a file that a row writes without its first line."""
    return SYNTAX_LINE + whole(text)


def file_of(line, place):
    """The name and the text of the file of a line `NAME: TEXT` or `NAME= TEXT`."""
    for mark, made in (": ", after_syntax), ("= ", whole):
        name, found, text = line.partition(mark)
        if found and NAME.fullmatch(name):
            return name, made(text)
    raise Refused(place, "a file is a line NAME: TEXT, or NAME= TEXT for the whole text")


def text_alone(made):
    """The reader of rows that write the text of one file alone; `made` makes the whole text of it."""
    def read(asked, _files, _place):
        return {ALONE: made(asked)}, ALONE, None
    return read


def file_named(asked, files, place):
    """Reads a row that names a file of the set."""
    if not NAME.fullmatch(asked):
        raise Refused(place, "`%s` is not the name of a file" % asked)
    return files, asked, None


def file_beside(asked, files, place):
    """Reads a row that has a file of its own beside the set."""
    name, text = file_of(asked, place)
    return {**files, name: text}, name, None


def place_named(asked, files, place):
    """Reads a row that names a place in a file of the set, as FILE LINE:CHARACTER."""
    match = re.fullmatch(r"(\S+) (\d+):(\d+)", asked)
    if not match:
        raise Refused(place, "`%s` is not of the form FILE LINE:CHARACTER" % asked)
    name, line, character = match.groups()
    return file_named(name, files, place)[:2] + ({"line": int(line), "character": int(character)},)


# The reader of each form of rows, and whether a set of files comes before the rows.
FORMS = {"texts": (text_alone(after_syntax), False),
         "whole texts": (text_alone(whole), False),
         "marked texts": (text_alone(lambda text: after_syntax(unmarked(text))), False),
         "marked whole texts": (text_alone(lambda text: whole(unmarked(text))), False),
         "files": (file_named, True),
         "files beside others": (file_beside, True),
         "places": (place_named, True)}


def read_head(path, number, line):
    """The head of a table, `== NAME: QUERY of FORM: N rows`."""
    place = "%s:%d" % (path, number)
    match = HEAD.fullmatch(line)
    if not match:
        raise Refused(place, "a table begins with a line `== NAME: QUERY of FORM: N rows`")
    head = Head(place, path, *match.groups()[:3], int(match[4]))
    if head.query not in METHODS:
        raise Refused(place, "the query is one of %s" % ", ".join(METHODS))
    if head.form not in FORMS:
        raise Refused(place, "the form is one of %s" % ", ".join(FORMS))
    if (head.form == "places") != (head.query == "definitions"):
        raise Refused(place, "definitions are asked of places, and nothing else is")
    return head


def read_row(head, number, index, line, files):
    """The row of a line, the one with the number `index` in its table."""
    place = "%s:%d" % (head.path, number)
    asked, found, want = line.partition(" => ")
    if not found:
        raise Refused(place, "a row is a line ASKED => WANTED")
    read, _ = FORMS[head.form]
    try:
        texts, file, position = read(asked, files, place)
        replies.result(head.query, want, 0)
    except ValueError as error:
        raise Refused(place, error) from None
    label = "%s %s %d" % (head.path[len("cases/"):-len(".txt")], head.name, index)
    return Row(place, label, line, head.query, texts, file, position, want)


def read_files(head, lines):
    """The set of files before the line `--`, and the lines after it."""
    files = {}
    for at, (number, line) in enumerate(lines):
        if line == "--":
            return files, lines[at + 1:]
        place = "%s:%d" % (head.path, number)
        name, text = file_of(line, place)
        if name in files:
            raise Refused(place, "the file %s is twice in its set" % name)
        files[name] = text
    raise Refused(head.place, "a line `--` has to end the set of files")


def read_table(path, lines):
    """The rows of a table, whose lines have their numbers."""
    head = read_head(path, *lines[0])
    files, lines = read_files(head, lines[1:]) if FORMS[head.form][1] else ({}, lines[1:])
    rows, asked = [], {}
    for number, line in lines:
        row = read_row(head, number, len(rows) + 1, line, files)
        before = asked.setdefault(line.partition(" => ")[0], row)
        if before is not row:
            raise Refused(row.place, "the same is asked at %s" % before.place)
        rows.append(row)
    if len(rows) != head.count:
        raise Refused(head.place, "the table has %d rows, and its head says %d" % (len(rows), head.count))
    return head, rows


def blocks(path, text):
    """The groups of lines with one empty line between, each line with its number. Each has to begin as a comment or a head."""
    found = [[]]
    if not text.endswith("\n"):
        raise Refused("%s:%d" % (path, text.count("\n") + 1), "the last line does not end")
    lines = text[:-1].split("\n")
    for number, line in enumerate(lines, 1):
        if line:
            found[-1].append((number, line))
        else:
            found.append([])
            follows = lines[number] if number < len(lines) else ""
            if number == 1 or not follows.startswith(("# ", "== ")):
                raise Refused("%s:%d" % (path, number), "an empty line stands only between two tables")
    return found


def read_text(path, text):
    """The rows of the text of a file."""
    about, *tables = blocks(path, text)
    for number, line in about:
        if not line.startswith("# "):
            raise Refused("%s:%d" % (path, number), "a file begins with a comment, lines `# TEXT`, and an empty line")
    rows, names = [], set()
    for lines in tables:
        lines = lines[next((at for at, (_, line) in enumerate(lines) if not line.startswith("# ")), -1):]
        head, found = read_table(path, lines)
        if head.name in names:
            raise Refused(head.place, "the table %s is twice in its file" % head.name)
        names.add(head.name)
        rows += found
    return rows


def paths(top, is_loose):
    """The files of rows below cases/, in the order of their names: those of cases/loose, or the others."""
    found = [os.path.relpath(os.path.join(folder, name), top).replace(os.sep, "/")
             for folder, _, names in os.walk(os.path.join(top, "cases")) for name in names if name.endswith(".txt")]
    return sorted(path for path in found if path.startswith(LOOSE) == is_loose and not path.startswith(SESSIONS))


def read_rows(top, is_loose):
    """All rows of cases/loose, or all others, file by file."""
    rows = []
    for path in paths(top, is_loose):
        with open(os.path.join(top, path), "rb") as it:
            data = it.read()
        try:
            rows += read_text(path, data.decode())
        except UnicodeDecodeError as error:
            line = data.count(b"\n", 0, error.start) + 1
            raise Refused("%s:%d" % (path, line), "the line is not UTF-8") from None
    return rows
