#!/usr/bin/env python3
"""Makes the stored sessions of `crates/stored_sessions` from the rows of `cases/sessions/`.

The program of that crate runs each session by a script of its own. Its `stdin` has a line `NAME LENGTH` for each session, and
then the bytes that the client sends. Its `stdout` has a line `NAME OUTCOME LENGTH`, and then the bytes that the server writes.
`cases/sessions/README.md` describes the rows. Each pair of files `NAME.in` and `NAME.out` of `examples/` is a session too.

With no option the two files are written. `--check` says whether they are what the rows make. `--run PROGRAM` runs the built
program, and prints the first row whose outcome or output differs. `--script PROGRAM` runs pq_server itself in its place: each
session by a `script` of its own, of which the output, the status and the line of standard error have to be as the rows say.

usage: checks/session_cases.py [--check | --run PROGRAM | --script PROGRAM]
"""
import argparse
import os
import re
import subprocess
import sys
from collections import namedtuple
from concurrent.futures import ThreadPoolExecutor

TOP = os.path.join(os.path.dirname(os.path.abspath(__file__)), "..")
CASES = os.path.join("cases", "sessions")
CRATE = os.path.join("crates", "stored_sessions")
MARKS = "marks.txt"

# A row of a case file: the file, the line's number from 1, and the text as it is written.
Row = namedtuple("Row", "file line text")

# A session: its name, the row that it comes from, the rows of the server's frames where they are rows of their own, the bytes
# of the client, those of the server, and the outcome.
Session = namedtuple("Session", "name row replies sent wanted outcome")

# The words for an outcome, a status or the name of an error, with the status of pq_server and its line of standard error after
# `pq_server: ` (docs/LIMITS.md, "Statuses").
OUTCOMES = {"0": (0, None), "1": (1, None), "3": (3, "edit refused 0"), "HeaderTooLong": (2, "frame fault 1"),
            "NoLength": (2, "frame fault 2"), "BadLength": (2, "frame fault 3"), "TooLong": (2, "frame fault 4"),
            "Cut": (2, "input ends inside a frame"), "TextTooLong": (3, "edit refused 1"), "TooManyFiles": (3, "edit refused 2"),
            "RevisionsUsedUp": (3, "edit refused 3"), "BadRange": (3, "bad range")}

# The message of a text without a `syntax` statement, as JSON writes it.
NO_SYNTAX = 'only syntax = \\"proto3\\" is read'

# The message of each code of a finding, and its severity.
MEANINGS = {
    "P005": ("character is not allowed here", 1),
    "P010": (NO_SYNTAX, 1),
    "P011": ("nesting is deeper than 64", 1),
    "P020": ("aggregate option value is not read", 3),
    "P021": ("extend block is not read", 3),
    "P022": ("float literal is not read", 3),
    "P120": ("field number must be from 1 to 536870911", 1),
    "P121": ("field numbers 19000 to 19999 are reserved", 1),
}


class Malformed(Exception):
    """A row that cannot be read."""

    def __init__(self, row, why):
        super().__init__("%s:%d: %s\n    %s" % (row.file, row.line, why, row.text))


# ---- the texts that rows stand for


def item(code, place, message, severity):
    """The diagnostic of a code at `LINE:START-END`, as JSON."""
    line, start, end = re.fullmatch(r"(\d+):(\d+)-(\d+)", place).groups()
    return ('{"code":"%s","message":"%s","range":{"end":{"character":%s,"line":%s},"start":{"character":%s,"line":%s}},'
            '"severity":%d,"source":"proto"}' % (code, message, end, line, start, line, severity))


def report(items, revision):
    """The reply to the request 1 for diagnostics."""
    return '{"id":1,"jsonrpc":"2.0","result":{"items":[%s],"kind":"full","resultId":"%s"}}' % (",".join(items), revision)


def opened(text):
    """The notification that opens `a.proto` with a text, which is written as JSON writes it."""
    return ('{"jsonrpc":"2.0","method":"textDocument/didOpen","params":{"textDocument":{"uri":"file:///a.proto","text":"%s"}}}'
            % text)


def notified(method, params):
    """A notification."""
    return '{"jsonrpc":"2.0","method":"%s","params":%s}' % (method, params)


# ---- the forms of tables: each gives the lines of the session that a row stands for


def message_form(text):
    """`BODY => REPLY => PROBE`: the reply is `-` if there is none, or `ends STATUS`; PROBE is the mark of the reply afterwards."""
    body, reply, probe = text.split(" => ", 2)
    if reply.startswith("ends "):
        return ["> " + body, "> diagnostic", "= " + reply[5:]]
    return ["> " + body, "> diagnostic"] + (["< " + reply] if reply != "-" else []) + ["< " + probe, "= 1"]


def edit_form(text):
    """`METHOD PARAMS => WANT`: WANT is `ends STATUS`, or the length of the text afterwards, `-` if absent, and the revision."""
    edit, want = text.split(" => ", 1)
    method, params = edit.split(" ", 1)
    params = params.replace("DOC", '"textDocument":{"uri":"file:///a.proto"}')
    first, second = want.split(" ", 1)
    lines = ["> " + notified(method, params), "> diagnostic"]
    if first == "ends":
        return lines + ["= " + second]
    items = [] if first == "-" else [item("P010", "0:0-" + first, NO_SYNTAX, 1)]
    return lines + ["< " + report(items, second), "= 1"]


def ranged_form(text):
    """`TEXT => CHANGES => WANT`: TEXT is what `a.proto` was opened with, `-` if it was not; CHANGES is `contentChanges`; WANT is
    `ends OUTCOME`, or the diagnostics afterwards, each `CODE LINE:START-END`, or `-`, then ` at ` and the revision."""
    old, changes, want = text.split(" => ", 2)
    params = '{"textDocument":{"uri":"file:///a.proto"},"contentChanges":%s}' % changes
    lines = ([] if old == "-" else ["> " + opened(old)]) + ["> " + notified("textDocument/didChange", params), "> diagnostic"]
    if want.startswith("ends "):
        return lines + ["= " + want[5:]]
    found, revision = want.rsplit(" at ", 1)
    places = [] if found == "-" else [one.split(" ") for one in found.split(", ")]
    return lines + ["< " + report([item(code, place, *MEANINGS[code]) for code, place in places], revision), "= 1"]


def notification_form(text):
    """`METHOD PARAMS => OUTCOME`."""
    edit, outcome = text.split(" => ", 1)
    method, params = edit.split(" ", 1)
    return ["> " + notified(method, params), "= " + outcome]


def text_findings_form(text):
    """`TEXT => FINDINGS`: each finding is `CODE LINE:START-END`; `-` says that there are none."""
    text, findings = text.split(" => ", 1)
    found = [] if findings == "-" else [finding.split(" ") for finding in findings.split(", ")]
    items = [item(code, place, *MEANINGS[code]) for code, place in found]
    return ["> " + opened(text), "> diagnostic", "< " + report(items, 1), "= 1"]


def findings_form(text):
    """`REST => FINDINGS`: the text is a syntax line, which is 19 characters long, and REST."""
    return text_findings_form('syntax = \\"proto3\\"; ' + text)


def first_error_form(text):
    """`TEXT => CODE LINE:START-END => MESSAGE`: the only finding of a text."""
    text, place, message = text.split(" => ", 2)
    code, place = place.split(" ")
    return ["> " + opened(text), "> diagnostic", "< " + report([item(code, place, message, 1)], 1), "= 1"]


def uri_form(text):
    """`URI => NAME => PRINTED`: the file NAME is opened by its URI, and the definition in it has the URI PRINTED. `URI => none`."""
    uri, want = text.split(" => ", 1)
    document = '"textDocument":{"uri":"%s"}' % uri
    opens = '{"textDocument":{"uri":"%s","text":"%s"}}'
    if want == "none":
        asks = '{"id":1,"jsonrpc":"2.0","method":"textDocument/diagnostic","params":{%s}}' % document
        refused = '{"error":{"code":-32602,"message":"invalid params"},"id":1,"jsonrpc":"2.0"}'
        return ["> " + notified("textDocument/didOpen", opens % (uri, "hi")), "> " + asks, "< " + refused, "= 1"]
    name, printed = want.split(" => ", 1)
    importer = 'syntax = \\"proto3\\"; import \\"%s\\";' % name
    place = '"position":{"character":26,"line":0}'
    return ["> " + notified("textDocument/didOpen", opens % (uri, "syntax='proto3';message M{M m=1;}")),
            "> " + notified("textDocument/didOpen", opens % ("file:///importer", importer)),
            '> {"id":1,"jsonrpc":"2.0","method":"textDocument/diagnostic","params":{"textDocument":{"uri":"file:///importer"}}}',
            "< " + report([], 2),
            '> {"id":2,"jsonrpc":"2.0","method":"textDocument/definition","params":{%s,%s}}' % (place, document),
            '< {"id":2,"jsonrpc":"2.0","result":{"range":{"end":{"character":25,"line":0},"start":{"character":24,"line":0}},'
            '"uri":"%s"}}' % printed, "= 1"]


def input_form(text):
    """`INPUT => OUTCOME`: an input of bytes without a reply; `|` is CR LF."""
    sent, outcome = text.split("=> ", 1)
    return [">| " + sent.rstrip(), "= " + outcome]


FORMS = {"message": message_form, "edit": edit_form, "ranged": ranged_form, "notification": notification_form,
         "findings": findings_form, "text_findings": text_findings_form, "first_error": first_error_form, "input": input_form,
         "uri": uri_form}

# ---- reading rows


def rows_of(top, name):
    """The rows of a case file, without blank lines and comments."""
    path = os.path.join(CASES, name)
    with open(os.path.join(top, path), encoding="utf-8", newline="\n") as source:
        lines = source.read().split("\n")
    return [Row(path, at, text) for at, text in enumerate(lines, 1) if text.strip() and not text.startswith("#")]


def marks_of(top):
    """The texts of the marks."""
    return dict(row.text.split(" ", 1) for row in rows_of(top, MARKS))


def spelled(text):
    """The bytes of a text, in which `<<COUNT*PART>>` is PART, COUNT times, and `<<HH HH ..>>` the bytes with those hex digits."""
    text = re.sub(r"<<(\d+)\*(.*?)>>", lambda found: found[2] * int(found[1]), text)
    pieces = re.split(r"<<((?:[0-9a-f]{2} )*[0-9a-f]{2})>>", text)
    return b"".join(bytes.fromhex(piece) if at % 2 else piece.encode() for at, piece in enumerate(pieces))


def frame(body):
    """The frame of a body, which is bytes."""
    return b"Content-Length: %d\r\n\r\n%s" % (len(body), body)


def bytes_of(line, marks):
    """The bytes of a line after its first character: a frame after a blank, bytes where `|` is CR LF after `| `."""
    if line[1:3] == "| ":
        return spelled(line[3:].replace("|", "\r\n"))
    return frame(spelled(marks.get(line[2:], line[2:])))


def session_of(name, row, replies, lines, marks):
    """The session of lines `> `, `>| `, `< `, `<| `, and a last line `= OUTCOME`."""
    if not lines or not lines[-1].startswith("= ") or lines[-1][2:] not in OUTCOMES:
        raise Malformed(row, "the last line of a session is '= OUTCOME'")
    for line in lines[:-1]:
        if not re.match(r"[<>](\|)? ", line):
            raise Malformed(row, "a line of a session begins with '> ', '>| ', '< ' or '<| ': %s" % line)
    sent, wanted = (b"".join(bytes_of(line, marks) for line in lines if line[0] == side) for side in "><")
    return Session(name, row, replies, sent, wanted, lines[-1][2:])


def blocks_of(rows):
    """The blocks of a file: each a line `session ..` or `table ..`, and the rows below it."""
    blocks = []
    for row in rows:
        if re.match(r"(session|table) ", row.text):
            blocks.append((row, []))
        elif blocks:
            blocks[-1][1].append(row)
        else:
            raise Malformed(row, "a row before the first 'session' or 'table'")
    return blocks


def table_sessions(head, rows, tables, marks):
    """The sessions of a table, one for each row, after the lines above its rows."""
    words = re.fullmatch(r"table (\w+) (\w+) (\d+)(?: like (\w+))?", head.text)
    if words is None or words[2] not in FORMS:
        raise Malformed(head, "a table is 'table NAME FORM COUNT [like TABLE]'")
    before = [row.text for row in rows if re.match(r"[<>](\|)? ", row.text)]
    rows = [row for row in rows if row.text not in before]
    if words[4] is not None:
        rows = rows + tables[words[4]]
    tables[words[1]] = rows
    if len(rows) != int(words[3]):
        raise Malformed(head, "the table has %d rows" % len(rows))
    for at, row in enumerate(rows, 1):
        try:
            lines = before + FORMS[words[2]](row.text)
        except (ValueError, KeyError, AttributeError) as error:
            raise Malformed(row, "a row of the form '%s': %s" % (words[2], FORMS[words[2]].__doc__)) from error
        yield session_of("%s.%d" % (words[1], at), row, [], lines, marks)


def file_sessions(top, name, marks):
    """The sessions of a case file."""
    tables = {}
    for head, rows in blocks_of(rows_of(top, name)):
        if head.text.startswith("table "):
            yield from table_sessions(head, rows, tables, marks)
        else:
            replies = [row for row in rows if row.text.startswith("<")]
            yield session_of(head.text[len("session "):], head, replies, [row.text for row in rows], marks)


def example_sessions(top):
    """The sessions of `examples/`, byte for byte. Each ends with `exit` after `shutdown`."""
    folder = os.path.join(top, "examples")
    for name in sorted(name[:-3] for name in os.listdir(folder) if name.endswith(".in")):
        with open(os.path.join(folder, name + ".in"), "rb") as sent, open(os.path.join(folder, name + ".out"), "rb") as wanted:
            row = Row(os.path.join("examples", name + ".in"), 1, "the whole file")
            yield Session("examples/" + name, row, [], sent.read(), wanted.read(), "0")


def sessions_of(top):
    """All sessions: those of the case files by name, and then those of `examples/`."""
    marks = marks_of(top)
    names = sorted(name for name in os.listdir(os.path.join(top, CASES)) if name.endswith(".txt") and name != MARKS)
    sessions = [session for name in names for session in file_sessions(top, name, marks)] + list(example_sessions(top))
    seen = set()
    for session in sessions:
        if session.name in seen or not re.fullmatch(r"\S+", session.name):
            raise Malformed(session.row, "the name '%s' is used twice, or has a blank" % session.name)
        seen.add(session.name)
    return sessions


# ---- the two files


def entry(session):
    """What `stdout` has for a session."""
    return b"%s %s %d\n%s" % (session.name.encode(), session.outcome.encode(), len(session.wanted), session.wanted)


def files_of(top):
    """The bytes of `stdin` and of `stdout`."""
    sessions = sessions_of(top)
    sent = b"".join(b"%s %d\n%s" % (session.name.encode(), len(session.sent), session.sent) for session in sessions)
    return {"stdin": sent, "stdout": b"".join(map(entry, sessions))}


def write(top):
    """Writes `stdin` and `stdout` of `crates/stored_sessions`."""
    for name, data in files_of(top).items():
        with open(os.path.join(top, CRATE, name), "wb") as sink:
            sink.write(data)


def check(top):
    """A line for each of the two files that is not what the rows make."""
    differences = []
    for name, data in files_of(top).items():
        path = os.path.join(CRATE, name)
        try:
            with open(os.path.join(top, path), "rb") as source:
                same = source.read() == data
        except FileNotFoundError:
            same = False
        if not same:
            differences.append("%s is not what %s and examples/ make: run checks/session_cases.py" % (path, CASES))
    return differences


# ---- comparing an output


def pieces(data):
    """The frames of bytes, each from its header on, as text."""
    return re.split(r"(?=Content-Length: )", data.decode("utf-8", "backslashreplace"))


def found_entry(output):
    """The name, the outcome and the bytes at the start of an output, as far as they are there."""
    head, _, rest = output.partition(b"\n")
    words = head.decode("utf-8", "backslashreplace").split(" ")
    if len(words) != 3 or not words[2].isdigit():
        return head[:200].decode("utf-8", "backslashreplace"), "no outcome", b""
    return words[0], words[1], rest[:int(words[2])]


def named(session, row):
    """The lines that name a session and one of its rows, as it is written."""
    return ["%s:%d: session %s" % (row.file, row.line, session.name), "    " + row.text]


def difference(session, output):
    """What the output has in the place of a session's entry."""
    name, outcome, found = found_entry(output)
    if name != session.name:
        return named(session, session.row) + ["wanted: session %s" % session.name, "found:  %s" % (name or "nothing")]
    return parted(session, outcome, found)


def parted(session, outcome, found):
    """Where an outcome and the bytes that were written part from those of a session."""
    ending = []
    if outcome != session.outcome:
        ending = ["wanted: outcome %s" % session.outcome, "found:  outcome %s" % outcome]
    wanted, given = pieces(session.wanted), pieces(found)
    for at in range(max(len(wanted), len(given))):
        pair = [side[at] if at < len(side) else "nothing" for side in (wanted, given)]
        if pair[0] != pair[1]:
            row = session.replies[at - 1] if 0 < at <= len(session.replies) else session.row
            return named(session, row) + ["wanted: %r" % pair[0], "found:  %r" % pair[1]] + ending
    return named(session, session.row) + ending


def compare(top, output):
    """The first session whose entry an output lacks, with its row as it is written: lines, none if the output is as wanted."""
    for session in sessions_of(top):
        wanted = entry(session)
        if not output.startswith(wanted):
            return difference(session, output)
        output = output[len(wanted):]
    return ["after the last session: %r" % output[:200]] if output else []


def run(top, program):
    """What a program writes for the sessions, compared with what is wanted."""
    done = subprocess.run([program], input=files_of(top)["stdin"], stdout=subprocess.PIPE, check=False)
    lines = compare(top, done.stdout)
    return lines + ["the program ended with status %d" % done.returncode] if done.returncode else lines


def by_script(program, session):
    """What differs when pq_server serves a session: lines, none if it is as wanted."""
    status, line = OUTCOMES[session.outcome]
    printed = b"pq_server: %s\n" % line.encode() if line else b""
    done = subprocess.run([program, "script"], input=session.sent, capture_output=True, check=False, timeout=60)
    is_ended = (done.returncode, done.stderr) == (status, printed)
    if is_ended and done.stdout == session.wanted:
        return []
    outcome = session.outcome if is_ended else "status %d with %r as errors" % (done.returncode, done.stderr[-200:])
    return parted(session, outcome, done.stdout)


def run_scripts(top, program):
    """Runs each session by a `script` of pq_server: what differs, and last how many do not."""
    sessions = sessions_of(top)
    with ThreadPoolExecutor(os.cpu_count()) as pool:
        found = list(pool.map(lambda session: by_script(program, session), sessions))
    lines = [line for lines in found for line in lines]
    return lines, "%d of %d sessions as wanted" % (found.count([]), len(sessions))


def main():
    words = argparse.ArgumentParser(description="Makes the stored sessions of crates/stored_sessions from rows.")
    words.add_argument("--check", action="store_true", help="say whether the two files are what the rows make")
    words.add_argument("--run", metavar="PROGRAM", help="run the built program, and print the first row that differs")
    words.add_argument("--script", metavar="PROGRAM", help="run each session by pq_server, and print each row that differs")
    words = words.parse_args()
    count = None
    try:
        if words.check:
            lines = check(TOP)
        elif words.run:
            lines = run(TOP, words.run)
        elif words.script:
            lines, count = run_scripts(TOP, words.script)
        else:
            write(TOP)
            lines = []
    except Malformed as error:
        lines = [str(error)]
    for line in lines + ([count] if count else []):
        print(line)
    return 1 if lines else 0


if __name__ == "__main__":
    sys.exit(main())
