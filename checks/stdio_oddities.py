"""Rows of `checks/stdio.py`: ranges and changes that no text has, and disks and readers that would stop a session."""
import os
import subprocess
import sys
import time

from server_process import LONGEST, SERVERS, check, uri_of, write
from stdio_client import Editor, codes, shown_by_rights
from stdio_files import CHANGED, CREATED, MOST_BYTES, UNREADABLE, having, rooted, using
from stdio_lists import BAD, GOOD, HEAD, at, begun

# The longest line of standard error, in bytes.
LONGEST_LINE = 1000
# More lines of files than the pipe of standard error holds.
MANY = 3001
# How long a file and a FIFO take each other's place, in seconds.
SWAPPING = 3.0
# Puts a link to a file and a link to a FIFO in each other's place, again and again.
SWAPPER = """import os, sys
path, text, fifo = sys.argv[1:]
while True:
    for goal in (fifo, text):
        os.symlink(goal, path + ".new")
        os.replace(path + ".new", path)
"""


def span(*places):
    """A range by the line and the character of its start and of its end."""
    start_line, start, end_line, end = places
    return {"start": {"line": start_line, "character": start}, "end": {"line": end_line, "character": end}}


# ---- ranges and changes


def ranges_past_the_end(place):
    """A range that reaches past the end of the text, or ends before its start, is cut, and the session goes on."""
    text = BAD + "message N { Z z = 1; }\n"
    lines = text.count("\n")
    cases = ((span(0, 0, lines + 1, 0), "", ""),
             (span(0, 0, lines + 1, 0), GOOD, GOOD),
             (span(0, 0, 2 ** 31 - 1, 2 ** 31 - 1), BAD, BAD),
             (span(2, 0, lines + 5, 7), "", BAD),
             (span(lines + 1, 0, lines + 1, 0), "message Q { Z z = 1; }\n", text + "message Q { Z z = 1; }\n"),
             (span(lines + 9, 4, 2 ** 31 - 1, 0), "message Q { Z z = 1; }", text + "message Q { Z z = 1; }"),
             (span(1, 2000, 1, 3000), " message Q { Z z = 1; }", text.replace("\nmessage N", " message Q { Z z = 1; }\nmessage N")),
             # An end before its start is its start.
             (span(2, 0, 1, 3), "message Q { Z z = 1; }\n", text.replace("message N", "message Q { Z z = 1; }\nmessage N")))
    editor = begun(place)
    for number, (range_, new, wanted) in enumerate(cases):
        path = at(place, "%d.proto" % number)
        editor.open(path, text)
        editor.expect_codes(path, "P120 P150", "before case %d" % number)
        editor.change(path, {"range": range_, "text": new})
        right = shown_by_rights(place.program, {"%d.proto" % number: wanted})["%d.proto" % number]
        editor.expect(path, right, "after case %d" % number)
        check(editor.pull(path), right, "after case %d, asked for" % number)
        # A place at the end of the text shows what the server holds.
        end = wanted.split("\n")
        last = span(len(end) - 1, len(end[-1]), len(end) - 1, len(end[-1]))
        editor.change(path, {"range": last, "text": "\nmessage R { Z z = 1; }\n"})
        right = shown_by_rights(place.program, {"%d.proto" % number: wanted + "\nmessage R { Z z = 1; }\n"})["%d.proto" % number]
        editor.expect(path, right, "after a change at the end of case %d" % number)
    editor.end()


def several_past_the_end(place):
    """Of several changes of one message each is cut to the text that the one before it left."""
    editor, path = begun(place), at(place, "a.proto")
    editor.open(path, BAD)
    editor.expect_codes(path, "P120", "before")
    editor.change(path, {"range": span(0, 0, 9, 0), "text": ""}, {"range": span(3, 0, 5, 0), "text": HEAD},
                  {"range": span(7, 7, 9, 9), "text": "message N { Z z = 1; }\n"})
    editor.expect(path, shown_by_rights(place.program, {"a.proto": HEAD + "message N { Z z = 1; }\n"})["a.proto"], "after it")
    editor.end()


def changed_unopened(place):
    """A change of a file that is not open is passed over with one line, and the session goes on."""
    write(place.folder, {"b.proto": having()})
    for change in ({"range": span(0, 0, 0, 0), "text": "x"}, {"range": span(0, 0, 99, 0), "text": ""}, having("S")):
        for is_closed in (True, False):
            editor, user, path = begun(place), at(place, "user.proto"), at(place, "b.proto")
            editor.open(user, using("b.proto"))
            editor.expect(user, [], "before")
            if is_closed:
                editor.open(path, having("S"))
                editor.expect_codes(user, "P150", "while it is open")
                editor.close(path)
                editor.expect(user, [], "after the close")
            editor.versions.setdefault(uri_of(path), 1)
            editor.change(path, change)
            editor.wait_for_lines(1)
            editor.be_quiet()
            check(codes(editor.pull(user)), [], "the importer after the change")
            check(editor.pull(path), [], "the file after the change")
            check(codes(editor.shown(user)), [], "the list of the importer")
            check(codes(editor.shown(path)), [], "the list of the file")
            editor.open(path, BAD)
            editor.expect_codes(path, "P120", "opened after the change")
            editor.end((path,))


# ---- files that are no files


def fifo(place):
    """A FIFO in the place of a file is passed over, and the file counts again once it is back."""
    write(place.folder, {"b.proto": having()})
    editor, user, path = begun(place), at(place, "user.proto"), at(place, "b.proto")
    editor.open(user, using("b.proto"))
    editor.expect(user, [], "before")
    for _ in range(2):
        os.remove(path)
        os.mkfifo(path)
        editor.tell((path, CHANGED))
        editor.expect_codes(user, "P102 P150", "while a FIFO is there")
        editor.open(path, BAD)
        editor.expect_codes(path, "P120", "a document in its place")
        editor.close(path)
        editor.expect_codes(user, "P102 P150", "after the close of the document")
        os.remove(path)
        write(place.folder, {"b.proto": having()})
        editor.tell((path, CREATED))
        editor.expect(user, [], "once the file is back")
    check(editor.ask("shutdown", None), None, "the reply to shutdown")
    editor.say("exit", None)
    check(editor.ended()[0], 0, "the status")


def fifo_at_start(place):
    """A FIFO, a socket and a folder with names of files are there when the session begins, and it begins."""
    write(place.folder, {"b.proto": having()})
    os.mkfifo(at(place, "fifo.proto"))
    os.mkdir(at(place, "folder.proto"))
    os.symlink("fifo.proto", at(place, "link.proto"))
    editor, user = begun(place), at(place, "user.proto")
    for name in ("fifo.proto", "folder.proto", "link.proto"):
        editor.open(user, using(name))
        editor.expect_codes(user, "P102 P150", "an importer of " + name)
        editor.close(user)
    editor.open(user, using("b.proto"))
    editor.expect(user, [], "an importer of a file beside them")
    check(editor.ask("shutdown", None), None, "the reply to shutdown")
    editor.say("exit", None)
    check(editor.ended()[0], 0, "the status")


def fifo_swapped(place):
    """A FIFO and a file that take each other's place again and again do not stop the session."""
    write(place.folder, {"text": having(), "x/a.proto": having()})
    os.mkfifo(at(place, "pipe"))
    path = at(place, "x/b.proto")
    os.symlink(at(place, "text"), path)
    editor, user = begun(place), at(place, "user.proto")
    editor.open(user, using("x/b.proto"))
    editor.expect(user, [], "before")
    swapper = subprocess.Popen([sys.executable, "-c", SWAPPER, path, at(place, "text"), at(place, "pipe")])
    SERVERS.append(swapper)
    end = time.monotonic() + SWAPPING
    while time.monotonic() < end:
        editor.tell(*[(path, CHANGED)] * 20)
        editor.be_read()
    swapper.kill()
    swapper.wait()
    for goal, wanted in (("pipe", "P102 P150"), ("text", "")):
        os.symlink(at(place, goal), at(place, "last"))
        os.replace(at(place, "last"), path)
        editor.tell((path, CHANGED))
        editor.expect_codes(user, wanted, "at the end, with a link to the %s" % goal)
    check(editor.ask("shutdown", None), None, "the reply to shutdown")
    editor.say("exit", None)
    check(editor.ended()[0], 0, "the status")


# ---- standard error


class Deaf(Editor):
    """An editor that reads nothing from standard error."""

    def read_errors(self):
        pass


def unread_errors(place):
    """Where nobody reads standard error the session begins and goes on, though more lines come than a pipe holds."""
    os.mkdir(at(place, "x"))
    names = ["x/%04d.proto" % number for number in range(MANY)]
    for name in names:
        os.symlink(UNREADABLE, at(place, name))
    write(place.folder, {"b.proto": having()})
    editor, user = Deaf(place.program, *place.workers, params={"rootUri": uri_of(place.folder)}), at(place, "user.proto")
    editor.open(user, using("b.proto"))
    editor.expect(user, [], "an importer")
    editor.open(at(place, "long.proto"), " " * (MOST_BYTES + 1))
    many = at(place, "many.proto")
    editor.open(many, HEAD + "".join('import "%s";\n' % name for name in names))
    editor.wait_for(lambda: codes(editor.shown(many)) == ["P102"] * MANY, "an importer of files that cannot be read")
    write(place.folder, {"b.proto": having("S")})
    editor.tell((at(place, "b.proto"), CHANGED))
    editor.change(user, using("b.proto", "S"))
    editor.expect(user, [], "after a change on the disk")
    check(editor.ask("shutdown", None), None, "the reply to shutdown")
    editor.say("exit", None)
    editor.server.stdin.close()
    check(editor.server.wait(LONGEST), 0, "the status")


def closed_errors(place):
    """Where standard error is closed at its other end the session begins and goes on."""
    write(place.folder, {"b.proto": having()})
    os.symlink(UNREADABLE, at(place, "bad.proto"))
    editor, user = Deaf(place.program, *place.workers, params={"rootUri": uri_of(place.folder)}, begins=False), at(place, "user.proto")
    editor.server.stderr.close()
    editor.ask("initialize", {"rootUri": uri_of(place.folder), "capabilities": {}})
    editor.say("initialized", {})
    editor.open(at(place, "long.proto"), " " * (MOST_BYTES + 1))
    editor.open(user, using("b.proto"))
    editor.expect(user, [], "an importer")
    editor.change(user, using("bad.proto"))
    editor.expect_codes(user, "P102 P150", "an importer of a file that cannot be read")
    check(editor.ask("shutdown", None), None, "the reply to shutdown")
    editor.say("exit", None)
    editor.server.stdin.close()
    check(editor.server.wait(LONGEST), 0, "the status")


def escaped(name):
    """A name as it is written in an import."""
    return "".join(letter if letter.isprintable() else "\\x%02x" % ord(letter) for letter in name)


def check_cleaned(editor, count):
    """Checks the bytes of standard error, when so many lines have come."""
    editor.wait_for_lines(count)
    editor.be_quiet()
    printed = editor.printed
    found = sorted({byte for byte in printed if byte < 32 and byte != 10 or byte == 127})
    check(found, [], "the control characters of %r" % printed)
    lines = printed.split(b"\n")
    check(lines.pop() == b"", True, "the last line has its end")
    check(max(map(len, lines), default=0) <= LONGEST_LINE, True, "no line is longer than %d bytes" % LONGEST_LINE)
    check(len(lines), count, "how many lines came, of %r" % printed)
    check([line for line in lines if not line.startswith(b"pq_server: ")] == [], True, "each line has the name of the program")


def cleaned_lines(place):
    """Names with control characters, and long ones, come cleaned and cut on standard error and in the log, each in one line."""
    odd = ["new\nline.proto", "return\r.proto", "escape\x1b[31mred\x1b]0;title\x07.proto", "tab\tand\x7fdelete.proto", "\x01\x1f.proto"]
    deep = "/".join(["d%d" % n + "x" * 200 for n in range(8)]) + "/deep.proto"
    for name in odd + [deep]:
        os.makedirs(os.path.dirname(at(place, name)), exist_ok=True)
        os.symlink(UNREADABLE, at(place, name))
    write(place.folder, {"b.proto": having()})
    editor, user = rooted(place, "."), at(place, "user.proto")
    editor.open(user, HEAD + 'import "b.proto";\n' + "".join('import "%s";\n' % escaped(name) for name in odd + [deep]))
    editor.expect_codes(user, "P102 " * (len(odd) + 1), "an importer of files that cannot be read")
    count = len(odd) + 1
    check_cleaned(editor, count)
    logged = editor.logged()
    found = [text for line in editor.lines() for text in logged if line == "pq_server: " + text]
    check(len(found), count, "the lines that are in the log of the editor, too: %r" % logged)
    unopened = at(place, "not\nopen\x1b[2J.proto")
    editor.versions[uri_of(unopened)] = 1
    editor.change(unopened, {"range": span(0, 0, 0, 0), "text": "x"})
    check_cleaned(editor, count + 1)
    check(editor.ask("shutdown", None), None, "the reply to shutdown")
    editor.say("exit", None)
    check(editor.ended()[0], 0, "the status")


def cleaned_root(place):
    """A root with control characters that is not there leaves cleaned lines, if any."""
    root = at(place, "no\nwhere\x1b[2J")
    editor = Editor(place.program, *place.workers, "--root", root, params={"rootUri": uri_of(place.folder)})
    editor.open(at(place, "user.proto"), using("b.proto"))
    editor.expect_codes(at(place, "user.proto"), "P102 P150", "an importer of a file that is not there")
    check_cleaned(editor, len(editor.lines()))
    editor.end(*(("no",) for _ in editor.lines()))
