"""Rows of `checks/stdio.py`: what changes on the disk is seen, also where the editor says nothing of it.

A row waits until a change is seen; how long that takes is measured by bench/watching.py. That something is not seen is checked
after the server has looked at the whole disk once more.
"""
import os
import shutil
import statistics
import subprocess
import sys
import time

from server_process import LONGEST, SERVERS, Failed, check, until, write
from stdio_client import codes, shown_by_rights
from stdio_files import CHANGED, CREATED, DELETED, MOST_BYTES, UNREADABLE, having, rooted, using
from stdio_lists import BAD, HEAD, at, begun
from texts import texts_in

# What is seen at once takes at most so many seconds in the middle. Looks at the disk are further apart.
AT_ONCE = 0.3
# Of how many files two texts are written one right after the other.
TWICE = 30
# How many files come and go, and what makes them do that for two seconds.
COMING = 100
COMER = """import os, sys, time
text, *paths = sys.argv[1:]
end = time.monotonic() + 2
while time.monotonic() < end:
    for path in paths:
        with open(path, "w") as sink:
            sink.write(text)
    for path in paths:
        os.remove(path)
"""
# The user and the settings of git for a scratch repository.
GIT = ("git", "-c", "user.name=one", "-c", "user.email=one@example.com", "-c", "gc.auto=0", "-c", "core.hooksPath=/dev/null")


def user_of(place, editor, name, kind="T", folder="."):
    """An importer of the file `name`, which is opened below a folder. Returns its path."""
    path = os.path.normpath(at(place, "%s/user_of_%s_%s" % (folder, kind, name.replace("/", "_"))))
    editor.open(path, using(name, kind))
    return path


def overwrite(path, text):
    """Writes a text into the file that is there."""
    with open(path, "w", encoding="utf-8", newline="") as sink:
        sink.write(text)


# ---- files and folders


def unsaid_files(place):
    """New, changed and removed files are seen though the editor says nothing."""
    editor = begun(place)
    user = user_of(place, editor, "b.proto")
    editor.expect_codes(user, "P102 P150", "before")
    for _ in range(2):
        write(place.folder, {"b.proto": having()})
        editor.expect(user, [], "a new file")
        write(place.folder, {"b.proto": having("S")})
        editor.expect_codes(user, "P150", "a changed file")
        overwrite(at(place, "b.proto"), having())
        editor.expect(user, [], "a file that was overwritten")
        os.remove(at(place, "b.proto"))
        editor.expect_codes(user, "P102 P150", "a removed file")
    editor.end()


def unsaid_folders(place):
    """New, renamed, moved and removed folders are seen with all that is below them."""
    write(place.folder, {"r/a.proto": "", "outside/in/b.proto": having()})
    editor = rooted(place, "r")
    users = {name: user_of(place, editor, name + "/in/b.proto", folder="r") for name in ("x", "y", "z/z/z")}

    def found(wanted, what):
        for name, user in users.items():
            editor.expect_codes(user, "" if name == wanted else "P102 P150", "%s, an import below %s" % (what, name))

    os.makedirs(at(place, "r/x/in"))
    editor.look(at(place, "r"))
    write(place.folder, {"r/x/in/b.proto": having()})
    found("x", "a file in a new folder")
    os.rename(at(place, "r/x"), at(place, "r/y"))
    found("y", "a renamed folder")
    write(place.folder, {"r/y/in/b.proto": having("S")})
    editor.expect_codes(users["y"], "P150", "a file that changed in the renamed folder")
    shutil.rmtree(at(place, "r/y"))
    found(None, "a removed folder")
    os.rename(at(place, "outside"), at(place, "r/x"))
    found("x", "a folder that was moved into the root")
    os.makedirs(at(place, "r/z/z"))
    os.rename(at(place, "r/x"), at(place, "r/z/z/z"))
    found("z/z/z", "a folder that was moved below new ones")
    os.rename(at(place, "r/z"), at(place, "outside"))
    found(None, "a folder that was moved out of the root")
    editor.end()


def unsaid_root(place):
    """A root folder that is removed and put back is seen, with all that is below it."""
    write(place.folder, {"r/x/b.proto": having(), "s/user.proto": ""})
    editor, user = rooted(place, "s", "r"), at(place, "s/user.proto")
    editor.open(user, using("x/b.proto"))
    check(codes(editor.pull(user)), [], "before")
    for _ in range(2):
        os.rename(at(place, "r"), at(place, "away"))
        editor.expect_codes(user, "P102 P150", "while the root is away")
        os.rename(at(place, "away"), at(place, "r"))
        editor.expect_codes(user, "", "once it is back")
    lines = editor.lines()
    check(len(lines) <= 2, True, "at most a line for each time that the root is away: %r" % lines)
    editor.end(*((at(place, "r"),) for _ in lines))


def unsaid_below_two(place):
    """A file of the first root that comes and goes hides that of the second, though the editor says nothing."""
    write(place.folder, {"one/a.proto": "", "two/b.proto": having(), "two/c.proto": having("Disk")})
    editor = rooted(place, "one", "two")
    user, other = user_of(place, editor, "b.proto"), user_of(place, editor, "c.proto")
    hidden = at(place, "two/c.proto")
    editor.open(hidden, having())
    for path in (user, other):
        editor.expect_codes(path, "", "before")
    for _ in range(2):
        write(place.folder, {"one/b.proto": having("S"), "one/c.proto": having("S")})
        for path in (user, other):
            editor.expect_codes(path, "P150", "once the first root has the file")
        check(codes(editor.pull(hidden)), [], "the hidden document")
        for name in ("one/b.proto", "one/c.proto"):
            os.remove(at(place, name))
        for path in (user, other):
            editor.expect_codes(path, "", "once the first root's file is gone")
    editor.end()


def unsaid_of_open_files(place):
    """A file that is open keeps its buffer, whatever becomes of it on the disk, and its closing brings what is there."""
    write(place.folder, {"r/x/b.proto": having("Disk"), "r/mark.proto": ""})
    editor, path = rooted(place, "r"), at(place, "r/x/b.proto")
    user = user_of(place, editor, "x/b.proto", folder="r")
    editor.open(path, having())
    editor.expect(user, [], "before")
    steps = (("changed", lambda: overwrite(path, having("S"))),
             ("removed", lambda: os.remove(path)),
             ("in a folder that is gone", lambda: os.rename(at(place, "r/x"), at(place, "away"))))
    for what, step in steps:
        step()
        editor.look(at(place, "r"))
        check([codes(editor.pull(user)), codes(editor.pull(path))], [[], []], "the file is open and " + what)
        check([it["diagnostics"] for it in editor.lists(path) if it["diagnostics"]], [], "lists of the file, " + what)
    os.rename(at(place, "away"), at(place, "r/x"))
    write(place.folder, {"r/x/b.proto": having("S")})
    check(codes(editor.shown(user)), [], "the list of its importer")
    editor.close(path)
    editor.expect_codes(user, "P150", "after the close")
    editor.end()


# ---- times and lengths that hide a change


def replaced_files(place):
    """A file is seen that a rename puts in the place of another, of the same length and with the same or an older time."""
    write(place.folder, {"r/b.proto": having("T")})
    editor = rooted(place, "r")
    user, path = user_of(place, editor, "b.proto", folder="r"), at(place, "r/b.proto")
    editor.expect(user, [], "before")
    for age in (0, 3600):
        for kind, wanted in (("S", "P150"), ("T", "")):
            there = os.stat(path)
            write(place.folder, {"spare": having(kind)})
            os.utime(at(place, "spare"), ns=(there.st_atime_ns, there.st_mtime_ns - age * 10 ** 9))
            os.replace(at(place, "spare"), path)
            editor.expect_codes(user, wanted, "a file that is %d s older, with the type %s" % (age, kind))
    editor.end()


def old_times(place):
    """A file is seen that is overwritten with a text of the same length and gets its old time back."""
    write(place.folder, {"b.proto": having("T")})
    editor, path = begun(place), at(place, "b.proto")
    user = user_of(place, editor, "b.proto")
    editor.expect(user, [], "before")
    for kind, wanted in (("S", "P150"), ("T", "")):
        there = os.stat(path)
        overwrite(path, having(kind))
        os.utime(path, ns=(there.st_atime_ns, there.st_mtime_ns))
        editor.expect_codes(user, wanted, "the type %s with the old time" % kind)
    editor.end()


def written_twice(place):
    """Of two texts of one length that are written right after each other the second one is seen."""
    names = ["f%d.proto" % n for n in range(TWICE)]
    write(place.folder, dict.fromkeys(names, having("T")))
    editor, users = begun(place), []
    for name in names:
        users.append(user_of(place, editor, name))
    for first, second in (("R", "S"), ("R", "T"), ("T", "S"), ("S", "T")):
        for number, name in enumerate(names):
            # The editor says something of the first text alone, so that this one may be read before the other is there.
            overwrite(at(place, name), having(first))
            editor.tell((at(place, name), CHANGED))
            if number % 2:
                editor.pull(at(place, name))
            overwrite(at(place, name), having(second))
        for user in users:
            what = "%s of %s after %s" % (second, os.path.basename(user), first)
            until(lambda: codes(editor.pull(user)), ["P150"] if second == "S" else [], what)
    editor.end()


def grown_slowly(place):
    """A file that is written piece by piece is seen as it is at its end."""
    editor, path = begun(place), at(place, "b.proto")
    text = having() + "".join("message M%d { int32 x = 0; }\n" % n for n in range(200)) + "message Last {}\n"
    user = user_of(place, editor, "b.proto", "Last")
    size = len(text) // 60
    with open(path, "w", encoding="utf-8") as sink:
        for start in range(0, len(text), size):
            sink.write(text[start:start + size])
            sink.flush()
            time.sleep(0.02)
    editor.expect(user, [], "the importer of the last type")
    editor.open(path, text)
    editor.wait_for(lambda: len(editor.shown(path)) == 200, "how many errors the file has")
    editor.end()


def links_that_turn(place):
    """A link to a file that is made to lead to another, of the same length and time, is seen."""
    write(place.folder, {"away/s.proto": having("S"), "away/t.proto": having("T"), "r/a.proto": ""})
    for name in ("s", "t"):
        os.utime(at(place, "away/%s.proto" % name), (1_700_000_000, 1_700_000_000))
    path = at(place, "r/b.proto")
    os.symlink("../away/t.proto", path)
    editor = rooted(place, "r")
    user = user_of(place, editor, "b.proto", folder="r")
    editor.expect(user, [], "before")
    for name, wanted in (("s", "P150"), ("t", "")):
        os.symlink("../away/%s.proto" % name, at(place, "r/new"))
        os.replace(at(place, "r/new"), path)
        editor.expect_codes(user, wanted, "the link leads to %s" % name)
    overwrite(at(place, "away/t.proto"), having("S"))
    editor.expect_codes(user, "P150", "the file to which the link leads is overwritten")
    os.remove(at(place, "away/t.proto"))
    editor.expect_codes(user, "P102 P150", "the file to which the link leads is gone")
    editor.end()


# ---- a checkout


def git(folder, *words):
    """Runs git in a folder, with no settings of the user."""
    own = dict(os.environ, GIT_CONFIG_GLOBAL="/dev/null", GIT_CONFIG_SYSTEM="/dev/null")
    done = subprocess.run([*GIT, *words], cwd=folder, env=own, stdin=subprocess.DEVNULL, capture_output=True, timeout=LONGEST)
    if done.returncode != 0:
        raise Failed("git %s: %s" % (" ".join(words), done.stderr.decode(errors="replace")))


def chain(kind, names):
    """Files of which each imports the one before and uses its type. Each type has the kind at the end of its name."""
    found, before = {}, None
    for name in names:
        own = os.path.basename(name)[:-len(".proto")].upper() + kind
        uses = "" if before is None else 'import "%s";\n' % before[0]
        field = "" if before is None else " %s f = 1; " % before[1]
        found[name] = HEAD + uses + "message %s {%s}\n" % (own, field)
        before = (name, own)
    return found


def checkouts(place):
    """After `git checkout` between two commits of 16 files the lists are those of the new texts."""
    folder, names = at(place, "r"), ["%s/f%d.proto" % ("uvwx"[n % 4], n) for n in range(16)]
    states = {"one": chain("S", names), "two": chain("T", names[:12] + ["y/g%d.proto" % n for n in range(4)])}
    os.mkdir(folder)
    git(folder, "init", "-q", "-b", "none")
    for branch, files in states.items():
        git(folder, "checkout", "-q", "--orphan", branch)
        for name in texts_in(folder):
            os.remove(os.path.join(folder, name))
        write(folder, files)
        git(folder, "add", "-A", ".")
        git(folder, "commit", "-q", "-m", branch)
    editor, users = rooted(place, "r"), {}
    for kind, files in zip("ST", states.values()):
        for name in files:
            own = os.path.basename(name)[:-len(".proto")].upper() + kind
            users["user_of_%s.proto" % own] = using(name, own)
    for name, text in users.items():
        editor.open(at(place, "r/" + name), text)
    for branch in ("one", "two", "one", "two"):
        git(folder, "checkout", "-q", branch)
        wanted = shown_by_rights(place.program, dict(states[branch], **users))
        for name in users:
            editor.expect(os.path.join(folder, name), wanted[name], "on branch %s, %s" % (branch, name))
        for name in states[branch]:
            check(editor.pull(os.path.join(folder, name)), wanted[name], "on branch %s, asked for, %s" % (branch, name))
    editor.end()


# ---- at once


def at_once(place):
    """A change on the disk counts at once after an open, a save, a close, and news of a file or of a folder."""
    write(place.folder, {"x/b.proto": having()})
    editor, path, other = begun(place), at(place, "x/b.proto"), at(place, "other.proto")
    user, saved = user_of(place, editor, "x/b.proto"), at(place, "saved.proto")
    editor.open(saved, HEAD)
    editor.expect(user, [], "before")
    events = (("an open", lambda: editor.open(other, HEAD)), ("a close", lambda: editor.close(other)),
              ("a save", lambda: editor.save(saved)), ("news of the file", lambda: editor.tell((path, CHANGED))),
              ("news of the folder", lambda: editor.tell((os.path.dirname(path), CHANGED))))
    waits, kind = {what: [] for what, _ in events}, "T"
    for _ in range(7):
        for what, event in events:
            kind = "S" if kind == "T" else "T"
            write(place.folder, {"x/b.proto": having(kind)})
            start = time.monotonic()
            event()
            editor.expect_codes(user, "" if kind == "T" else "P150", "after " + what)
            waits[what].append(time.monotonic() - start)
    slow = {what: round(statistics.median(found), 2) for what, found in waits.items() if statistics.median(found) > AT_ONCE}
    check(slow, {}, "the events after which a change is not seen at once, with the seconds in the middle")
    editor.end()


def right_after(place):
    """What is read at once, after news of a file or the close of its document, does not hide what becomes of the file right after."""
    ways = (("news", lambda editor, path, kind: editor.tell((path, kind))),
            ("close", lambda editor, path, kind: (editor.open(path, HEAD), editor.close(path))))
    cases = {"%s_%s.proto" % (way, what): (say, what) for way, say in ways for what in ("new", "gone", "other", "again")}
    aside, expected = {name: at(place, name + ".aside") for name in cases}, {}
    write(place.folder, {name: having() for name, (_, what) in cases.items() if what != "new"})
    editor = begun(place)
    users = {name: user_of(place, editor, name) for name in cases}
    editor.look(place.folder)
    for name, (say, what) in cases.items():
        path = at(place, name)
        if what in ("gone", "other"):
            os.rename(path, aside[name])
        if what in ("new", "other"):
            write(place.folder, {name: having("T" if what == "new" else "S")})
        if what == "again":
            overwrite(path, having("S"))
        say(editor, path, {"new": CREATED, "gone": DELETED}.get(what, CHANGED))
        now = {"new": [], "gone": ["P102", "P150"]}.get(what, ["P150"])
        check(codes(editor.pull(users[name])), now, "an importer of %s, at once" % name)
        if what == "new":
            os.remove(path)
        elif what == "again":
            overwrite(path, having("T"))
        else:
            os.replace(aside[name], path)
        expected[name] = ["P102", "P150"] if what == "new" else []
    until(lambda: {name: codes(editor.pull(user)) for name, user in users.items()}, expected, "the importers at the end")
    editor.end()


def told_of_folders(place):
    """News of a folder that was made, renamed or removed brings what is below it, whatever its kind of news."""
    write(place.folder, {"r/a.proto": ""})
    editor = rooted(place, "r")
    x, y = at(place, "r/x"), at(place, "r/y")
    users = [user_of(place, editor, name, folder="r") for name in ("x/in/b.proto", "y/in/b.proto")]
    steps = ((lambda: write(place.folder, {"r/x/in/b.proto": having()}), [(x, CREATED)], "", "P102 P150"),
             (lambda: os.rename(x, y), [(x, DELETED), (y, CREATED)], "P102 P150", ""),
             (lambda: write(place.folder, {"r/y/in/b.proto": having("S")}), [(y, CHANGED)], "P102 P150", "P150"),
             (lambda: os.rename(y, x), [(at(place, "r"), CHANGED)], "P150", "P102 P150"),
             (lambda: shutil.rmtree(x), [(x + "/", DELETED)], "P102 P150", "P102 P150"))
    for step, told, *wanted in steps:
        step()
        editor.tell(*told)
        for user, its in zip(users, wanted):
            editor.expect_codes(user, its, "after %r" % (told,))
    editor.end()


# ---- files that cannot be read, and files that are gone


def files_that_come_and_go(place):
    """Files that are gone again when the server reads them leave no line, and are absent at the end."""
    os.makedirs(at(place, "x"))
    names = ["x/f%d.proto" % n for n in range(COMING)]
    editor, user = begun(place), at(place, "user.proto")
    editor.open(user, HEAD + "".join('import "%s";\n' % name for name in names))
    program = subprocess.Popen([sys.executable, "-c", COMER, having(), *[at(place, name) for name in names]])
    SERVERS.append(program)
    while program.poll() is None:
        editor.tell((at(place, "x"), CHANGED), (at(place, names[0]), CHANGED))
        editor.be_read()
    until(lambda: codes(editor.pull(user)).count("P102"), len(names), "how many of the files are missing at the end")
    editor.look(place.folder)
    editor.end()


def one_line_a_file(place):
    """A file that cannot be read leaves one line, however often the disk is looked at, and is there once it can be read."""
    write(place.folder, {"long.proto": " " * (MOST_BYTES + 1)})
    with open(at(place, "bytes.proto"), "wb") as sink:
        sink.write(b"\xff")
    os.symlink(UNREADABLE, at(place, "link.proto"))
    names = ("long.proto", "bytes.proto", "link.proto")
    editor = begun(place)
    users = [user_of(place, editor, name) for name in names]
    editor.look(place.folder)
    editor.save(users[0])
    for user in users:
        is_there = codes(editor.pull(user))
        check(is_there, ["P102", "P150"], "an importer of a file that cannot be read")
    lines = editor.lines()
    check(sorted(os.path.basename(line.split(": ")[1]) for line in lines), sorted(names), "the files of the lines %r" % lines)
    write(place.folder, dict.fromkeys(names, having()))
    for user in users:
        editor.expect(user, [], "once it can be read")
    editor.end(*((line,) for line in lines))


def faulty_meanwhile(place):
    """A file that cannot be read any more is absent, and leaves one line."""
    write(place.folder, {"b.proto": having()})
    editor, path = begun(place), at(place, "b.proto")
    user = user_of(place, editor, "b.proto")
    editor.expect(user, [], "before")
    with open(path, "wb") as sink:
        sink.write(b"\xff")
    editor.expect_codes(user, "P102 P150", "while it is not UTF-8")
    editor.look(place.folder)
    write(place.folder, {"b.proto": BAD + "message T {}\n"})
    editor.expect(user, [], "mended")
    editor.end((path,))
