"""Rows of `checks/stdio.py`: root folders, the files on the disk, and what is done where a file cannot be read or taken."""
import os

from server_process import check, uri_of, write
from stdio_client import SHOW, Editor, codes, shown_by_rights
from stdio_lists import BAD, GOOD, HEAD, at, begun

MOST_BYTES = 1_048_576
# What is said of a file that is not read.
TOO_LONG, NOT_TEXT = "its text has more than 1048576 bytes", "its text is not UTF-8"
CREATED, CHANGED, DELETED = 1, 2, 3
# A file that each program can open, and none can read.
UNREADABLE = "/proc/self/mem"


def using(name, kind="T"):
    """A file that imports another and uses a type of it."""
    return HEAD + 'import "%s";\nmessage User { %s t = 1; }\n' % (name, kind)


def having(kind="T"):
    return HEAD + "message %s {}\n" % kind


def rooted(place, *roots, **more):
    """An editor whose server has root folders by its words, and no others."""
    words = [word for root in roots for word in ("--root", at(place, root))] + ["--only-roots"]
    return Editor(place.program, *place.workers, *words, params={"rootUri": uri_of(place.folder)}, **more)


def unread(items):
    """What a list says of a file that is not read: the message of its one item, which is at the start of the file."""
    start = {"line": 0, "character": 0}
    if [it["range"] for it in items] != [{"start": start, "end": start}] or "code" in items[0] or items[0]["severity"] != 1:
        return "not one error at the start: %s" % items
    return items[0]["message"].partition("the file is not checked: ")[2]


def shows(editor, path, text, wanted, what):
    """Opens a file, waits for the codes that it is shown with, asks for them too, and closes it."""
    editor.open(path, text)
    check(codes(editor.pull(path)), wanted.split(), what + ", asked for")
    editor.expect_codes(path, wanted, what)
    editor.close(path)
    editor.expect(path, [], "after the close: " + what)


# ---- opened files and those on the disk


def close_to_disk(place):
    """A closed document gets the empty list, and the text on the disk counts again."""
    write(place.folder, {"b.proto": having()})
    editor, a, b = begun(place), at(place, "a.proto"), at(place, "b.proto")
    editor.open(a, using("b.proto"))
    editor.open(b, BAD)
    editor.expect_codes(b, "P120", "the buffer")
    editor.expect_codes(a, "P150", "an importer of the buffer")
    editor.close(b)
    editor.expect(b, [], "after the close")
    editor.expect(a, [], "an importer of the text on the disk")
    check(editor.pull(b), [], "the text on the disk, asked for")
    editor.open(b, BAD)
    editor.expect_codes(b, "P120", "opened again")
    editor.end()


def close_to_nothing(place):
    """A closed document that is not on the disk is absent."""
    editor, a, b = begun(place), at(place, "a.proto"), at(place, "b.proto")
    editor.open(a, using("b.proto"))
    editor.open(b, having())
    editor.expect(a, [], "while it is open")
    editor.close(b)
    editor.expect_codes(a, "P102 P150", "after the close")
    editor.end()


def disk_is_read(place):
    """An import is found on the disk though it was never opened."""
    write(place.folder, {"x/b.proto": using("x/c.proto", "C").replace("User", "T"), "x/c.proto": having("C")})
    editor = begun(place)
    editor.open(at(place, "a.proto"), using("x/b.proto"))
    for name in ("a.proto", "x/b.proto"):
        check(editor.pull(at(place, name)), [], "an importer of a file on the disk, " + name)
    editor.be_quiet()
    check(editor.shown(at(place, "a.proto")), [], "its list")
    editor.end()


def told_of_files(place):
    """Files that were created, changed and deleted on the disk count once the editor says so, and an open one keeps its text."""
    editor, a, b = begun(place), at(place, "a.proto"), at(place, "b.proto")
    editor.open(a, using("b.proto"))
    editor.expect_codes(a, "P102 P150", "before")
    write(place.folder, {"b.proto": having()})
    editor.tell((b, CREATED))
    editor.expect(a, [], "created")
    write(place.folder, {"b.proto": having("S")})
    editor.tell((b, CHANGED))
    editor.expect_codes(a, "P150", "changed")
    os.remove(b)
    editor.tell((b, DELETED))
    editor.expect_codes(a, "P102 P150", "deleted")
    editor.open(b, having())
    editor.expect(a, [], "opened")
    write(place.folder, {"b.proto": having("S")})
    editor.tell((b, CREATED), (b, CHANGED))
    editor.be_quiet()
    check(editor.shown(a), [], "an open file keeps the text of its buffer")
    os.remove(b)
    editor.tell((b, DELETED), (at(place, "none.proto"), DELETED), (at(place, "notes.txt"), CREATED))
    editor.be_quiet()
    check(editor.shown(a), [], "an open file that was deleted on the disk")
    editor.end()


def saves(place):
    """A save of an open document changes nothing, though the disk has another text."""
    editor, path = begun(place), at(place, "a.proto")
    editor.open(path, BAD)
    editor.expect_codes(path, "P120", "before")
    write(place.folder, {"a.proto": GOOD})
    editor.save(path)
    editor.be_quiet()
    check(len(editor.lists(path)), 1, "how many lists came")
    check(codes(editor.pull(path)), ["P120"], "the diagnostics")
    editor.change(path, GOOD)
    editor.expect(path, [], "after a change")
    editor.end()


# ---- roots


def roots_in_order(place):
    """Of a name that two roots have, the file below the first one counts."""
    write(place.folder, {"one/c.proto": having("One"), "two/c.proto": having("Two"), "two/d.proto": having("D")})
    user = at(place, "one/user.proto")
    for roots, found, missing in ((("one", "two"), "One", "Two"), (("two", "one"), "Two", "One")):
        editor = rooted(place, *roots)
        shows(editor, user, using("c.proto", found), "", "the type of the first root")
        shows(editor, user, using("c.proto", missing), "P150", "the type of the second root")
        shows(editor, user, using("d.proto", "D"), "", "a file that one root alone has")
        editor.end()


def root_by_uri(place):
    """Without workspace folders names are below `rootUri`, which ends with a slash or not."""
    write(place.folder, {"r/x/c.proto": having(), "other/o.proto": having("O")})
    editor = Editor(place.program, *place.workers, params={"rootUri": uri_of(at(place, "r")) + "/"})
    user = at(place, "r/user.proto")
    shows(editor, user, using("x/c.proto"), "", "a name below the root")
    shows(editor, user, using("o.proto", "O"), "P102 P150", "a file outside the root")
    editor.end()


def roots_by_folders(place):
    """The workspace folders are roots, in their order."""
    write(place.folder, {"one/c.proto": having("One"), "two/c.proto": having("Two"), "two/d.proto": having("D")})
    folders = [{"uri": uri_of(at(place, name)), "name": name} for name in ("one", "two")]
    editor = Editor(place.program, *place.workers, params={"rootUri": None, "workspaceFolders": folders})
    user = at(place, "two/user.proto")
    shows(editor, user, using("c.proto", "One"), "", "the type of the first folder")
    shows(editor, user, using("d.proto", "D"), "", "a file of the second folder")
    editor.end()


def nested_roots(place):
    """A file below two roots has a name by each, and an edit of it counts under both."""
    write(place.folder, {"one/in/c.proto": having("S")})
    editor = rooted(place, "one", "one/in")
    long, short, both = [at(place, "one/%s.proto" % name) for name in ("long", "short", "in/c")]
    editor.open(long, using("in/c.proto"))
    editor.open(short, using("c.proto"))
    for path in (long, short):
        editor.expect_codes(path, "P150", "before, %s" % os.path.basename(path))
    editor.open(both, having())
    for path in (long, short):
        editor.expect(path, [], "after the open, %s" % os.path.basename(path))
    editor.change(both, having("S"))
    for path in (long, short):
        editor.expect_codes(path, "P150", "after a change, %s" % os.path.basename(path))
    write(place.folder, {"one/in/c.proto": having()})
    editor.close(both)
    for path in (long, short):
        editor.expect(path, [], "after the close, %s" % os.path.basename(path))
    editor.end()


def shadowed(place):
    """A file whose name an earlier root has too gets its own list, and importers of the name see the earlier file."""
    write(place.folder, {"one/c.proto": having("One"), "two/c.proto": having("Two")})
    editor = rooted(place, "one", "two")
    user, hidden, first = at(place, "two/user.proto"), at(place, "two/c.proto"), at(place, "one/c.proto")
    editor.open(user, using("c.proto", "One"))
    check(editor.pull(user), [], "the importer")
    editor.open(hidden, BAD)
    editor.expect_codes(hidden, "P120", "the hidden file")
    editor.be_quiet()
    check(editor.shown(user), [], "the importer, while the hidden file is open")
    for path in (user, first):
        check(editor.pull(path), [], "asked for while the hidden file is open, %s" % os.path.relpath(path, place.folder))
    editor.close(hidden)
    editor.expect(hidden, [], "the hidden file after its close")
    os.remove(first)
    editor.tell((first, DELETED))
    editor.expect_codes(user, "P150", "the importer, once the first file is gone")
    editor.end()


def definition_elsewhere(place):
    """A definition in a file of the second root has the URI of that file."""
    write(place.folder, {"one/a.proto": "", "two/x/b c.proto": having()})
    editor = rooted(place, "one", "two")
    user = at(place, "one/user.proto")
    editor.open(user, using("x/b c.proto"))
    editor.expect(user, [], "the importer")
    position = {"line": 2, "character": 15}
    found = editor.ask("textDocument/definition", {"textDocument": {"uri": uri_of(user)}, "position": position})
    check(found.get("uri"), uri_of(at(place, "two/x/b c.proto")), "the file of the definition")
    check(found["range"]["start"], {"line": 1, "character": 8}, "its place")
    editor.end()


# ---- what cannot be read or taken


def unreadable(place):
    """A file that cannot be read leaves one line, and the rest is there."""
    write(place.folder, {"good.proto": having()})
    os.symlink(UNREADABLE, at(place, "bad.proto"))
    editor, user = begun(place), at(place, "user.proto")
    shows(editor, user, using("good.proto"), "", "a file beside it")
    shows(editor, user, using("bad.proto"), "P102 P150", "the file")
    editor.end(("pq_server: " + at(place, "bad.proto"), "Input/output error"))


def bytes_that_are_no_text(place):
    """A file that is not UTF-8, and one that is too long, leave a line and a message to the user each, and the rest is there."""
    write(place.folder, {"good.proto": having(), "long.proto": " " * (MOST_BYTES + 1)})
    with open(at(place, "bytes.proto"), "wb") as sink:
        sink.write(b"\xff")
    editor, user = begun(place), at(place, "user.proto")
    shows(editor, user, using("good.proto"), "", "a file beside them")
    for name in ("bytes.proto", "long.proto"):
        shows(editor, user, using(name), "P102 P150", name)
    lines = editor.lines()
    found = sorted(os.path.basename(line.split(": ")[1]) for line in lines)
    check(found, ["bytes.proto", "long.proto"], "the files of the lines %r" % lines)
    check([[fault in text for text in editor.logged(SHOW)].count(True) for fault in (NOT_TEXT, TOO_LONG)], [1, 1],
          "the messages to the user: %r" % editor.logged(SHOW))
    editor.end(*((line,) for line in lines))


def text_too_long(place):
    """A document that gets too long is shown with one error at its start; shorter again, it is shown with its list."""
    editor, path = begun(place), at(place, "a.proto")
    editor.open(path, BAD)
    editor.expect_codes(path, "P120", "before")
    for _ in range(2):
        editor.change(path, BAD + " " * MOST_BYTES)
        editor.wait_for(lambda: codes(editor.shown(path)) == ["none"], "too long")
        check([unread(editor.shown(path)), unread(editor.pull(path))], [TOO_LONG, TOO_LONG], "what is said of it")
        editor.change(path, BAD)
        editor.expect_codes(path, "P120", "shorter again")
    other = at(place, "b.proto")
    editor.open(other, BAD + " " * MOST_BYTES)
    editor.wait_for(lambda: codes(editor.shown(other)) == ["none"], "another one that is too long")
    check(len(editor.logged(SHOW)), 1, "how often the user is told: %r" % editor.logged(SHOW))
    editor.leave()


def opened_too_long(place):
    """A document that is opened too long is taken once ranged changes have made it shorter."""
    editor, path = begun(place), at(place, "a.proto")
    editor.open(path, BAD + " " * MOST_BYTES)
    editor.wait_for(lambda: codes(editor.shown(path)) == ["none"], "too long")
    length = len(BAD.split("\n")[-1]) + MOST_BYTES
    gone = {"range": {"start": {"line": 2, "character": 0}, "end": {"line": 2, "character": length}}, "text": ""}
    editor.change(path, gone)
    editor.expect_codes(path, "P120", "shorter by a range")
    editor.leave()


def changes_of_ranges(place):
    """Ranged changes in UTF-16 columns are made in their order, also on a text of the disk that was opened as it is."""
    text = HEAD + 'message M { string s = 1; /* \U0001f600 */ int32 x = 2; }\n'
    wanted = HEAD + 'message M { string s = 1; /* \U0001f600 */ int32 x = 0; }\nmessage N { Z z = 1; }\n'
    write(place.folder, {"a.proto": text})
    editor, path = begun(place), at(place, "a.proto")
    editor.open(path, text)
    column = len(text.split("\n")[1].split("= 2")[0].encode("utf-16-le")) // 2 + 2
    changes = [(1, column, 1, column + 1, "0"), (2, 0, 2, 0, "message N { Z z = 1; }\n")]
    editor.change(path, *({"range": {"start": {"line": a, "character": b}, "end": {"line": c, "character": d}}, "text": new}
                          for a, b, c, d, new in changes))
    editor.expect(path, shown_by_rights(place.program, {"a.proto": wanted})["a.proto"], "after the changes")
    editor.end()
