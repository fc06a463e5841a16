"""Rows of `checks/stdio.py`: which text a name has, with open documents over the disk, below roots in order."""
import os

from server_process import check, until, uri_of, write
from stdio_client import Editor, codes
from stdio_files import CHANGED, CREATED, DELETED, having, rooted, using
from stdio_lists import HEAD, at

# The place of the type in a text of `using`.
TYPE = (2, 15)


def faulty(kind, errors=1):
    """A file with a type, and so many errors of its own."""
    return having(kind) + "".join("message E%d { int32 x = 0; }\n" % n for n in range(errors))


def is_shown(editor, path, wanted, what):
    """Waits until a document is shown with these codes, and asks for them too."""
    editor.expect_codes(path, wanted, what)
    check(codes(editor.pull(path)), wanted.split(), what + ", asked for")


# ---- documents with one name


def two_of_one_name(place):
    """Of two open documents with one name each is shown with its own list, also once the first is closed unsaved."""
    write(place.folder, {"one/a.proto": "", "two/a.proto": ""})
    user, first, second = at(place, "one/user.proto"), at(place, "one/c.proto"), at(place, "two/c.proto")
    for order in ((first, second), (second, first)):
        editor = rooted(place, "one", "two")
        editor.open(user, using("c.proto", "Two"))
        for path in order:
            editor.open(path, faulty("One") if path == first else faulty("Two", 2))
        is_shown(editor, first, "P120", "the first")
        is_shown(editor, second, "P120 P120", "the second")
        is_shown(editor, user, "P150", "the importer of the first")
        editor.change(second, faulty("Two", 3))
        is_shown(editor, second, "P120 P120 P120", "the second after a change")
        editor.change(first, faulty("One", 0))
        is_shown(editor, first, "", "the first after a change")
        editor.be_quiet()
        is_shown(editor, second, "P120 P120 P120", "the second after a change of the first")
        editor.close(first)
        is_shown(editor, user, "", "the importer of the second")
        is_shown(editor, second, "P120 P120 P120", "the second after the close")
        editor.change(second, faulty("Three"))
        is_shown(editor, user, "P150", "the importer after a change of the second")
        editor.close(second)
        is_shown(editor, user, "P102 P150", "the importer of nothing")
        editor.end()


def closed_first(place):
    """Of two open documents with one name the second is closed, and importers go on with the first."""
    write(place.folder, {"one/a.proto": "", "two/c.proto": having("Disk")})
    editor = rooted(place, "one", "two")
    user, first, second = at(place, "two/user.proto"), at(place, "one/c.proto"), at(place, "two/c.proto")
    editor.open(user, using("c.proto", "One"))
    editor.open(second, having("Two"))
    is_shown(editor, user, "P150", "the importer of the second")
    editor.open(first, having("One"))
    is_shown(editor, user, "", "the importer of the first")
    editor.close(second)
    editor.be_quiet()
    is_shown(editor, user, "", "the importer after the close of the second")
    editor.change(first, having("Disk"))
    is_shown(editor, user, "P150", "the importer after a change of the first")
    editor.close(first)
    editor.change(user, using("c.proto", "Disk"))
    is_shown(editor, user, "", "the importer of the disk")
    editor.end()


def unsaved_hides(place):
    """A document below the first root that is on no disk hides the second root's file from its open to its close."""
    write(place.folder, {"one/a.proto": "", "two/c.proto": having("Two")})
    editor = rooted(place, "one", "two")
    user, first = at(place, "two/user.proto"), at(place, "one/c.proto")
    editor.open(user, using("c.proto", "Two"))
    is_shown(editor, user, "", "before")
    for _ in range(2):
        editor.open(first, having("One"))
        is_shown(editor, user, "P150", "while the document is open")
        editor.change(first, having("Two"))
        is_shown(editor, user, "", "after a change")
        editor.change(first, having("One"))
        is_shown(editor, user, "P150", "changed back")
        editor.close(first)
        is_shown(editor, user, "", "after the close")
    editor.open(first, having("One"))
    is_shown(editor, user, "P150", "opened again")
    write(place.folder, {"one/c.proto": having("One")})
    editor.save(first)
    editor.close(first)
    editor.be_quiet()
    is_shown(editor, user, "P150", "saved and closed")
    editor.end()


def hidden_later(place):
    """A document that a new file of the first root hides keeps its own list, and importers see it again once that file is gone."""
    write(place.folder, {"one/a.proto": "", "two/c.proto": having("Disk")})
    editor = rooted(place, "one", "two")
    user, first, second = at(place, "two/user.proto"), at(place, "one/c.proto"), at(place, "two/c.proto")
    editor.open(user, using("c.proto", "Two"))
    editor.open(second, faulty("Two"))
    is_shown(editor, user, "", "the importer of the document")
    write(place.folder, {"one/c.proto": having("One")})
    editor.tell((first, CREATED))
    is_shown(editor, user, "P150", "the importer of the file of the first root")
    is_shown(editor, second, "P120", "the hidden document")
    editor.change(second, faulty("Two", 2))
    is_shown(editor, second, "P120 P120", "the hidden document after a change")
    editor.be_quiet()
    is_shown(editor, user, "P150", "the importer after a change of the hidden document")
    os.remove(first)
    editor.tell((first, DELETED))
    is_shown(editor, user, "", "the importer once the file is gone")
    is_shown(editor, second, "P120 P120", "the document once the file is gone")
    editor.end()


def first_deleted(place):
    """Where the first root's file is deleted, importers see the second root's open document, and its further changes."""
    write(place.folder, {"one/c.proto": having("One"), "two/c.proto": having("Disk")})
    editor = rooted(place, "one", "two")
    user, first, second = at(place, "one/user.proto"), at(place, "one/c.proto"), at(place, "two/c.proto")
    editor.open(user, using("c.proto", "Two"))
    editor.open(second, having("Two"))
    is_shown(editor, user, "P150", "the importer of the first root's file")
    os.remove(first)
    editor.tell((first, DELETED))
    is_shown(editor, user, "", "the importer of the document")
    editor.change(second, having("Disk"))
    is_shown(editor, user, "P150", "the importer after a change")
    editor.change(second, having("Two"))
    is_shown(editor, user, "", "the importer after another change")
    editor.close(second)
    is_shown(editor, user, "P150", "the importer of the second root's file")
    editor.end()


def hidden_by_one_name(place):
    """A document with two names, of which a file of an earlier root has one, is imported by the other, and is shown with its list."""
    write(place.folder, {"zero/c.proto": having("Zero"), "one/in/c.proto": having("Disk")})
    editor = rooted(place, "zero", "one", "one/in")
    long, short, both = at(place, "one/long.proto"), at(place, "one/short.proto"), at(place, "one/in/c.proto")
    editor.open(long, using("in/c.proto", "Open"))
    editor.open(short, using("c.proto", "Open"))
    editor.open(both, faulty("Open"))
    is_shown(editor, both, "P120", "the document")
    is_shown(editor, long, "", "the importer by the longer name")
    is_shown(editor, short, "P150", "the importer by the hidden name")
    os.remove(at(place, "zero/c.proto"))
    editor.tell((at(place, "zero/c.proto"), DELETED))
    is_shown(editor, short, "", "the importer by the shorter name, no longer hidden")
    editor.change(both, faulty("Other", 2))
    is_shown(editor, both, "P120 P120", "the document after a change")
    for path in (long, short):
        is_shown(editor, path, "P150", "after a change, " + os.path.basename(path))
    editor.end()


def imports_of_the_hidden(place):
    """A hidden document finds its imports below the roots, also its own name, which is the earlier file."""
    write(place.folder, {"one/c.proto": having("One"), "two/c.proto": having("Two"), "two/d.proto": having("D")})
    editor, hidden = rooted(place, "one", "two"), at(place, "two/c.proto")
    editor.open(hidden, using("d.proto", "D"))
    is_shown(editor, hidden, "", "an import of the second root")
    editor.change(hidden, using("c.proto", "One"))
    is_shown(editor, hidden, "", "an import of the file that hides it")
    editor.change(hidden, using("c.proto", "Two"))
    is_shown(editor, hidden, "P150", "the type that its own file has on the disk")
    editor.end()


# ---- definitions


def definition_unsaved(place):
    """A definition in an unsaved file below the second root has the URI that the editor wrote when it opened it."""
    write(place.folder, {"one/a.proto": "", "two/a.proto": ""})
    editor, user = rooted(place, "one", "two"), at(place, "one/user.proto")
    name = "x/b c-d.proto"
    odd = {root: uri_of(at(place, "%s/%s" % (root, name))).replace("c-d", "%63%2Dd") for root in ("one", "two")}
    editor.open(user, using(name))
    editor.open(None, having(), uri=odd["two"])
    is_shown(editor, user, "", "the importer")
    check(editor.definition(user, *TYPE), odd["two"], "the document below the second root")
    editor.open(None, having(), uri=odd["one"])
    check(editor.definition(user, *TYPE), odd["one"], "the document below the first root")
    editor.change(None, having("S"), uri=odd["two"])
    editor.close(None, uri=odd["one"])
    editor.change(None, having(), uri=odd["two"])
    check(editor.definition(user, *TYPE), odd["two"], "the document below the second root, after the close of the first")
    write(place.folder, {"two/" + name: having()})
    editor.close(None, uri=odd["two"])
    check(editor.definition(user, *TYPE), uri_of(at(place, "two/" + name)), "the file below the second root")
    editor.end()


def definition_of_the_hidden(place):
    """A definition in a hidden document, asked for in it, has its own URI, and one in the file that hides it that file's."""
    write(place.folder, {"one/c.proto": having("One"), "two/c.proto": having("Two")})
    editor, hidden = rooted(place, "one", "two"), at(place, "two/c.proto")
    uri = uri_of(hidden).replace("c.proto", "%63.proto")
    editor.open(hidden, HEAD + 'import "c.proto";\nmessage U { One o = 1; U u = 2; }\n', uri=uri)
    editor.expect(hidden, [], "the hidden document", uri=uri)
    check(editor.definition(hidden, 2, 13, uri=uri), uri_of(at(place, "one/c.proto")), "the file that hides it")
    check(editor.definition(hidden, 2, 24, uri=uri), uri, "the hidden document itself")
    editor.end()


def definition_after_events(place):
    """The URI of a definition follows what hides a file: documents, and files that come and go."""
    write(place.folder, {"one/a.proto": "", "two/c.proto": having()})
    editor, user = rooted(place, "one", "two"), at(place, "two/user.proto")
    first, second = at(place, "one/c.proto"), at(place, "two/c.proto")
    editor.open(user, using("c.proto"))
    check(editor.definition(user, *TYPE), uri_of(second), "at first")
    write(place.folder, {"one/c.proto": having()})
    editor.tell((first, CREATED))
    until(lambda: editor.definition(user, *TYPE), uri_of(first), "once the first root has the file")
    os.remove(first)
    editor.tell((first, DELETED))
    until(lambda: editor.definition(user, *TYPE), uri_of(second), "once the first root's file is gone")
    editor.open(first, having())
    check(editor.definition(user, *TYPE), uri_of(first), "while the first is open")
    editor.close(first)
    check(editor.definition(user, *TYPE), uri_of(second), "after the close")
    editor.end()


# ---- roots and files that are reached by links


def linked(its):
    """A folder with a file and an importer, and a link to the folder above it."""
    write(its.folder, {"real/r/b.proto": having(), "real/r/user.proto": using("b.proto")})
    os.symlink("real", at(its, "link"))
    return at(its, "real/r"), at(its, "link/r")


def by_root(place, way, root):
    """An editor whose root is named by a word, by `rootUri`, or by a workspace folder."""
    if way == "word":
        return Editor(place.program, *place.workers, "--root", root)
    if way == "rootUri":
        return Editor(place.program, *place.workers, params={"rootUri": uri_of(root)})
    return Editor(place.program, *place.workers, params={"rootUri": None, "workspaceFolders": [{"uri": uri_of(root), "name": "r"}]})


def edits_reach(editor, user, other, what):
    """Checks that edits of the file `other` reach its importer `user`, and that both have their lists. Both are closed at the end."""
    editor.open(user, using("b.proto"))
    is_shown(editor, user, "", what + ": before")
    editor.open(other, faulty("S"))
    is_shown(editor, user, "P150", what + ": after the open")
    is_shown(editor, other, "P120", what + ": the other file")
    editor.change(other, faulty("T", 2))
    is_shown(editor, user, "", what + ": after a change")
    is_shown(editor, other, "P120 P120", what + ": the other file after a change")
    editor.change(other, having("S"))
    is_shown(editor, user, "P150", what + ": after another change")
    editor.close(other)
    is_shown(editor, user, "", what + ": after the close")
    editor.close(user)
    editor.expect(user, [], what + ": the importer after its close")


def roots_by_links(place):
    """Below a root that is reached by a link edits reach importers, whether the editor writes the link's paths or the real ones."""
    real, link = linked(place)
    for way in ("word", "rootUri", "folder"):
        for root in (link, real):
            editor = by_root(place, way, root)
            for user in (link, real):
                for other in (link, real):
                    names = [os.path.relpath(it, place.folder) for it in (root, user, other)]
                    edits_reach(editor, os.path.join(user, "user.proto"), os.path.join(other, "b.proto"),
                                "root by %s %s, importer below %s, file below %s" % (way, *names))
            editor.end()


def roots_in_odd_words(place):
    """Below a root that is written with `..`, with `//` or with a slash at the end edits reach importers."""
    real, link = linked(place)
    for way in ("word", "rootUri", "folder"):
        for root in ("real/../real/r", "real//r", "real/r/", "real/./r", "link/../link//r//"):
            editor = by_root(place, way, at(place, root))
            for folder in (real, link) if "link" in root else (real,):
                edits_reach(editor, os.path.join(folder, "user.proto"), os.path.join(folder, "b.proto"),
                            "root by %s %s, files below %s" % (way, root, os.path.relpath(folder, place.folder)))
            editor.end()


def documents_in_odd_words(place):
    """Documents whose paths are written as the root is, with `..` or `//`, are the files that they lead to."""
    real, _ = linked(place)
    for root in ("real/../real/r", "real//r"):
        written = at(place, root)
        editor = by_root(place, "rootUri", written)
        for user, other in ((written, written), (written, real), (real, written)):
            edits_reach(editor, os.path.join(user, "user.proto"), os.path.join(other, "b.proto"),
                        "importer below %s, file below %s" % tuple(os.path.relpath(it, place.folder) for it in (user, other)))
        editor.end()


def definition_by_links(place):
    """A definition in a file that is not open has its URI below the root as that was written, and in an open one the document's."""
    real, link = linked(place)
    for way in ("word", "rootUri", "folder"):
        for root in (link, real, real + "/"):
            editor = by_root(place, way, root)
            for folder in (link, real):
                user = os.path.join(folder, "user.proto")
                editor.open(user, using("b.proto"))
                what = "root by %s %s, importer below %s" % (way, *(os.path.relpath(it, place.folder) for it in (root, folder)))
                check(editor.definition(user, *TYPE), uri_of(os.path.join(root, "b.proto")), what)
                for other in (link, real):
                    uri = uri_of(os.path.join(other, "b.proto")).replace("b.proto", "%62.proto")
                    editor.open(None, having(), uri=uri)
                    check(editor.definition(user, *TYPE), uri, what + ", in a document")
                    editor.close(None, uri=uri)
                editor.close(user)
            editor.end()


def root_behind_a_link(place):
    """A root that a link reaches is the folder of the link's target, of which another root may be a part."""
    real, link = linked(place)
    os.mkdir(os.path.join(real, "in"))
    write(real, {"in/c.proto": having("C")})
    editor = rooted(place, "link/r", "real/r/in")
    long, short = os.path.join(real, "long.proto"), os.path.join(link, "short.proto")
    editor.open(long, using("in/c.proto", "D"))
    editor.open(short, using("c.proto", "D"))
    for path in (long, short):
        is_shown(editor, path, "P150", "before, " + os.path.basename(path))
    for folder in (real, link):
        editor.open(os.path.join(folder, "in/c.proto"), having("D"))
        for path in (long, short):
            is_shown(editor, path, "", "while it is open below %s, %s" % (folder, os.path.basename(path)))
        editor.close(os.path.join(folder, "in/c.proto"))
        for path in (long, short):
            is_shown(editor, path, "P150", "after the close, " + os.path.basename(path))
    editor.end()


def links_to_files(place):
    """A link to a file below a root is a file of its own: an edit of it does not reach importers of the file that it leads to."""
    write(place.folder, {"r/b.proto": having(), "other/c.proto": having()})
    os.symlink("b.proto", at(place, "r/near.proto"))
    os.symlink("../other/c.proto", at(place, "r/far.proto"))
    editor = rooted(place, "r", "other")
    names = ("b.proto", "near.proto", "c.proto", "far.proto")
    users = {name: at(place, "r/user_of_" + name) for name in names}
    for name, user in users.items():
        editor.open(user, using(name))
        is_shown(editor, user, "", "an importer of " + name)
    for name in names:
        path = at(place, ("other/" if name == "c.proto" else "r/") + name)
        check(editor.definition(users[name], *TYPE), uri_of(path), "the definition in " + name)
        editor.open(path, faulty("S"))
        is_shown(editor, path, "P120", name)
        for other, user in users.items():
            is_shown(editor, user, "P150" if other == name else "", "an importer of %s while %s is changed" % (other, name))
        editor.close(path)
        is_shown(editor, users[name], "", "an importer of %s after its close" % name)
    write(place.folder, {"other/c.proto": having("S")})
    editor.tell((at(place, "other/c.proto"), CHANGED))
    for name in ("c.proto", "far.proto"):
        is_shown(editor, users[name], "P150", "an importer of %s after a change on the disk" % name)
    editor.end()
