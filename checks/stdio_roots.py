"""Rows of `checks/stdio.py`: which roots a session has without a setting, and by the three words that make them exact.

Each row makes a small tree, opens folders of it as an editor does, and opens a file that is on the disk. No list of it may have a
missing import before the list that is right, since no list comes before the file's imports were looked for.
"""
import os
import random
import re
import shutil

from server_process import check, until, uri_of, write
from stdio_client import Editor, codes
from stdio_files import CREATED, DELETED, having, using
from stdio_lists import HEAD, at
from stdio_view import TYPE

TIMESTAMP = "google/protobuf/timestamp.proto"
INCLUDE = os.path.join(os.path.dirname(os.path.dirname(os.path.realpath(__file__))), "include")


def folder_of(path):
    """A folder as `workspaceFolders` has it."""
    return {"uri": uri_of(path), "name": os.path.basename(path)}


def opened(place, *names, words=(), program=None, folders=None, **more):
    """An editor that has opened folders: those with these names below that of the row, or as `workspaceFolders` has them."""
    folders = folders or [folder_of(os.path.normpath(at(place, name))) for name in names]
    params = {"rootUri": None, "workspaceFolders": folders}
    return Editor(program or place.program, *place.workers, *words, params=params, **more)


def open_file(place, editor, name):
    """Opens a file with the text that it has on the disk. Returns its path."""
    with open(at(place, name), encoding="utf-8") as source:
        editor.open(at(place, name), source.read())
    return at(place, name)


def finds(place, editor, name, target=None):
    """Opens a file. Its first list has to be empty, and the definition of its type has to lead to the target."""
    path = open_file(place, editor, name)
    editor.wait_for(lambda: editor.lists(path), "a list of " + name)
    check([codes(it["diagnostics"]) for it in editor.lists(path)], [[]], "the lists of " + name)
    if target is not None:
        check(editor.definition(path, *TYPE), uri_of(at(place, target)), "the definition of the type of " + name)
    return path


def misses(place, editor, name, wanted="P102 P150"):
    """Opens a file, whose first list has to have these codes. Returns its path."""
    path = open_file(place, editor, name)
    editor.wait_for(lambda: editor.lists(path), "a list of " + name)
    check(codes(editor.lists(path)[0]["diagnostics"]), wanted.split(), "the first list of " + name)
    return path


def told_of(place, editor, root):
    """How many messages of the log name the folder itself, and not just something in it."""
    path = re.compile(re.escape(at(place, root)) + r"/?(?![\w./-])")
    return sum(bool(path.search(text)) for text in editor.logged())


# ---- layouts


def from_the_top(place):
    """Imports that are written from the folder that the editor has opened are found."""
    write(place.folder, {"a/b/c.proto": having(), "a/user.proto": using("a/b/c.proto")})
    editor = opened(place, ".")
    finds(place, editor, "a/user.proto", "a/b/c.proto")
    editor.end()


def below_proto(place):
    """Imports that are written from `proto/` are found, and the log names that folder once."""
    write(place.folder, {"proto/p/b.proto": using("p/c.proto", "C").replace("User", "T"), "proto/p/c.proto": having("C"),
                         "proto/p/user.proto": using("p/b.proto"), "proto/p/other.proto": using("p/c.proto", "C")})
    editor = opened(place, ".")
    finds(place, editor, "proto/p/user.proto", "proto/p/b.proto")
    finds(place, editor, "proto/p/other.proto", "proto/p/c.proto")
    editor.be_quiet()
    check(told_of(place, editor, "proto"), 1, "how often the log names the root: %r" % editor.logged())
    editor.leave()


def two_found(place):
    """Two roots of one tree are found, also where one is named as the other's folders are."""
    write(place.folder, {"api/v1/a.proto": HEAD + 'import "v1/b.proto";\nmessage User { T t = 1; E e = 2; }\nimport "ext/c.proto";\n',
                         "api/v1/b.proto": having(), "third_party/ext/c.proto": having("E")})
    editor = opened(place, ".")
    path = finds(place, editor, "api/v1/a.proto", "api/v1/b.proto")
    check(editor.definition(path, 2, 24), uri_of(at(place, "third_party/ext/c.proto")), "the definition in the second root")
    editor.be_quiet()
    check([told_of(place, editor, name) for name in ("api", "third_party")], [1, 1], "the roots of the log: %r" % editor.logged())
    editor.leave()


def found_above(place):
    """A root above the folder that the editor has opened is found."""
    write(place.folder, {"proto/p/q/user.proto": using("p/q/b.proto"), "proto/p/q/b.proto": having()})
    for name in ("proto/p/q", "proto/p"):
        editor = opened(place, name)
        finds(place, editor, "proto/p/q/user.proto", "proto/p/q/b.proto")
        editor.leave()


def by_buf_yaml(place):
    """The folders of the modules of a `buf.yaml` are roots, before the folder that has it, and nothing is walked for them."""
    write(place.folder, {"buf.yaml": "version: v2\nmodules:\n  - path: proto\n    name: a/b/c\n  - path: vendor/p\n",
                         "b.proto": having("Top"), "proto/b.proto": having(), "vendor/p/c.proto": having("C"),
                         "proto/user.proto": using("b.proto"), "proto/other.proto": using("c.proto", "C")})
    editor = opened(place, ".")
    finds(place, editor, "proto/user.proto", "proto/b.proto")
    finds(place, editor, "proto/other.proto", "vendor/p/c.proto")
    editor.be_quiet()
    check(editor.logged(), [], "the log")
    editor.end()


def by_buf_work(place):
    """The folders of a `buf.work.yaml` are roots, before the folder that has it."""
    write(place.folder, {"buf.work.yaml": "version: v1\ndirectories:\n  - proto\n  - vendor\n", "b.proto": having("Top"),
                         "vendor/b.proto": having(), "proto/user.proto": using("b.proto")})
    editor = opened(place, ".")
    finds(place, editor, "proto/user.proto", "vendor/b.proto")
    editor.end()


def nearest_found(place):
    """Of several files with the name that is missing the one nearest to the importer is taken, and of equals that of the least path."""
    trees = {"%s/proto/c/t.proto" % name: having(name.title()) for name in ("one", "two")}
    users = {"two/proto/user.proto": "Two", "one/proto/user.proto": "One", "user.proto": "One", "two/x/y/user.proto": "Two"}
    write(place.folder, dict(trees, **{name: using("c/t.proto", kind) for name, kind in users.items()}))
    for name, kind in users.items():
        editor = opened(place, ".")
        finds(place, editor, name, "%s/proto/c/t.proto" % kind.lower())
        editor.leave()


def single_file(place):
    """Where the editor has opened no folder the folder of a file is a root, and others are found below it."""
    write(place.folder, {"x/user.proto": using("b.proto"), "x/b.proto": having(), "x/far.proto": using("z/d.proto"),
                         "x/deep/z/d.proto": having(), "x/up.proto": using("x/b.proto")})
    for params in ({}, {"rootUri": None, "workspaceFolders": None}, {"rootUri": None, "workspaceFolders": []}):
        editor = Editor(place.program, *place.workers, params=params)
        finds(place, editor, "x/user.proto", "x/b.proto")
        finds(place, editor, "x/far.proto", "x/deep/z/d.proto")
        finds(place, editor, "x/up.proto", "x/b.proto")
        editor.leave()


def beside_the_folders(place):
    """A file outside the folders that the editor has opened has its own folder for a root, after them."""
    write(place.folder, {"one/b.proto": having("One"), "other/b.proto": having("Other"), "other/c.proto": having("C"),
                         "other/user.proto": using("b.proto", "One"), "other/next.proto": using("c.proto", "C")})
    editor = opened(place, "one")
    finds(place, editor, "other/user.proto", "one/b.proto")
    finds(place, editor, "other/next.proto", "other/c.proto")
    editor.leave()


# ---- the folders of the editor, and the words


def uri_after_folders(place):
    """`rootUri` counts where there are no workspace folders alone."""
    write(place.folder, {"one/user.proto": using("c.proto"), "two/c.proto": having()})
    root = uri_of(at(place, "two"))
    for folders in ({"workspaceFolders": [folder_of(at(place, "one"))]}, {}, {"workspaceFolders": None}):
        editor = Editor(place.program, *place.workers, params=dict(folders, rootUri=root))
        if folders.get("workspaceFolders"):
            misses(place, editor, "one/user.proto")
        else:
            finds(place, editor, "one/user.proto", "two/c.proto")
        editor.leave()


def folders_that_change(place):
    """A folder that the editor opens, or closes, while the session runs is a root, or no longer one."""
    write(place.folder, {"one/user.proto": using("c.proto"), "two/c.proto": having(), "three/c.proto": having("S")})
    editor = opened(place, "one")
    supported = editor.first["capabilities"]["workspace"]["workspaceFolders"]
    check([supported["supported"], bool(supported["changeNotifications"])], [True, True], "the capability")
    user = misses(place, editor, "one/user.proto")

    def change(added, removed):
        event = {name: [folder_of(at(place, it)) for it in its] for name, its in (("added", added), ("removed", removed))}
        editor.say("workspace/didChangeWorkspaceFolders", {"event": event})

    change(["two"], [])
    editor.expect(user, [], "a folder that has the file is added")
    check(editor.definition(user, *TYPE), uri_of(at(place, "two/c.proto")), "the definition")
    change(["three"], ["two"])
    editor.expect_codes(user, "P150", "that folder is removed, and another one is added")
    change([], ["three"])
    editor.expect_codes(user, "P102 P150", "that one is removed, too")
    change(["two"], [])
    editor.expect(user, [], "the first one is added again")
    editor.leave()


def buf_of_an_added_folder(place):
    """The folders of the buf file of an added folder are roots with it, and no longer once it is removed."""
    write(place.folder, {"one/user.proto": using("c.proto"), "two/buf.yaml": "version: v2\nmodules:\n  - path: proto\n",
                         "two/proto/c.proto": having(), "two/c.proto": having("S")})
    editor, user = opened(place, "one"), at(place, "one/user.proto")
    misses(place, editor, "one/user.proto")
    for added, removed, wanted in (("two", "none", ""), ("none", "two", "P102 P150"), ("two", "none", "")):
        event = {"added": [folder_of(at(place, added))], "removed": [folder_of(at(place, removed))]}
        editor.say("workspace/didChangeWorkspaceFolders", {"event": event})
        editor.expect_codes(user, wanted, "%s is added, %s is removed" % (added, removed))
    editor.leave()


def names_with_blanks(place):
    """Folders and files whose names have blanks, percent signs and letters that are not ASCII are found."""
    root, name = "a b%20c/\u00e9 d", "e f/100%.proto"
    write(place.folder, {"%s/%s" % (root, name): having(), root + "/user 1.proto": using(name)})
    editor = opened(place, ".")
    finds(place, editor, root + "/user 1.proto", "%s/%s" % (root, name))
    editor.leave()


def found_by_links(place):
    """A root is found below a folder that a link reaches, whether the editor writes the link's path or the real one."""
    write(place.folder, {"real/proto/p/b.proto": having(), "real/proto/p/user.proto": using("p/b.proto")})
    os.symlink("real", at(place, "link"))
    for folder in ("real", "link"):
        for name in ("real", "link"):
            editor = opened(place, folder)
            path = finds(place, editor, name + "/proto/p/user.proto")
            found = editor.definition(path, *TYPE)
            check(found in [uri_of(at(place, it + "/proto/p/b.proto")) for it in (folder, "real")], True, "the definition %s" % found)
            editor.leave()


def words_before_folders(place):
    """Each `--root` goes before the folders of the editor, which are roots, too."""
    write(place.folder, {"one/user.proto": using("c.proto", "Two"), "one/c.proto": having("One"), "two/c.proto": having("Two"),
                         "one/own.proto": using("d.proto", "D"), "one/d.proto": having("D")})
    editor = opened(place, "one", words=("--root", at(place, "two")))
    finds(place, editor, "one/user.proto", "two/c.proto")
    finds(place, editor, "one/own.proto", "one/d.proto")
    editor.end()


def only_roots(place):
    """With `--only-roots` neither the editor's folders nor found ones nor those of files nor those of buf files are roots."""
    write(place.folder, {"buf.yaml": "version: v2\nmodules:\n  - path: b\n", "b/b.proto": having(), "top.proto": having(),
                         "x/found/f.proto": having(), "x/own.proto": having(), "two/c.proto": having()})
    names = {"b.proto": "user_of_b", "top.proto": "user_of_top", "found/f.proto": "user_of_found", "own.proto": "user_of_own"}
    write(place.folder, {"x/%s.proto" % user: using(name) for name, user in names.items()})
    write(place.folder, {"x/user.proto": using("c.proto")})
    for roots in ((), ("--root", at(place, "two"))):
        editor = opened(place, ".", words=("--only-roots", *roots))
        for user in names.values():
            misses(place, editor, "x/%s.proto" % user)
        if roots:
            finds(place, editor, "x/user.proto", "two/c.proto")
        else:
            misses(place, editor, "x/user.proto")
        editor.end()
    editor = opened(place, ".")
    for user in names.values():
        finds(place, editor, "x/%s.proto" % user)
    editor.leave()


# ---- the last root


def installed(place, include):
    """A copy of the program in the folder `bin` of the row, with the files of `include/` below a folder."""
    os.makedirs(at(place, "bin"), exist_ok=True)
    program = at(place, "bin/pq_server")
    if not os.path.exists(program):
        shutil.copy(place.program, program)
    shutil.copytree(INCLUDE, at(place, include))
    return program


def last_root(place):
    """`google/protobuf/timestamp.proto` is found beside the program, and a definition leads to the file there."""
    program = installed(place, "include")
    write(place.folder, {"r/user.proto": using(TIMESTAMP, "google.protobuf.Timestamp"),
                         "r/options.proto": using("google/protobuf/descriptor.proto", "google.protobuf.FileOptions")})
    editor = opened(place, "r", program=program)
    finds(place, editor, "r/user.proto", "include/" + TIMESTAMP)
    finds(place, editor, "r/options.proto", "include/google/protobuf/descriptor.proto")
    editor.be_quiet()
    check(editor.logged(), [], "the log")
    editor.end()
    for words in (("--no-include",), ("--no-include", "--root", at(place, "r"))):
        editor = opened(place, "r", program=program, words=words)
        misses(place, editor, "r/user.proto")
        editor.leave()
    editor = opened(place, "r", program=program, words=("--only-roots",))
    finds(place, editor, "r/user.proto", "include/" + TIMESTAMP)
    editor.end()


def own_copy_first(place):
    """A root's own copy of `google/protobuf/timestamp.proto` goes before the last root's."""
    program = installed(place, "include")
    text = HEAD + "package google.protobuf;\nmessage Timestamp {}\nmessage Own {}\n"
    write(place.folder, {"r/user.proto": using(TIMESTAMP, "google.protobuf.Own"), "r/" + TIMESTAMP: text})
    editor = opened(place, "r", program=program)
    finds(place, editor, "r/user.proto", "r/" + TIMESTAMP)
    editor.end()


def root_of_protoc(place):
    """The last root is that of the first `protoc` on the path where none is beside the program."""
    installed(place, "tools/include")
    program = at(place, "bin/deep/er/pq_server")
    os.makedirs(os.path.dirname(program))
    os.rename(at(place, "bin/pq_server"), program)
    write(place.folder, {"r/user.proto": using(TIMESTAMP, "google.protobuf.Timestamp"), "tools/bin/protoc": "#!/bin/sh\n"})
    os.chmod(at(place, "tools/bin/protoc"), 0o755)
    # A row has a process of its own.
    os.environ["PATH"] = at(place, "none") + os.pathsep + at(place, "tools/bin") + os.pathsep + os.environ["PATH"]
    editor = opened(place, "r", program=program)
    finds(place, editor, "r/user.proto", "tools/include/" + TIMESTAMP)
    editor.end()


# ---- random trees


def common(a, b):
    """The length of the longest folder in which two files lie."""
    return len(os.path.commonprefix([a, b]).rpartition("/")[0])


def target_of(files, folders, importer, name):
    """The definition: the file that a name leads to, or None. All are paths below the folder of the row."""
    own = [] if any(importer.startswith(it + "/") for it in folders) else [os.path.dirname(importer)]
    for root in folders + own:
        if "%s/%s" % (root, name) in files:
            return "%s/%s" % (root, name)
    below = [it for it in files if it.endswith("/" + name) and any(it.startswith(top + "/") for top in folders + own)]
    return min(below, key=lambda it: (-common(it, importer), it)) if below else None


def random_layouts(place):
    """In random trees an import leads to the file of the first root that has it, else to the nearest file that a walk finds."""
    chance = random.Random(place.seed)
    for turn in range(40):
        tree = "t%d" % turn
        files = sorted({"/".join([tree, *chance.choices("abc", k=chance.randrange(1, 5)), chance.choice("xyz") + ".proto"]) for _ in range(25)})
        write(place.folder, dict.fromkeys(files, having()))
        importer = "%s/user.proto" % os.path.dirname(chance.choice(files))
        folders = chance.sample(sorted({os.path.dirname(it) for it in files} | {tree}), chance.choice((0, 1, 1, 2)))
        parts = chance.choice(files).split("/")
        name = "/".join(parts[chance.randrange(1, len(parts)):])
        editor, target, path = opened(place, *folders), target_of(files, folders, importer, name), at(place, importer)
        editor.open(path, using(name))
        found = editor.ask("textDocument/definition", {"textDocument": {"uri": uri_of(path)}, "position": {"line": 1, "character": 8}})
        what = "tree %d of seed %d: the target of %s in %s, with the folders %s" % (turn, place.seed, name, importer, folders)
        check(found and found["uri"], target and uri_of(at(place, target)), what)
        editor.wait_for(lambda: editor.lists(path), what + ", its list")
        check([codes(it["diagnostics"]) for it in editor.lists(path)], [[] if target else ["P102", "P150"]], what + ", its lists")
        editor.leave()


# ---- files that come and go


def appears_at_a_found_root(place):
    """A file that appears at a path that was looked for is found, and one that is deleted is missing, below a found root, too."""
    write(place.folder, {"proto/p/user.proto": using("p/b.proto"), "proto/p/b.proto": having(), "proto/p/late.proto": using("p/l.proto")})
    editor = opened(place, ".")
    user = finds(place, editor, "proto/p/user.proto")
    late = misses(place, editor, "proto/p/late.proto")
    for tells in (False, True):
        write(place.folder, {"proto/p/l.proto": having()})
        os.remove(at(place, "proto/p/b.proto"))
        if tells:
            editor.tell((at(place, "proto/p/l.proto"), CREATED), (at(place, "proto/p/b.proto"), DELETED))
        editor.expect(late, [], "the file has appeared")
        editor.expect_codes(user, "P102 P150", "the file was deleted")
        write(place.folder, {"proto/p/b.proto": having()})
        os.remove(at(place, "proto/p/l.proto"))
        editor.expect(user, [], "the file has come back")
        editor.expect_codes(late, "P102 P150", "the other one was deleted")
    editor.leave()


def found_later(place):
    """An import that is typed later, of a file below no root, is found by a further walk."""
    write(place.folder, {"proto/p/b.proto": having(), "user.proto": using("none.proto"), "other/q/c.proto": having("C")})
    editor = opened(place, ".")
    user = misses(place, editor, "user.proto")
    editor.change(user, using("p/b.proto"))
    editor.expect(user, [], "a file that was there at the first walk")
    write(place.folder, {"new/n/d.proto": having("D")})
    editor.change(user, using("n/d.proto", "D"))
    until(lambda: codes(editor.pull(user)), [], "a file that was not there at the first walk")
    editor.leave()
