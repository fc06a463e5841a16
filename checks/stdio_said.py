"""Rows of `checks/stdio.py`: what an editor is told beside lists and answers, files that are not read, URIs, and links of imports."""
import os

from server_process import check, uri_of, write
from stdio_client import LOG, PULL, SHOW, codes
from stdio_files import CHANGED, MOST_BYTES, NOT_TEXT, TOO_LONG, UNREADABLE, having, rooted, unread, using
from stdio_lists import BAD, GOOD, HEAD, PULLS, at, begun
from stdio_roots import finds, misses, opened, told_of
from stdio_view import TYPE

# The most folders that a missing import names.
MOST_FOLDERS = 8
NO_FILE, INVALID_PARAMS = "untitled:Untitled-%d", -32602


def kinds(editor, method):
    """The numbers of the kinds of the messages to the log, or of those to the user."""
    return sorted({it["params"]["type"] for it in editor.notices if it["method"] == method})


# ---- the log and messages to the user


def log_of_lines(place):
    """Each line of standard error is a message of the log, too, also one that came before `initialized`."""
    os.symlink(UNREADABLE, at(place, "bad.proto"))
    write(place.folder, {"user.proto": using("bad.proto")})
    editor = begun(place)
    misses(place, editor, "user.proto")
    editor.wait_for_lines(1)
    wanted = [line.partition("pq_server: ")[2] for line in editor.lines()]
    editor.wait_for(lambda: set(wanted) <= set(editor.logged()), "the lines of standard error in the log: %r" % wanted)
    check(kinds(editor, LOG), [4], "the kinds of the messages")
    check(editor.logged(SHOW), [], "the messages to the user")
    editor.end((at(place, "bad.proto"),))


def found_is_said_once(place):
    """A found root is said once, by the log, though further files need it and a walk finds it again."""
    write(place.folder, {"proto/p/%d.proto" % n: having("T%d" % n) for n in range(4)})
    write(place.folder, {"proto/user%d.proto" % n: using("p/%d.proto" % n, "T%d" % n) for n in range(4)})
    write(place.folder, {"proto/none.proto": using("none/x.proto")})
    editor = opened(place, ".")
    for n in range(4):
        finds(place, editor, "proto/user%d.proto" % n, "proto/p/%d.proto" % n)
    misses(place, editor, "proto/none.proto")
    editor.be_quiet()
    check(told_of(place, editor, "proto"), 1, "how often the root is said: %r" % editor.logged())
    check(editor.logged(SHOW), [], "the messages to the user")
    editor.leave()


def no_file(place):
    """Documents that are no files are passed over, which the log says once for their scheme; requests about them are invalid."""
    write(place.folder, {"a.proto": BAD})
    editor = begun(place)
    for number in range(3):
        uri = NO_FILE % number
        editor.open(None, BAD, uri=uri)
        editor.change(None, GOOD, uri=uri)
        check(editor.ask(PULL, {"textDocument": {"uri": uri}}).get("code"), INVALID_PARAMS, "a request")
        editor.close(None, uri=uri)
    editor.open(at(place, "a.proto"), BAD)
    editor.expect_codes(at(place, "a.proto"), "P120", "a document that is a file")
    editor.be_quiet()
    check(len([text for text in editor.logged() if "untitled" in text]), 1, "how often the scheme is said: %r" % editor.logged())
    check([editor.lists(None, NO_FILE % number) for number in range(3)], [[], [], []], "their lists")
    editor.leave()


def too_long(place):
    """A text of 2 MiB has one error at its start, and the user is told once, whatever the file is imported by."""
    editor, path, other = begun(place), at(place, "long.proto"), at(place, "other.proto")
    for it in (path, other):
        editor.open(it, having() + " " * 2 * MOST_BYTES)
        editor.wait_for(lambda: codes(editor.shown(it)) == ["none"], "the list of a text that is too long")
        check([unread(editor.shown(it)), unread(editor.pull(it))], [TOO_LONG, TOO_LONG], "what is said of it")
    user = at(place, "user.proto")
    editor.open(user, using("long.proto"))
    editor.expect_codes(user, "P102 P150", "an importer")
    editor.change(path, having())
    editor.expect(path, [], "the text is shorter")
    editor.expect(user, [], "its importer")
    editor.be_quiet()
    check([TOO_LONG in text for text in editor.logged(SHOW)], [True], "the messages to the user: %r" % editor.logged(SHOW))
    editor.leave()


def not_text(place):
    """An imported file that is not UTF-8 is missing, and the user is told once; once it is a text it is there."""
    for name in ("one.proto", "two.proto"):
        with open(at(place, name), "wb") as sink:
            sink.write(HEAD.encode() + b'message T {} // \xff\n')
    write(place.folder, {"user1.proto": using("one.proto"), "user2.proto": using("two.proto")})
    editor = begun(place)
    users = [misses(place, editor, name) for name in ("user1.proto", "user2.proto")]
    editor.be_quiet()
    check([NOT_TEXT in text for text in editor.logged(SHOW)], [True], "the messages to the user: %r" % editor.logged(SHOW))
    write(place.folder, dict.fromkeys(("one.proto", "two.proto"), having()))
    editor.tell((at(place, "one.proto"), CHANGED))
    for user in users:
        editor.expect(user, [], "once it is a text")
    editor.leave()


# ---- what a list says


def folders_of_missing(place):
    """A missing import names the folders in which it was looked for, in the order of the roots; further ones are left out."""
    for count in (1, 3, MOST_FOLDERS, MOST_FOLDERS + 4):
        names = ["root%d" % number for number in range(count)]
        for name in names:
            os.makedirs(at(place, name), exist_ok=True)
        editor, user = rooted(place, *names), at(place, "root0/user.proto")
        editor.open(user, using("none.proto"))
        editor.expect_codes(user, "P102 P150", "an importer")
        for items in (editor.raw_lists(user)[-1]["diagnostics"], editor.raw_pull(user)):
            message = items[0]["message"]
            check(message.startswith('import "none.proto" is not found'), True, "the message %s" % message)
            places = [message.find(at(place, name)) for name in names]
            shown = places[:MOST_FOLDERS]
            check([min(shown) > 0, shown == sorted(shown)], [True, True], "the folders of %s" % message)
            check(at(place, "root%d" % MOST_FOLDERS) in message, False, "a folder too many in %s" % message)
        editor.end()


def hidden_parts(place):
    """Parts of a file that are not read are not shown, neither pushed nor asked for."""
    text = HEAD + "option (a) = { b: 1 };\noption (c) = -1.5;\nmessage N {}\nextend N { int32 a = 5; }\n"
    editor, path = begun(place), at(place, "a.proto")
    editor.open(path, text + BAD[len(HEAD):])
    editor.expect_codes(path, "P120", "beside an error")
    check(codes(editor.pull(path)), ["P120"], "beside an error, asked for")
    editor.change(path, text)
    editor.expect(path, [], "alone")
    check(editor.pull(path), [], "alone, asked for")
    editor.end()


# ---- what is sent


def capabilities(place):
    """The server says that it takes saves, links, lists of all files, and folders that change."""
    editor = begun(place)
    found = editor.first["capabilities"]
    check(bool(found["textDocumentSync"]["save"]), True, "saves: %r" % found["textDocumentSync"])
    check(found["textDocumentSync"]["openClose"], True, "opens and closes")
    check("documentLinkProvider" in found, True, "links: %r" % sorted(found))
    check(found["diagnosticProvider"]["workspaceDiagnostics"], True, "lists of all files")
    check(found["diagnosticProvider"]["interFileDependencies"], True, "lists that depend on other files")
    editor.end()


def plain_uris(place):
    """URIs with a host, with the scheme in capitals and with one slash name files, and lists and definitions have them as they are."""
    write(place.folder, {"b.proto": having("S"), "user.proto": using("b.proto")})
    path = at(place, "b.proto")
    for front in ("file://localhost", "FILE://", "file:", "File://LOCALHOST"):
        editor, uri = begun(place), front + path
        user = at(place, "user.proto")
        editor.open(user, using("b.proto"))
        editor.expect_codes(user, "P150", "before")
        editor.open(None, BAD + "message T {}\n", uri=uri)
        editor.wait_for(lambda: codes(editor.shown(None, uri)) == ["P120"], "the list of %s" % uri)
        editor.expect(user, [], "its importer")
        check(codes(editor.pull(None, uri)), ["P120"], "what is asked for")
        check(editor.definition(user, *TYPE), uri, "the definition in %s" % uri)
        editor.change(None, having(), uri=uri)
        editor.expect(None, [], "after a change", uri=uri)
        check(editor.lists(path), [], "lists of another URI of the file")
        editor.close(None, uri=uri)
        editor.expect_codes(user, "P150", "after the close")
        editor.end()


def roots_by_plain_uris(place):
    """Folders of the editor may have such URIs, too."""
    write(place.folder, {"one/user.proto": using("c.proto"), "two/c.proto": having()})
    for front in ("file://localhost", "FILE://", "file:"):
        folders = [{"uri": front + at(place, name), "name": name} for name in ("one", "two")]
        editor = opened(place, folders=folders)
        finds(place, editor, "one/user.proto", "two/c.proto")
        editor.end()


# ---- imports as links

LINKED = HEAD + 'import "b.proto";\nimport "none.proto";\n/* \U0001f600 */ import public "x/" "c.proto"; import "b.proto";\n'


def span(line, start, end):
    """A range in one line."""
    return {"start": {"line": line, "character": start}, "end": {"line": line, "character": end}}


def links(place):
    """Each import whose file is there is a link from its strings to that file."""
    write(place.folder, {"b.proto": having(), "x/c.proto": having("C")})
    editor, path = begun(place), at(place, "a.proto")
    editor.open(path, LINKED)
    b, c = uri_of(at(place, "b.proto")), uri_of(at(place, "x/c.proto"))
    wanted = [(span(1, 7, 16), b), (span(3, 23, 37), c), (span(3, 46, 55), b)]
    document = {"textDocument": {"uri": uri_of(path)}}
    found = editor.ask("textDocument/documentLink", document)
    check([[it["range"], it["target"]] for it in found], [list(it) for it in wanted], "the links")
    odd = b.replace("b.proto", "%62.proto")
    editor.open(None, having(), uri=odd)
    found = editor.ask("textDocument/documentLink", document)
    check([it["target"] for it in found], [odd, c, odd], "the targets where a file is open")
    check(editor.ask("textDocument/documentLink", {"textDocument": {"uri": uri_of(at(place, "never.proto"))}}) or [], [],
          "the links of a file that is not there")
    editor.leave()


def definition_of_an_import(place):
    """The definition of an import's strings is the start of the file that it imports."""
    write(place.folder, {"b.proto": having(), "x/c.proto": having("C")})
    editor, path = begun(place), at(place, "a.proto")
    editor.open(path, LINKED)
    for line, character, name in ((1, 7, "b.proto"), (1, 12, "b.proto"), (1, 16, "b.proto"), (3, 23, "x/c.proto"), (3, 30, "x/c.proto"),
                                  (3, 50, "b.proto"), (1, 3, None), (2, 10, None)):
        position = {"line": line, "character": character}
        found = editor.ask("textDocument/definition", {"textDocument": {"uri": uri_of(path)}, "position": position})
        wanted = name and {"uri": uri_of(at(place, name)), "range": span(0, 0, 0)}
        check(found, wanted, "the definition of what is at %s" % position)
    editor.leave()


def links_for_pullers(place):
    """A client that asks for lists gets the links of a file that it has just opened, though its imports were not read before."""
    write(place.folder, {"b.proto": having(), "proto/p/c.proto": having("C")})
    editor, path = begun(place, capabilities=PULLS), at(place, "a.proto")
    editor.open(path, HEAD + 'import "b.proto";\nimport "p/c.proto";\n')
    found = editor.ask("textDocument/documentLink", {"textDocument": {"uri": uri_of(path)}})
    wanted = [uri_of(at(place, name)) for name in ("b.proto", "proto/p/c.proto")]
    check([it["target"] for it in found], wanted, "the targets")
    editor.leave()
