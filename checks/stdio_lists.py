"""Rows of `checks/stdio.py`: which lists of diagnostics an editor gets, when, and with which severities."""
import json
import os
import threading
import time

from listen_client import Listener
from messages import frame
from server_process import LONGEST, Failed, check, uri_of, write
from stdio_client import (CONTENT_MODIFIED, LOOSE, PULL, PUSH, REQUEST_CANCELLED, Editor, check_versions, codes, scripted, severities,
                          shown_by_rights)

HEAD = 'syntax = "proto3";\n'
GOOD = HEAD + "message M { int32 x = 1; }\n"
BAD = HEAD + "message M { int32 x = 0; }\n"
PULLS = {"textDocument": {"diagnostic": {"dynamicRegistration": False}}}


def at(place, name):
    return os.path.join(place.folder, name)


def begun(place, **more):
    """An editor whose root is the folder of the row."""
    return Editor(place.program, *place.workers, params={"rootUri": uri_of(place.folder)}, **more)


def after_open(place):
    """After an open the diagnostics come by themselves, with the URI and the version of the document."""
    wanted = shown_by_rights(place.program, {"a.proto": BAD})["a.proto"]
    check(codes(wanted), ["P120"], "what script says")
    editor = begun(place)
    editor.open(at(place, "a.proto"), BAD)
    editor.expect(at(place, "a.proto"), wanted, "after the open")
    pushed = editor.lists(at(place, "a.proto"))
    check(sorted(pushed[-1]), ["diagnostics", "uri", "version"], "the members")
    check(pushed[-1]["version"], 1, "the version")
    editor.open(at(place, "b.proto"), GOOD)
    editor.expect(at(place, "b.proto"), [], "a file without an error")
    editor.be_quiet()
    check(len(editor.lists(at(place, "a.proto"))), 1, "how many lists of the first file came")
    editor.end()


def after_change(place):
    """After each change a list comes with the new version, also where it is the one that came before."""
    editor, path = begun(place), at(place, "a.proto")
    texts = (BAD, BAD + "// the same list\n", BAD + "// the same list again\n", HEAD + "\nmessage M { int32 x = 0; }\n", GOOD, GOOD + "\n")
    lines = (1, 1, 1, 2, None, None)
    editor.open(path, texts[0])
    for count, (text, line) in enumerate(zip(texts, lines), 1):
        if count > 1:
            editor.change(path, text)
        editor.wait_for(lambda: len(editor.lists(path)) >= count, "the list of version %d" % count)
        found = editor.lists(path)[-1]
        check(found["version"], count, "the version of a list")
        wanted = [] if line is None else [line]
        check([it["range"]["start"]["line"] for it in found["diagnostics"]], wanted, "the lines of the list of version %d" % count)
    editor.be_quiet()
    check(len(editor.lists(path)), len(texts), "how many lists came")
    editor.end()


def nothing_new(place):
    """A document whose list and version stay gets no list again, whatever becomes of other documents and of the disk."""
    write(place.folder, {"d.proto": HEAD + "message D {}\n"})
    editor, a, b = begun(place), at(place, "a.proto"), at(place, "b.proto")
    editor.open(a, BAD)
    editor.open(b, HEAD + 'import "a.proto";\nimport "d.proto";\nmessage B { M m = 1; int32 x = 0; }\n')
    for path in (a, b):
        editor.expect_codes(path, "P120", "before, " + os.path.basename(path))
    count = len(editor.lists(b))
    for version in range(2, 6):
        editor.change(a, BAD + "\n" * version)
        editor.wait_for(lambda: editor.lists(a)[-1]["version"] == version, "the list of version %d" % version)
    write(place.folder, {"d.proto": HEAD + "message D { int32 x = 1; }\n"})
    editor.tell((at(place, "d.proto"), 2))
    editor.save(b)
    editor.be_quiet()
    check(len(editor.lists(b)), count, "how many lists of the other document came")
    editor.end()


def opened_again(place):
    """A document that is closed, and opened again with the same version and text, gets its list again."""
    write(place.folder, {"a.proto": BAD})
    editor, path = begun(place), at(place, "a.proto")
    for _ in range(3):
        editor.versions.clear()
        editor.open(path, BAD)
        editor.expect_codes(path, "P120", "after the open")
        check(editor.lists(path)[-1]["version"], 1, "its version")
        editor.close(path)
        editor.expect(path, [], "after the close")
    editor.end()


def importer_follows(place):
    """An importer that is open gets its list when the file that it imports is edited, with its own version."""
    editor, a, b = begun(place), at(place, "a.proto"), at(place, "b.proto")
    editor.open(a, HEAD + 'import "b.proto";\nmessage A { B b = 1; }\n')
    editor.expect_codes(a, "P102 P150", "before the import is there")
    editor.change(a, HEAD + '\nimport "b.proto";\nmessage A { B b = 1; }\n')
    editor.open(b, HEAD + "message B {}\n")
    editor.expect(a, [], "once the import is open")
    check(editor.lists(a)[-1]["version"], 2, "the version of the importer")
    editor.change(b, HEAD + "message C {}\n")
    editor.expect_codes(a, "P150", "after the type was renamed")
    editor.change(b, HEAD + "message B {}\n")
    editor.expect(a, [], "after it was renamed back")
    editor.be_quiet()
    check({json.dumps(it["diagnostics"]) for it in editor.lists(b)} <= {"[]"}, True, "the lists of the import are empty")
    editor.end()


def slow_reader(place):
    """An editor that sends many edits and reads nothing meanwhile gets the right lists once it reads again."""
    editor, path = begun(place), at(place, "a.proto")
    editor.open(path, GOOD)
    editor.be_read()
    editor.reads.clear()
    texts = [HEAD + "".join("message M%d { int32 x = 0; }\n" % k for k in range(50 + n % 2)) for n in range(400)]
    work = threading.Thread(target=lambda: [editor.change(path, text) for text in texts], daemon=True)
    work.start()
    work.join(1.0)
    editor.reads.set()
    work.join(LONGEST)
    editor.expect(path, shown_by_rights(place.program, {"a.proto": texts[-1]})["a.proto"], "after the last edit")
    editor.be_quiet()
    check(len(editor.shown(path)), 51, "how many errors the last list has")
    editor.end()


def closed_together(place):
    """Documents that are closed in one go each get the empty list, though edits of others come between."""
    editor, paths = begun(place), [at(place, "%d.proto" % n) for n in range(12)]
    for path in paths:
        editor.open(path, BAD)
    for path in paths:
        editor.expect_codes(path, "P120", "while it is open")
    for path in paths[1:]:
        editor.close(path)
        editor.change(paths[0], BAD + path)
    for path in paths[1:]:
        editor.expect(path, [], "after the closes")
    editor.end()


def closed_while_busy(place):
    """A document that is closed while the server writes a long list gets its empty list, though an edit comes before that is written."""
    editor, paths = begun(place), [at(place, "%d.proto" % n) for n in range(3)]
    for path in paths:
        editor.open(path, BAD)
    for path in paths:
        editor.expect_codes(path, "P120", "while it is open")
    editor.reads.clear()
    # The message that comes next is still read.
    editor.be_read()
    editor.change(paths[0], BAD + 3000 * "message M { int32 x = 0; }\n")
    editor.wait_until_full()
    for step in (lambda: editor.close(paths[1]), lambda: editor.change(paths[2], GOOD)):
        step()
        time.sleep(0.3)
    editor.reads.set()
    editor.expect(paths[1], [], "after the close")
    editor.expect(paths[2], [], "after the change")
    editor.end()


def uri_as_written(place):
    """A list has the URI as the editor wrote it, also where it has other escapes than the server prints."""
    editor, path = begun(place), at(place, "a-b.proto")
    uri = uri_of(path).replace("a-b", "%61%2db")
    editor.open(path, BAD, uri=uri)
    editor.wait_for(lambda: codes(editor.shown(path, uri)) == ["P120"], "the list of %s" % uri)
    editor.change(path, GOOD, uri=uri)
    editor.expect(path, [], "after a change", uri=uri)
    check(editor.lists(path), [], "the lists of another URI of the file")
    editor.end()


def pulls_only(place):
    """A client that says that it pulls gets no list by itself."""
    editor, path = begun(place, capabilities=PULLS), at(place, "a.proto")
    editor.open(path, BAD)
    editor.change(path, BAD + "\n")
    editor.close(path)
    editor.open(path, BAD)
    check(codes(editor.pull(path)), ["P120"], "the diagnostics that it asks for")
    editor.be_quiet()
    check(editor.pushed, [], "what came by itself")
    editor.end()


def pulled_reports(place):
    """A report that was asked for has the items of a list, also in a session that gets lists."""
    files = {"a.proto": BAD, "b.proto": HEAD + 'import "a.proto";\nimport "c.proto";\n', "c.proto": HEAD + "message {"}
    wanted = shown_by_rights(place.program, files)
    for capabilities in ({}, PULLS):
        editor = begun(place, capabilities=capabilities)
        for name, text in files.items():
            editor.open(at(place, name), text)
        for name in files:
            found = editor.ask(PULL, {"textDocument": {"uri": uri_of(at(place, name))}})
            check((found["items"], found["kind"]), (wanted[name], "full"), name)
            check(found["resultId"].isdigit(), True, "the revision of the report")
        editor.end()


def overtaken(place):
    """After many quick edits the last list is the one that is asked for, and each list is right of the version that it names."""
    editor, a, b = begun(place), at(place, "a.proto"), at(place, "b.proto")
    files = {"a.proto": HEAD + 'import "b.proto";\nmessage A { B7 b = 1; }\n', "b.proto": HEAD}
    states = [({"a.proto": files["a.proto"]}, {"a.proto": 1}), (files, {"a.proto": 1, "b.proto": 1})]
    editor.open(a, files["a.proto"])
    editor.open(b, files["b.proto"])
    for n in range(300):
        lines = "".join("message B%d { int32 x = %d; }\n" % (k, k % 2) for k in range(n % 10))
        files = dict(files, **{"b.proto": HEAD + "\n" * (n % 3) + lines})
        editor.change(b, files["b.proto"])
        states.append((files, {"a.proto": 1, "b.proto": n + 2}))
    for path in (a, b):
        editor.expect(path, editor.pull(path), "the last list of %s" % os.path.basename(path))
    editor.be_quiet()
    for path in (a, b):
        check(editor.shown(path), editor.pull(path), "the last list of %s after a while" % os.path.basename(path))
        versions = [it["version"] for it in editor.lists(path)]
        check(versions, sorted(versions), "the versions in their order")
    check_versions(place.program, editor, place.folder, states)
    editor.end()


class Ordered(Editor):
    """An editor that keeps the order in which lists and replies come: the ids of replies, and None for a list."""

    def __init__(self, *words, **more):
        self.order, self.held = [], None
        super().__init__(*words, **more)

    def take(self, body):
        if "id" in body or body["method"] == PUSH:
            self.order.append(body.get("id"))
        super().take(body)

    def begin_to_hold(self):
        """What is sent is held from now on."""
        self.held = []

    def send_held(self):
        """Sends what was held by one write."""
        held, self.held = self.held, None
        self.send(b"".join(held))

    def send(self, data):
        if self.held is None:
            super().send(data)
        else:
            self.held.append(data)


def none_after_shutdown(place):
    """No list comes after the reply to `shutdown`, though those of many importers are still owed."""
    count, hub = 300, at(place, "hub.proto")
    for changes in (1, 3):
        editor = Ordered(place.program, *place.workers, params={"rootUri": uri_of(place.folder)})
        editor.open(hub, HEAD + "message H {}\n")
        paths = [at(place, "%d.proto" % n) for n in range(count)]
        for path in paths:
            editor.open(path, HEAD + 'import "hub.proto";\nmessage M { H h = 1; G g = 2; }\n')
        for path in paths:
            editor.expect_codes(path, "P150", "before")
        # The last change comes with `shutdown`, so that no list of it comes before that is read.
        editor.begin_to_hold()
        for name in "GHG"[:changes]:
            editor.change(hub, HEAD + "\n" + "message %s {}\n" % name)
        label = editor.begin_to_ask("shutdown", None)
        editor.send_held()
        check(editor.reply(label).get("result"), None, "the reply to shutdown")
        editor.rest()
        # What comes with the end of the session comes after the reply, too.
        editor.say("exit", None)
        status, lines = editor.ended()
        check([status, lines], [0, []], "the status and standard error")
        check(editor.order[editor.order.index(label) + 1:].count(None), 0, "the lists after the reply to shutdown")


def weaker_severities(place):
    """Beside an import of a file with a syntax error P150 has the severity 3, P104 is not shown, and other errors are shown as ever."""
    user = HEAD + 'import "bad.proto";\nmessage M { Other o = 1; int32 x = 0; }\n'
    files = {"bad.proto": HEAD + "message {", "user.proto": user, "other.proto": HEAD + "message M { Nowhere n = 1; }\n"}
    editor = begun(place)
    for name, text in files.items():
        editor.open(at(place, name), text)
    for name, wanted in (("user.proto", [("P150", 3), ("P120", 1)]), ("other.proto", [("P150", 1)])):
        editor.wait_for(lambda: severities(editor.shown(at(place, name))) == wanted, "the severities of " + name)
        check(severities(editor.pull(at(place, name))), wanted, "the severities of %s, asked for" % name)
    editor.change(at(place, "bad.proto"), HEAD + "message Other {")
    editor.expect_codes(at(place, "user.proto"), "P120", "once the braces of the import show the type")
    for text in (HEAD, 'syntax = "proto2";\n'):
        editor.change(at(place, "bad.proto"), HEAD + "message {")
        editor.wait_for(lambda: severities(editor.shown(at(place, "user.proto"))) == [("P150", 3), ("P120", 1)], "with the error again")
        editor.change(at(place, "bad.proto"), text)
        editor.wait_for(lambda: severities(editor.shown(at(place, "user.proto"))) == [("P150", 1), ("P120", 1)], "beside %s" % text)
    editor.end()


def severities_elsewhere(place):
    """By `script` and `listen` P104 and P150 have the severity 1, with --loose too. Without it another version is an error."""
    files = {"bad.proto": HEAD + "message {", "two.proto": 'syntax = "proto2";\n',
             "user.proto": HEAD + 'import "bad.proto";\nimport "two.proto";\nmessage M { Other o = 1; }\n'}
    write(place.folder, files)
    for words, user, two in (((), ["P104", "P104", "P150"], ("P010", 1)), ((LOOSE,), ["P104", "P150"], ("P023", 3))):
        lists = scripted(place.program, files, *words)
        check(severities(lists["user.proto"]), [(code, 1) for code in user], "the user by script %s" % " ".join(words))
        check(severities(lists["two.proto"]), [two], "the file of another version by script %s" % " ".join(words))
        server = Listener(place, "--sessions", "1", "--lib", place.folder, *words)
        client = server.begun()
        for name, items in lists.items():
            check(client.pull(name), items, "%s by listen %s" % (name, " ".join(words)))
        client.leave()
        server.end()


def withdrawn(place):
    """A request that is withdrawn is answered once: by its result, or as cancelled."""
    editor, path = begun(place), at(place, "a.proto")
    editor.open(path, HEAD + "".join("message M%d { M%d m = 1; }\n" % (n, n + 1) for n in range(2000)))
    for _ in range(20):
        label = editor.begin_to_ask(PULL, {"textDocument": {"uri": uri_of(path)}})
        editor.say("$/cancelRequest", {"id": label})
        reply = editor.reply(label)
        is_answered = "result" in reply or reply["error"]["code"] in (REQUEST_CANCELLED, CONTENT_MODIFIED)
        check(is_answered, True, "the reply %s" % json.dumps(reply)[:200])
    editor.say("$/cancelRequest", {"id": "never asked"})
    editor.be_quiet()
    if any(it.get("error", {}).get("message") == "answered twice" for it in editor.replies.values()):
        raise Failed("a request was answered twice")
    editor.end()


def watchers(place):
    """A client that can register watchers is asked to, once it has begun; another is not."""
    can = {"workspace": {"didChangeWatchedFiles": {"dynamicRegistration": True}}}
    editor = begun(place, capabilities=can)
    editor.wait_for(lambda: editor.requests, "the registration")
    found = editor.requests[0]
    check((found["method"], found["id"]), ("client/registerCapability", "pq_server:watch"), "the request")
    registered = found["params"]["registrations"]
    check([it["method"] for it in registered], ["workspace/didChangeWatchedFiles"], "what is registered")
    check([it["globPattern"] for it in registered[0]["registerOptions"]["watchers"]], ["**/*.proto"], "what is watched")
    editor.send(frame({"jsonrpc": "2.0", "id": "pq_server:watch", "result": None}))
    editor.open(at(place, "a.proto"), BAD)
    editor.expect_codes(at(place, "a.proto"), "P120", "after the reply of the client")
    editor.be_quiet()
    check(len(editor.requests), 1, "how often it is asked")
    editor.end()
    for other in ({}, {"workspace": {"didChangeWatchedFiles": {"dynamicRegistration": False}}}):
        editor = begun(place, capabilities=other)
        editor.be_quiet()
        check(editor.requests, [], "the requests to a client that cannot")
        editor.end()
