"""Rows of `checks/stdio.py`: when the first lists come, how soon the server answers, what clients that pull are asked to do, and
the diagnostics of all files."""
import os
import time

from server_process import Failed, check, uri_of, write
from stdio_client import ALL, PULL, REFRESH, REQUEST_CANCELLED, Editor, codes, plain, shown_by_rights
from stdio_files import CHANGED, MOST_BYTES, NOT_TEXT, TOO_LONG, having, rooted, unread, using
from stdio_lists import BAD, GOOD, HEAD, PULLS, at, begun
from stdio_roots import folder_of, opened

# The seconds after which the reply to `initialize` has come, and after which a list has come though an import is missing.
GREETED, HELD = 0.1, 10.0
# The seconds after which a session has ended that has to.
SOON = 2.0
# How many files a tree has that is walked, and a tree that no program has made for this row.
FILES, BIG = 3000, "/usr"
CREATE, PROGRESS = "window/workDoneProgress/create", "$/progress"
REFRESHES = dict(PULLS, workspace={"diagnostics": {"refreshSupport": True}})
SHOWS_PROGRESS = {"window": {"workDoneProgress": True}}


def tree(place, count=FILES):
    """Files below `tree`, fifty in a folder."""
    for number in range(0, count, 50):
        os.makedirs(at(place, "tree/d%d" % (number // 50)))
        for own in range(number, number + 50):
            with open(at(place, "tree/d%d/f%d.proto" % (own // 50, own)), "w") as sink:
                sink.write(having("T%d" % own))


# ---- the first lists


def no_early_list(place):
    """The first list of a file whose import a walk has to find has no missing import, pushed or asked for right after the open."""
    tree(place)
    write(place.folder, {"tree/x/y/proto/p/b.proto": using("p/c.proto", "C").replace("User", "T"),
                         "tree/x/y/proto/p/c.proto": having("C")})
    path, text = at(place, "tree/user.proto"), using("p/b.proto")
    for capabilities in ({}, PULLS):
        editor = opened(place, "tree", capabilities=capabilities)
        editor.open(path, text)
        check(editor.pull(path), [], "what is asked for right after the open")
        editor.be_quiet()
        check([codes(it["diagnostics"]) for it in editor.lists(path)], [[]] * (not capabilities), "the lists that came")
        editor.leave()


def missing_for_good(place):
    """An import that nobody has is missing within ten seconds, pushed and asked for."""
    tree(place)
    path = at(place, "tree/user.proto")
    for root in (at(place, "tree"), BIG):
        editor = opened(place, folders=[folder_of(root)])
        start = time.monotonic()
        editor.open(path, using("no/such/b.proto"))
        check(codes(editor.pull(path)), ["P102", "P150"], "what is asked for")
        editor.expect_codes(path, "P102 P150", "what is pushed")
        seconds = time.monotonic() - start
        if seconds > HELD:
            raise Failed("below %s the lists came after %.1f seconds" % (root, seconds))
        editor.leave()


def edited_while_held(place):
    """A list that waits for a walk is that of the newest text, and other documents get theirs."""
    tree(place)
    editor, path, other = opened(place, "tree"), at(place, "tree/user.proto"), at(place, "tree/other.proto")
    editor.open(path, using("no/b.proto"))
    editor.open(other, BAD)
    for number in range(1, 6):
        editor.change(path, using("no/b.proto") + "message N%d { int32 x = 0; }\n" % number)
    editor.expect_codes(other, "P120", "a document without an import")
    editor.wait_for(lambda: [it["version"] for it in editor.lists(path)][-1:] == [6], "the list of the last version")
    editor.expect_codes(path, "P102 P150 P120", "the list of the last version")
    editor.leave()


def ends_while_held(place):
    """While lists wait for a walk a request that waits is answered when it is withdrawn and when the session is shut down, soon."""
    for turn in range(3):
        editor, path = opened(place, folders=[folder_of(BIG)]), at(place, "user.proto")
        editor.open(path, using("no/such/b.proto"))
        labels = [editor.begin_to_ask(PULL, {"textDocument": {"uri": uri_of(path)}}) for _ in range(3)]
        if turn == 1:
            editor.say("$/cancelRequest", {"id": labels[1]})
        if turn == 2:
            editor.change(path, using("no/such/c.proto"))
        start = time.monotonic()
        editor.leave()
        seconds = time.monotonic() - start
        check(sorted(it for it in labels if it in editor.replies), labels, "the requests that were answered")
        if seconds > SOON:
            raise Failed("the session ended after %.1f seconds" % seconds)


def greets_at_once(place):
    """The reply to `initialize` comes within a tenth of a second, whatever is below the folders of the editor."""
    tree(place)
    for folder in (at(place, "tree"), BIG, "/"):
        seconds = []
        # Another program may take the processor from one of the sessions.
        for _ in range(4):
            editor = Editor(place.program, *place.workers, begins=False)
            start = time.monotonic()
            reply = editor.reply(editor.begin_to_ask("initialize", {"capabilities": {}, "workspaceFolders": [folder_of(folder)]}))
            seconds.append(time.monotonic() - start)
            check("result" in reply, True, "the reply")
            editor.say("initialized", {})
            editor.leave()
        if min(seconds) > GREETED:
            raise Failed("with the folder %s it came after %s seconds" % (folder, ["%.2f" % it for it in seconds]))


def progress(place):
    """A client that shows progress is told when a walk begins and ends; another one is not."""
    tree(place)
    path = at(place, "tree/user.proto")
    for capabilities in (SHOWS_PROGRESS, {}):
        editor = opened(place, "tree", capabilities=capabilities)
        editor.open(path, using("no/b.proto"))
        if capabilities:
            editor.wait_for(lambda: editor.asked_by_server(CREATE), "the request to create the progress")
            editor.answer(editor.asked_by_server(CREATE)[0])
        editor.expect_codes(path, "P102 P150", "the list")
        told = lambda: [it["params"]["value"]["kind"] for it in editor.notices if it["method"] == PROGRESS]
        if capabilities:
            editor.wait_for(lambda: told()[-1:] == ["end"], "the end of the progress")
        editor.be_quiet()
        check(told(), ["begin", "end"] * bool(capabilities), "the progress")
        check(len(editor.asked_by_server(CREATE)), bool(capabilities), "how often it is created")
        editor.leave()


# ---- clients that pull


def settled(editor):
    """Answers each refresh until none comes any more. Returns how many there were."""
    answered = 0
    while True:
        editor.be_quiet()
        asked = editor.asked_by_server(REFRESH)
        if len(asked) == answered:
            return answered
        for request in asked[answered:]:
            editor.answer(request)
        answered = len(asked)


def refreshes(place):
    """After edits of an imported open file a client is asked to pull again, once until it answers; after others it is not."""
    write(place.folder, {"c.proto": having("C")})
    editor, a, b = begun(place, capabilities=REFRESHES), at(place, "a.proto"), at(place, "b.proto")
    editor.open(b, having())
    editor.open(a, HEAD + 'import "b.proto";\nimport "c.proto";\nmessage A { T t = 1; C c = 2; }\n')
    check([editor.pull(a), editor.pull(b)], [[], []], "before")
    count = settled(editor)
    for text in (having("S"), having("S") + "\n", having("R")):
        editor.change(b, text)
    editor.be_quiet()
    check(len(editor.asked_by_server(REFRESH)) - count, 1, "how often it is asked after three edits of the imported file")
    check(codes(editor.pull(a)), ["P150"], "the importer")
    count = settled(editor)
    editor.change(a, HEAD + 'import "b.proto";\nimport "c.proto";\nmessage A { R r = 1; C c = 2; int32 x = 0; }\n')
    check([codes(editor.pull(a)), settled(editor) - count], [["P120"], 0], "after an edit of a file that nobody imports")
    write(place.folder, {"c.proto": having("D")})
    editor.tell((at(place, "c.proto"), CHANGED))
    editor.wait_for(lambda: len(editor.asked_by_server(REFRESH)) > count, "a refresh after a change on the disk")
    check(codes(editor.pull(a)), ["P150", "P120"], "the importer after it")
    count = settled(editor)
    os.remove(at(place, "c.proto"))
    editor.wait_for(lambda: len(editor.asked_by_server(REFRESH)) > count, "a refresh after a change of which nothing is said")
    settled(editor)
    check(codes(editor.pull(a)), ["P102", "P150", "P120"], "the importer at the end")
    check(editor.pushed, [], "the lists that came by themselves")
    editor.leave()


def no_refreshes(place):
    """A client that cannot refresh, and one that gets pushed lists, are not asked to."""
    write(place.folder, {"c.proto": having("C")})
    for capabilities in (PULLS, {"workspace": REFRESHES["workspace"]}, dict(PULLS, workspace={"diagnostics": {"refreshSupport": False}})):
        editor, a, b = begun(place, capabilities=capabilities), at(place, "a.proto"), at(place, "b.proto")
        editor.open(b, having())
        editor.open(a, using("b.proto"))
        check(editor.pull(a), [], "before")
        editor.change(b, having("S"))
        check(codes(editor.pull(a)), ["P150"], "the importer")
        editor.be_quiet()
        check(editor.asked_by_server(REFRESH), [], "the refreshes")
        editor.leave()


def refreshed_when_found(place):
    """A client that has pulled is asked again when a missing import is found later, and when a folder is added."""
    write(place.folder, {"one/user.proto": using("p/b.proto"), "two/p/b.proto": having()})
    editor, path = opened(place, "one", capabilities=REFRESHES), at(place, "one/user.proto")
    editor.open(path, using("p/b.proto"))
    check(codes(editor.pull(path)), ["P102", "P150"], "before")
    count = settled(editor)
    event = {"added": [folder_of(at(place, "two"))], "removed": []}
    editor.say("workspace/didChangeWorkspaceFolders", {"event": event})
    editor.wait_for(lambda: len(editor.asked_by_server(REFRESH)) > count, "a refresh after a folder was added")
    settled(editor)
    check(editor.pull(path), [], "after it")
    editor.leave()


# ---- the diagnostics of all files


def all_files(editor, has=()):
    """The reports of all files by their URIs, where the client has the results `has`, pairs of a URI and a resultId."""
    previous = [{"uri": uri, "value": result} for uri, result in has]
    found = editor.ask(ALL, {"previousResultIds": previous})
    if "items" not in found:
        raise Failed("the diagnostics of all files are %r" % found)
    reports = {it["uri"]: it for it in found["items"]}
    check(len(reports), len(found["items"]), "each file has one report")
    check([it["uri"] for it in found["items"] if not it["resultId"]], [], "reports without a result")
    return reports


def results(reports):
    return [(uri, it["resultId"]) for uri, it in reports.items()]


def full(reports):
    """The files of full reports, by their names."""
    return sorted(os.path.basename(uri) for uri, it in reports.items() if it["kind"] == "full")


def reports_of_all(place):
    """The diagnostics of all files below the roots come, each with its list, also of files that no open file reaches."""
    files = {"a.proto": BAD, "x/b.proto": using("x/c.proto", "C"), "x/c.proto": having("C"), "x/y/d.proto": using("none.proto"),
             "e.proto": HEAD + "message {"}
    write(place.folder, dict(files, **{".hidden/f.proto": BAD, "notes.txt": "no", "x/c.proto": having("Old")}))
    wanted = shown_by_rights(place.program, files)
    editor = begun(place, capabilities=PULLS)
    editor.open(at(place, "x/c.proto"), files["x/c.proto"])
    reports = all_files(editor)
    found = {uri: [it["kind"], plain(it["items"]), it["version"]] for uri, it in reports.items()}
    right = {uri_of(at(place, name)): ["full", wanted[name], 1 if name == "x/c.proto" else None] for name in files}
    check(found, right, "the reports")
    check(codes(editor.pull(at(place, "x/c.proto"))), [], "the open file")
    editor.leave()


def unchanged_reports(place):
    """A file whose list the client has is unchanged; after an edit, and a change on the disk, just what has changed is full."""
    write(place.folder, {"a.proto": having(), "b.proto": using("a.proto"), "c.proto": BAD, "d.proto": GOOD})
    editor, a = begun(place, capabilities=PULLS), at(place, "a.proto")
    editor.open(a, having())
    first = all_files(editor)
    check(full(first), ["a.proto", "b.proto", "c.proto", "d.proto"], "the full reports at first")
    second = all_files(editor, results(first))
    check([sorted(second), full(second)], [sorted(first), []], "the full reports of the second time")
    editor.change(a, having("S"))
    third = all_files(editor, results(second))
    check([sorted(third), full(third)], [sorted(first), ["b.proto"]], "the full reports after an edit")
    check(codes(third[uri_of(at(place, "b.proto"))]["items"]), ["P150"], "the list of the importer")
    write(place.folder, {"d.proto": BAD})
    editor.tell((at(place, "d.proto"), CHANGED))
    end = time.monotonic() + HELD
    while full(fourth := all_files(editor, results(third))) != ["d.proto"]:
        if time.monotonic() > end:
            raise Failed("after a change on the disk the full reports are %s" % full(fourth))
    check(full(all_files(editor, [(uri, "0") for uri, _ in results(fourth)])), full(first), "the full reports for results that nobody has")
    editor.leave()


def all_below_roots(place):
    """The files of each root are there, and a file that an earlier root hides is there with a list of its own or not at all."""
    write(place.folder, {"one/a.proto": having("One"), "two/a.proto": BAD, "two/b.proto": using("a.proto", "One"), "out/c.proto": BAD})
    editor = rooted(place, "one", "two", capabilities=PULLS)
    reports = all_files(editor)
    names = {os.path.relpath(uri[len("file://"):], place.folder): codes(it["items"]) for uri, it in reports.items()}
    names.pop("two/a.proto", None)
    check(names, {"one/a.proto": [], "two/b.proto": []}, "the lists of all files")
    editor.leave()


def unread_reports(place):
    """Files that are not read have one error at their start among the diagnostics of all files."""
    write(place.folder, {"a.proto": GOOD, "long.proto": GOOD + " " * MOST_BYTES})
    with open(at(place, "bytes.proto"), "wb") as sink:
        sink.write(b"\xff")
    editor = begun(place, capabilities=PULLS)
    reports = all_files(editor)
    found = [unread(reports[uri_of(at(place, name))]["items"]) for name in ("long.proto", "bytes.proto")]
    check(found, [TOO_LONG, NOT_TEXT], "what is said of them")
    check(reports[uri_of(at(place, "a.proto"))]["items"], [], "a file beside them")
    editor.leave()


def edited_meanwhile(place):
    """Edits while the diagnostics of all files are asked for do not keep them from coming, nor single files from being answered."""
    count = 500
    tree(place, count)
    editor, path = opened(place, "tree", capabilities=PULLS), at(place, "tree/user.proto")
    editor.open(path, using("d0/f0.proto", "T0"))
    label = editor.begin_to_ask(ALL, {"previousResultIds": []})
    for number in range(20):
        editor.change(path, using("d0/f0.proto", "T0") + "\n" * number)
        editor.ask(PULL, {"textDocument": {"uri": uri_of(path)}})
    reply = editor.reply(label)
    check(len(reply["result"]["items"]), count, "how many reports came")
    check(editor.pull(path), [], "the open file")
    editor.leave()


def several_at_once(place):
    """The diagnostics of all files, asked for several times at once, come each time; a request that is withdrawn is answered once."""
    tree(place, 200)
    editor = opened(place, "tree", capabilities=PULLS)
    labels = [editor.begin_to_ask(ALL, {"previousResultIds": []}) for _ in range(4)]
    editor.say("$/cancelRequest", {"id": labels[1]})
    for label in labels:
        reply = editor.reply(label)
        is_whole = len(reply.get("result", {}).get("items", [])) == 200
        is_withdrawn = label == labels[1] and reply.get("error", {}).get("code") == REQUEST_CANCELLED
        check(is_whole or is_withdrawn, True, "the reply of %s: %s" % (label, str(reply)[:200]))
    editor.be_quiet()
    check([it for it in editor.replies.values() if it.get("error", {}).get("message") == "answered twice"], [], "replies that came twice")
    editor.leave()


def ends_while_all_are_asked(place):
    """A session ends soon after `shutdown` and `exit` though the diagnostics of all files are under way."""
    tree(place)
    for pause in (0, 0.3, 1.0):
        editor = opened(place, "tree", capabilities=PULLS)
        editor.begin_to_ask(ALL, {"previousResultIds": []})
        time.sleep(pause)
        start = time.monotonic()
        editor.leave()
        seconds = time.monotonic() - start
        if seconds > SOON:
            raise Failed("the session ended after %.1f seconds" % seconds)
