"""Rows of `checks/stdio.py`: what real editors wrote, and the lists that they get for it.

checks/transcripts/ has what editors wrote to a server; none of them pulls diagnostics. Their root folder is not there. Those that
checks/editors/run.py recorded end before a document is closed.
"""
import json
import os
import subprocess

from messages import bodies_of, frame
from server_process import LONGEST, check
from stdio_client import LOOSE, PULL, Editor, shown_by_rights, softened

FOLDER = os.path.join(os.path.dirname(os.path.realpath(__file__)), "transcripts")


def written(name):
    """The frames of a transcript before its `shutdown`, the ids of its requests, and the URIs of the documents that it opens."""
    with open(os.path.join(FOLDER, name), "rb") as source:
        bodies = bodies_of(source.read())
    frames, ids, opened = [], [], set()
    for body in bodies:
        message = json.loads(body)
        method = message.get("method")
        if method == "shutdown":
            break
        frames.append(frame(body))
        if method and "id" in message:
            ids.append(message["id"])
        if method == "textDocument/didOpen":
            opened.add(message["params"]["textDocument"]["uri"])
    return frames, ids, sorted(opened)


def with_root(sent, root):
    """The frame of a message. That of `initialize` gets a root folder."""
    body = json.loads(bodies_of(sent)[0])
    return frame(dict(body, params=dict(body["params"], rootUri=root))) if body.get("method") == "initialize" else sent


def by_script(program, frames, uris):
    """What `script --loose` answers at the end of these frames for each of the documents, as `stdio` shows it. Their folder is the
    root, also where the editor has none."""
    frames = [with_root(sent, os.path.dirname(uris[0])) for sent in frames]
    asked = [{"jsonrpc": "2.0", "id": uri, "method": PULL, "params": {"textDocument": {"uri": uri}}} for uri in uris]
    sent = b"".join(frames + [frame(body) for body in asked])
    done = subprocess.run([program, "script", LOOSE], input=sent, capture_output=True, timeout=LONGEST)
    replies = {body.get("id"): body for body in map(json.loads, bodies_of(done.stdout))}
    return {uri: softened(replies[uri]["result"]["items"]) for uri in uris}


def played(place, name):
    """Plays a transcript, and checks the list of each document at its end. Its folder is not there, of which a line may come."""
    frames, ids, uris = written(name)
    editor = Editor(place.program, *place.workers, begins=False)
    # Its own ids come after those of the transcript.
    editor.next = 1000000
    for sent in frames:
        editor.send(sent)
    wanted = by_script(place.program, frames, uris)
    for uri in uris:
        editor.wait_for(lambda: editor.lists(None, uri), "a list of %s" % uri)
    editor.be_quiet()
    check({uri: editor.shown(None, uri) for uri in uris}, wanted, "the lists at the end of %s" % name)
    check([it for it in ids if it not in editor.replies], [], "requests without an answer")
    check([line for line in editor.leave() if "/proj: No such file or directory" not in line], [], "the lines of standard error")


def as_eglot_wrote(place):
    """What eglot 1.9 wrote: at the end each document is shown with the list that `script --loose` gives after the same messages."""
    played(place, "eglot-1.9.in")


def as_neovim_wrote(place):
    """The same of what neovim 0.7.2 wrote, with changes by ranges."""
    played(place, "neovim-0.7.2.in")


def offset(text, position):
    """The place of a position in a text. One past the end of the text, or of its line, is that end."""
    lines = text.split("\n")
    if position["line"] >= len(lines):
        return len(text)
    before = lines[position["line"]].encode("utf-16-le")[:2 * position["character"]].decode("utf-16-le", errors="ignore")
    return sum(len(line) + 1 for line in lines[:position["line"]]) + len(before)


def as_neovim_replaced(place):
    """What neovim 0.7.2 wrote when a whole text was replaced, with ranges past its end, leaves the text that is right of cut ranges."""
    frames, _, uris = written("neovim-0.7.2-replaced.in")
    editor, text = Editor(place.program, *place.workers, begins=False), None
    editor.next = 1000000
    for sent in frames:
        editor.send(sent)
        params = json.loads(bodies_of(sent)[0]).get("params") or {}
        text = params.get("textDocument", {}).get("text", text)
        for change in params.get("contentChanges", ()):
            start, end = (offset(text, change["range"][name]) for name in ("start", "end"))
            text = text[:start] + change["text"] + text[end:]
        version = params.get("textDocument", {}).get("version")
    editor.wait_for(lambda: any(it.get("version") == version for it in editor.lists(None, uris[0])), "the list of version %d" % version)
    right = shown_by_rights(place.program, {"a.proto": text})["a.proto"]
    editor.expect(None, right, "the last list", uri=uris[0])
    for wanted in (right, shown_by_rights(place.program, {"a.proto": text + "\nmessage { }"})["a.proto"]):
        found = editor.ask(PULL, {"textDocument": {"uri": uris[0]}})
        check(found.get("items"), wanted, "the list that is asked for of %r" % text)
        # What is appended shows where the text of the server ends.
        end = {"line": text.count("\n"), "character": len(text.split("\n")[-1])}
        change = {"range": {"start": end, "end": end}, "text": "\nmessage { }"}
        editor.versions[uris[0]] = version
        editor.change(None, change, uri=uris[0])
        text, version = text + change["text"], version + 1
    check([line for line in editor.leave() if "/proj: No such file or directory" not in line], [], "the lines of standard error")


def as_lsp_mode_wrote(place):
    """The same of what lsp-mode 8 wrote, with whole texts."""
    played(place, "lsp-mode-8.in")


def as_ale_wrote(place):
    """The same of what ALE 3.3 wrote."""
    played(place, "ale-3.3.in")


def as_kate_wrote(place):
    """The same of what Kate 22.12 wrote, whose JSON has line feeds and blanks."""
    played(place, "kate-22.12.in")


def as_qt_creator_wrote(place):
    """The same of what Qt Creator 9 wrote, whose ids are texts, and which has no root."""
    played(place, "qtcreator-9.in")
