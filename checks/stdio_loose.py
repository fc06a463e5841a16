"""Rows of `checks/stdio.py`: files of another version and files with an error, which have the definitions that their braces show."""
import os
import subprocess
import sys

from server_process import LONGEST, Failed, check, uri_of, write
from stdio_client import severities
from stdio_files import using
from stdio_lists import HEAD, at, begun

CASES = os.path.join(os.path.dirname(os.path.realpath(__file__)), "cases.py")
TWO = 'syntax = "proto2";\nmessage Two {\n  optional group Part = 1 {}\n  enum Kind { ONE = 1; }\n}\n'
# What is typed into a message, and between two statements of a file, each on lines of its own.
FIELD = '  repeated int32 count = 4 [packed = true, json_name = "c"]; //'
MESSAGE = "message New {\n  Used used = 1;\n  message Inner {}\n  enum Kind { ANY = 0; }\n  optional Kind k = 2;\n}"


def names(symbols):
    """The names of an outline, each with those of its children."""
    return [[it["name"], names(it["children"])] for it in symbols]


def other_versions(place):
    """A file of another version has one information, an outline and definitions, and a mistyped name of its types is an error."""
    write(place.folder, {"two.proto": TWO})
    editor, user, two = begun(place), at(place, "user.proto"), at(place, "two.proto")
    editor.open(user, using("two.proto", "Two.Part"))
    check(editor.pull(user), [], "the importer of a file on the disk")
    editor.open(two, TWO)
    editor.wait_for(lambda: severities(editor.shown(two)) == [("P023", 3)], "the list of the file of another version")
    check(severities(editor.pull(two)), [("P023", 3)], "the same, asked for")
    outline = editor.ask("textDocument/documentSymbol", {"textDocument": {"uri": uri_of(two)}})
    check(names(outline), [["Two", [["Part", []], ["Kind", []]]]], "its outline")
    position = {"line": 2, "character": 15}
    found = editor.ask("textDocument/definition", {"textDocument": {"uri": uri_of(user)}, "position": position})
    check((found["uri"], found["range"]["start"]), (uri_of(two), {"line": 2, "character": 17}), "where the type is defined")
    editor.change(user, using("two.proto", "Two.Pert"))
    editor.wait_for(lambda: severities(editor.shown(user)) == [("P150", 1)], "a mistyped name")
    editor.change(two, TWO.replace("Part", "Pert"))
    editor.expect(user, [], "once the file of another version has that name")
    editor.end()


def typed_letters(place):
    """While a field or a message is typed, letter by letter, the list of an importer that does not use it stays as it is."""
    editor, user, typed = begun(place), at(place, "user.proto"), at(place, "typed.proto")
    pieces = [HEAD + "message Used {\n", "\n  message Inner {}\n  oneof o { Used u = 1; }\n}\n", "\nmessage Last {}\n"]
    states = [pieces[0] + FIELD[:n] + pieces[1] + pieces[2] for n in range(len(FIELD) + 1)]
    states += [pieces[0] + FIELD + pieces[1] + MESSAGE[:n] + pieces[2] for n in range(len(MESSAGE) + 1)]
    editor.open(typed, states[0])
    editor.open(user, HEAD + 'import "typed.proto";\nmessage User { Used a = 1; Used.Inner b = 2; Last c = 3; int32 d = 0; }\n')
    editor.wait_for(lambda: severities(editor.shown(user)) == [("P120", 1)], "the list of the importer")
    wanted, faulty = editor.shown(user), 0
    for text in states:
        editor.change(typed, text)
        check(editor.pull(user), wanted, "the list of the importer, asked for beside %s" % text)
        faulty += editor.pull(typed) != []
    check(faulty > len(states) / 2, True, "most texts have an error")
    editor.be_quiet()
    check(len(editor.lists(user)), 1, "how many lists of the importer came")
    check(editor.shown(typed), [], "the list of the last text")
    editor.end()


def lines_of_one_name(place):
    """A text of 110 kB in which each line could go on with the name of the line before is read in time linear in it."""
    editor, chain = begun(place), at(place, "chain.proto")
    editor.open(chain, 'syntax = "proto2";\n' + " extend.a.\n" * 10000)
    check(editor.ask("textDocument/documentSymbol", {"textDocument": {"uri": uri_of(chain)}}), [], "its outline")
    editor.end()


def loose_rows(place):
    """The rows of cases/loose hold by `script --loose`, and over a connection by `listen --loose`."""
    for option in ("--run", "--listen"):
        words = [sys.executable, CASES, "--loose", option, place.program]
        done = subprocess.run(words, stdin=subprocess.DEVNULL, capture_output=True, timeout=LONGEST)
        if done.returncode != 0:
            raise Failed((done.stdout + done.stderr).decode(errors="replace"))
