#!/usr/bin/env python3
"""The steps in Kate, whose home folder has the settings of docs/EDITORS.md: `xvfb-run dbus-run-session -- kate.py`.

The texts of the diagnostics are those of the list in the tool view "LSP". It shows no lines and columns: those are taken from the
list that the server pushed last, if it has the same texts.
"""
import re

import screen

kate = screen.Program("kate", "b.proto", ["kate", "a.proto", "b.proto"])


def listed():
    """The texts of the diagnostics of a.proto in Kate's list, where the name of a file comes before its texts."""
    tabs = kate.find("page tab list", "Diagnostics")
    of, found = "", []
    for node in kate.nodes(tabs.parent) if tabs else ():
        if node.getRoleName() == "table cell" and node.name.startswith("/"):
            of = node.name
        elif node.getRoleName() == "table cell" and of.endswith("/a.proto"):
            # Kate writes the source and the code before the text of the server.
            found.append(re.sub(r"^\[proto\] \(P\d+\) ", "", node.name))
    return found


def shown():
    texts, pushed = listed(), screen.pushed()
    return pushed if [text for _, _, text in pushed] == texts else [[None, None, text] for text in texts]


def go_to(name):
    kate.press("page tab", name)
    kate.text(name)


def open_both():
    # Kate asks whether it may start the server.
    kate.press("push button", "Yes")
    kate.press("menu item", "Show LSP", shows=False)
    # A file is opened at the server when it is shown.
    go_to("a.proto")


def edit(name, old, new):
    go_to(name)
    kate.replace(name, old, new)


def empty():
    go_to("b.proto")
    kate.empty("b.proto")


def undo():
    while kate.content("b.proto") != screen.on_disk("b.proto"):
        kate.press("push button", "Undo")


def close():
    kate.press("menu item", "Close", shows=False)
    kate.press("push button", "Discard")


def save():
    screen.subprocess.run(["kate", "b.proto"], check=True, stdin=screen.subprocess.DEVNULL)
    edit("b.proto", "Item", "Part")
    kate.press("menu item", "Save", shows=False)
    kate.press("menu item", "Close", shows=False)


screen.make([("open", open_both),
             ("break", lambda: edit("b.proto", "Item", "Itm")),
             ("mend", undo),
             ("empty", empty),
             ("fill", undo),
             ("rename in b", lambda: edit("b.proto", "Item", "Part")),
             ("rename in a", lambda: edit("a.proto", "Item", "Part")),
             ("close b", lambda: (go_to("b.proto"), close())),
             ("save b", save)], shown)
kate.process.terminate()
