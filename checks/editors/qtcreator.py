#!/usr/bin/env python3
"""The steps in Qt Creator, whose home folder has the settings of docs/EDITORS.md: `xvfb-run dbus-run-session -- qtcreator.py`.

Qt Creator draws diagnostics in the text, and has no list of them that can be read. So what is compared is the list that the server
pushed last. The pictures that are kept show a.proto after each step.
"""
import subprocess

import screen


class QtCreator(screen.Program):
    def text(self, name):
        """The part that shows the text of a file. The list above it has the name, with a star if it is changed."""
        screen.waited(lambda: self.find("combo box", name) or self.find("combo box", name + "*"), name)
        return screen.waited(lambda: next(filter(None, map(self.as_text, self.nodes())), None), "the text of %s" % name)

    def as_text(self, node):
        is_text = node.getRoleName() == "text" and node.getState().contains(screen.pyatspi.STATE_MULTI_LINE)
        return node if is_text and self.is_shown(node) else None


def go_to(name):
    # A second start hands the file to the first one.
    subprocess.run(["qtcreator", "-client", name], check=True, stdin=subprocess.DEVNULL)
    creator.text(name).queryComponent().grabFocus()


def edit(name, old, new):
    go_to(name)
    creator.replace(name, old, new)


def empty():
    go_to("b.proto")
    creator.empty("b.proto")


def undo():
    go_to("b.proto")
    while creator.content("b.proto") != screen.on_disk("b.proto"):
        screen.keys("ctrl+z")


def close():
    go_to("b.proto")
    screen.keys("ctrl+w")
    creator.press("push button", "Do Not Save")


def save():
    edit("b.proto", "Item", "Part")
    screen.keys("ctrl+s", "ctrl+w")


def and_look(act):
    return lambda: (act(), go_to("a.proto"))


creator = QtCreator("QtCreator", "b.proto", ["qtcreator", "-noload", "all", "-load", "LanguageClient", "a.proto", "b.proto"])
screen.make([("open", and_look(lambda: None)),
             ("break", and_look(lambda: edit("b.proto", "Item", "Itm"))),
             ("mend", and_look(undo)),
             ("empty", and_look(empty)),
             ("fill", and_look(undo)),
             ("rename in b", and_look(lambda: edit("b.proto", "Item", "Part"))),
             ("rename in a", and_look(lambda: edit("a.proto", "Item", "Part"))),
             ("close b", and_look(close)),
             ("save b", and_look(save))], screen.pushed)
creator.process.terminate()
