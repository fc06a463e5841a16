"""A program on a display, seen and used by the interface for programs that read screens (AT-SPI), as drivers of this folder do.

It needs the module `pyatspi` and `xdotool`, and has to run within `xvfb-run` and `dbus-run-session`. The folder PLACE of the
environment has `steps`, and a.proto and b.proto below `work`; the file `shown` gets a line for each step.
"""
import json
import os
import shutil
import subprocess
import sys
import time

import gi
gi.require_version("Atspi", "2.0")
import pyatspi
from gi.repository import Atspi, GLib

PLACE = os.environ["PLACE"]
# Seconds that what is waited for may take, and between two looks.
LONGEST, PAUSE = 15, 0.1


class Failed(Exception):
    """Something does not come to the screen."""


def printed_by(*command):
    return subprocess.run(command, capture_output=True, text=True, check=False).stdout


class Program:
    """A program that was started, by its name on the bus and a part of the title of its window."""

    def __init__(self, name, title, command):
        self.name = name
        self.process = subprocess.Popen(command, stdin=subprocess.DEVNULL)
        # The bus begins with the first look: a program of Qt 5 that begins after it is often not on it.
        waited(lambda: printed_by("xdotool", "search", "--onlyvisible", "--name", title), title)
        # Another process looks first, since one that saw a program come to the bus keeps what it saw then.
        look = "import pyatspi; print(*[it.name for it in pyatspi.Registry.getDesktop(0) if it], sep='\\n')"
        waited(lambda: name in printed_by(sys.executable, "-c", look).splitlines(), name)
        # A press that opens a dialog is answered only when that is closed.
        Atspi.set_timeout(1000, 10000)

    def nodes(self, at=None):
        """The parts of the program, or those below one of them."""
        if at is None:
            for program in pyatspi.Registry.getDesktop(0):
                if program and program.name == self.name:
                    yield from self.nodes(program)
            return
        yield at
        for number in range(at.childCount):
            try:
                node = at.getChildAtIndex(number)
                if node:
                    yield from self.nodes(node)
            except (GLib.GError, LookupError, NotImplementedError):
                continue

    def find(self, role, name, shows=True, at=None):
        """The first part with a role and a name."""
        for node in self.nodes(at):
            try:
                of = node.name.replace("&", "")
                if node.getRoleName() == role and of == name and (not shows or self.is_shown(node)):
                    return node
            except (GLib.GError, LookupError, NotImplementedError):
                continue
        return None

    def is_shown(self, node):
        return node.getState().contains(pyatspi.STATE_SHOWING)

    def wait(self, role, name, shows=True):
        """Waits until there is such a part."""
        return waited(lambda: self.find(role, name, shows), "%s %r" % (role, name))

    def press(self, role, name, shows=True):
        try:
            self.wait(role, name, shows).queryAction().doAction(0)
        except GLib.GError:
            # The answer comes when the dialog that was opened is closed.
            pass

    def text(self, name):
        """The part that shows the text of a file."""
        return self.wait("text", name)

    def content(self, name):
        return self.text(name).queryText().getText(0, -1)

    def select(self, name, before, text):
        """Selects a text in a file, which comes after the text `before`."""
        node = self.text(name)
        node.queryComponent().grabFocus()
        # Programs of Qt count code units of UTF-16.
        start, end = [len(it.encode("utf-16-le")) // 2 for it in (before, before + text)]
        node.queryText().setCaretOffset(start)
        node.queryText().addSelection(start, end)

    def empty(self, name):
        self.select(name, "", self.content(name))
        # Without a window manager no window is active, and Kate takes no key of an action.
        self.press("menu item", "Cut", shows=False)
        waited(lambda: self.content(name) == "", "no text in %s" % name)

    def replace(self, name, old, new):
        """Replaces a text in a file, at each of its places: selects it, and types the other."""
        while old in self.content(name):
            before = self.content(name).partition(old)[0]
            self.select(name, before, old)
            subprocess.run(["xdotool", "type", new], check=True)
            waited(lambda: self.content(name).startswith(before + new), "%r in %s" % (new, name))


def keys(*names):
    subprocess.run(["xdotool", "key", *names], check=True)


def on_disk(name):
    with open(name, encoding="utf-8") as source:
        return source.read()


def waited(look, what):
    """Looks until something is found, and returns it."""
    end = time.monotonic() + LONGEST
    while time.monotonic() < end:
        try:
            if found := look():
                return found
        except (GLib.GError, LookupError, NotImplementedError):
            pass
        time.sleep(PAUSE)
    raise Failed("%s did not come" % what)


def pushed():
    """The last list of a.proto that the server pushed: lines and columns from 0, and texts."""
    found, path = [], os.path.join(PLACE, "passed")
    if not os.path.exists(path):
        return found
    with open(path, encoding="utf-8") as source:
        for message in (json.loads(line)["message"] for line in source if line.endswith("}\n")):
            if message.get("method") == "textDocument/publishDiagnostics" and message["params"]["uri"].endswith("/a.proto"):
                found = [[it["range"]["start"]["line"], it["range"]["start"]["character"], it["message"]]
                         for it in message["params"]["diagnostics"]]
    return found


def make(steps, shown):
    """Makes the steps, pairs of a name and a function, and writes what `shown` returns after each.

    A picture of the display is kept too, if the program `import` (ImageMagick) is here.
    """
    with open(os.path.join(PLACE, "steps"), encoding="utf-8") as source:
        wanted = json.load(source)
    with open(os.path.join(PLACE, "shown"), "a", encoding="utf-8", buffering=1) as sink:
        for name, act in steps:
            try:
                act()
                waited(lambda: shown() == wanted[name], "the right list")
            except Failed as why:
                print("%s: %s" % (name, why), flush=True)
            sink.write(json.dumps([name, shown()]) + "\n")
            if shutil.which("import"):
                subprocess.run(["import", "-window", "root", os.path.join(PLACE, name.replace(" ", "-") + ".png")], check=False)
