"""Rows of `checks/stdio.py`: random edits, in a session that gets lists and in one that asks for them."""
import json
import os
import random

from server_process import Failed, check, write
from stdio_client import check_versions, shown_by_rights
from stdio_files import CHANGED, CREATED, DELETED, rooted
from stdio_lists import PULLS, at, begun

NAMES = ["a.proto", "b.proto", "c.proto", "x/d.proto", "x/e.proto", "x/y/f.proto"]
# The folder of some of them, which is a root too in the second row.
NESTED = "x/"
# What is typed and pasted.
PIECES = ("", "", "A", "x", "1", "\n", " ", "int32 y = 7;", "message A {}\n", 'import "b.proto";', "\U0001f600")
# After so many steps the lists are compared.
BETWEEN = 10


def text_of(chance, names):
    """A random text that imports some of `names`. Some have syntax errors, another version, bad numbers, missing types or a ring of
    imports."""
    lines = ['syntax = "proto3";' if chance.random() < 0.9 else chance.choice(('syntax = "proto2";', 'edition = "2023";', ""))]
    lines += ['import "%s";' % name for name in chance.sample(names, chance.choice((0, 1, 1, 2)))]
    for _ in range(chance.randrange(4)):
        fields = " ".join("%s f%d = %d;" % (chance.choice(("int32", "A", "B", "C")), n, chance.choice((n, n, n, 0, 19000)))
                          for n in range(1, chance.randrange(1, 5)))
        lines.append("message %s { %s }" % (chance.choice("ABC"), fields))
    if chance.random() < 0.15:
        lines.append(chance.choice(("message {", "message A", "message B {", "}", '"', "enum E {}", "\u00e9 \U0001f600")))
    return "\n".join(lines) + "\n"


class Model:
    """The folder and the documents, beside two editors that are told of each step."""

    def __init__(self, place, pushed, pulled, is_nested):
        self.place, self.chance, self.is_nested = place, random.Random(place.seed), is_nested
        self.disk, self.buffers = {}, {}
        self.pushed, self.pulled = pushed, pulled
        self.editors = (self.pushed, self.pulled)
        self.opened, self.versions, self.states = set(), {}, []

    def path(self, name):
        return at(self.place, name)

    def own_texts(self):
        """The text of each file by its name below the first root."""
        return dict(self.disk, **self.buffers)

    def texts(self):
        """The text of each file by each of its names."""
        own = self.own_texts()
        inner = {name[len(NESTED):]: text for name, text in own.items() if name.startswith(NESTED)}
        return dict(inner, **own) if self.is_nested else own

    def new_text(self):
        inner = [name[len(NESTED):] for name in NAMES if name.startswith(NESTED)]
        return text_of(self.chance, NAMES + inner if self.is_nested else NAMES)

    def step(self):
        name = self.chance.choice(NAMES)
        if name not in self.buffers:
            self.chance.choice((self.open, self.open, self.write, self.remove))(name)
        else:
            self.chance.choice((self.change,) * 8 + (self.replace, self.close, self.write, self.save, self.remove))(name)
        versions = {it: self.versions[it] for it in self.buffers}
        self.states.append((self.texts(), versions))

    def has_new_text(self, name):
        """The document gets its next version."""
        self.versions[name] = self.versions.get(name, 0) + 1

    def open(self, name):
        is_as_on_disk = self.chance.random() < 0.7 and name in self.disk
        self.buffers[name] = self.disk[name] if is_as_on_disk else self.new_text()
        self.opened.add(name)
        self.has_new_text(name)
        for editor in self.editors:
            editor.open(self.path(name), self.buffers[name])

    def replace(self, name):
        self.buffers[name] = self.new_text()
        self.has_new_text(name)
        for editor in self.editors:
            editor.change(self.path(name), self.buffers[name])

    def change(self, name):
        """Replaces a range by some characters, by up to three changes of one message."""
        changes = [self.ranged(name) for _ in range(self.chance.choice((1, 1, 1, 2, 3)))]
        self.has_new_text(name)
        for editor in self.editors:
            editor.change(self.path(name), *changes)

    def ranged(self, name):
        text = self.buffers[name]
        start = self.chance.randrange(len(text) + 1)
        end = min(len(text), start + self.chance.choice((0, 0, 1, 1, 2, 10)))
        new = self.chance.choice(PIECES)
        self.buffers[name] = text[:start] + new + text[end:]
        return {"range": {"start": place_of(text, start), "end": place_of(text, end)}, "text": new}

    def close(self, name):
        del self.buffers[name]
        for editor in self.editors:
            editor.close(self.path(name))

    def save(self, name):
        kind = CHANGED if name in self.disk else CREATED
        self.put(name, self.buffers[name])
        for editor in self.editors:
            editor.save(self.path(name))
            editor.tell((self.path(name), kind))

    def write(self, name):
        kind = CHANGED if name in self.disk else CREATED
        self.put(name, self.new_text())
        for editor in self.editors:
            editor.tell((self.path(name), kind))

    def be_read(self):
        """The servers have read from the disk what they were told of."""
        for editor in self.editors:
            editor.be_read()

    def put(self, name, text):
        self.be_read()
        self.disk[name] = text
        write(self.place.folder, {name: text})

    def remove(self, name):
        if name in self.disk:
            self.be_read()
            del self.disk[name]
            os.remove(self.path(name))
            for editor in self.editors:
                editor.tell((self.path(name), DELETED))

    def compare(self, step):
        """Both editors have the lists that a new session of `script --loose` says of the same texts."""
        wanted = shown_by_rights(self.place.program, self.texts())
        for name in sorted(self.opened):
            what = "after step %d of seed %d, %s" % (step, self.place.seed, name)
            right = wanted[name] if name in self.buffers else []
            try:
                self.pushed.expect(self.path(name), right, "pushed " + what)
            except Failed as why:
                raise Failed("%s\n    texts %s" % (why, json.dumps(self.texts())))
        for name in sorted(self.own_texts()):
            what = "asked for after step %d of seed %d, %s" % (step, self.place.seed, name)
            for editor in self.editors:
                check(editor.pull(self.path(name)), wanted[name], what)


def place_of(text, at_):
    """The position of a place of a text, in UTF-16 columns."""
    before = text[:at_].split("\n")
    return {"line": len(before) - 1, "character": len(before[-1].encode("utf-16-le")) // 2}


def play(model, place):
    """Plays random steps. Each list that came with a version has to be right of that version, whatever has overtaken it."""
    for step in range(1, place.steps + 1):
        model.step()
        if step % BETWEEN == 0:
            model.compare(step)
    model.compare(place.steps)
    model.pushed.be_quiet()
    model.compare(place.steps)
    check(model.pulled.pushed, [], "the lists of the session that asks")
    check_versions(place.program, model.pushed, place.folder, model.states)
    for editor in model.editors:
        editor.end()


def random_edits(place):
    """After each pause of random edits the lists that came and those that are asked for are those of `script --loose`."""
    play(Model(place, begun(place), begun(place, capabilities=PULLS), is_nested=False), place)


def random_edits_of_two_names(place):
    """The same below two nested roots, where some files have two names that are both imported."""
    os.mkdir(at(place, NESTED))
    roots = (".", NESTED)
    play(Model(place, rooted(place, *roots), rooted(place, *roots, capabilities=PULLS), is_nested=True), place)
