"""The texts of .proto files, as scripts that measure or check real files read them."""
import os


def texts_in(folder):
    """The texts of the .proto files below a folder, by their names below it."""
    found = {}
    for at, folders, names in os.walk(folder):
        folders.sort()
        for name in sorted(names):
            if name.endswith(".proto"):
                path = os.path.join(at, name)
                with open(path, encoding="utf-8") as source:
                    found[os.path.relpath(path, folder)] = source.read()
    return found
