#!/usr/bin/env python3
"""Counts what a first compilation of real files takes: one session of `pq_server script` for each set of files.

A set is a folder below FOLDER, from which the imports of its files are written. A session opens all files of its set and asks
for the diagnostics of each. Printed are, for each set and for all, the files, their bytes, the instructions that callgrind
counts, without those of a session without files, and the instructions a byte. With `--parser PATH`, the program of
parsing.rt.txt, the same of parsing all files. With `--replies FILE` the replies of all sessions are written there, to be
compared with those of another program. With `--loose` the program gets this word, by which files with an error have definitions.

Needed: valgrind. The files are not in the repository; the results name those that were measured.

usage: bench/real.py --files FOLDER [--program PATH] [--parser PATH] [--replies FILE] [--loose]
"""
import argparse
import os
import subprocess
import tempfile

import parts
from shared import FIRST, LAST, asked, METHODS, opened, texts_in

HERE = os.path.dirname(os.path.abspath(__file__))
PROGRAM = os.path.join(HERE, "..", "crates", "pq_server", "out", "pq_server")


def session(path, texts):
    """Writes a session that opens all files and asks for the diagnostics of each."""
    opens = b"".join(opened(name, text) for name, text in texts.items())
    asks = b"".join(asked(i, METHODS["diagnostics"], name) for i, name in enumerate(texts))
    with open(path, "wb") as sink:
        sink.write(FIRST + opens + asks + LAST)


def counted(command, path):
    with open(path, "rb") as source:
        return parts.instructions(command, source)


def parsed(parser, files):
    """What the parser takes for the files, without its start: half of what three rounds take more than one."""
    once, thrice = (parts.instructions([parser, rounds, *files]) for rounds in ("1", "3"))
    return (thrice - once) / 2


def main():
    words = argparse.ArgumentParser()
    words.add_argument("--files", required=True, help="a folder whose folders are sets of .proto files")
    words.add_argument("--program", default=PROGRAM)
    words.add_argument("--parser", help="the program of bench/parsing.rt.txt, built before")
    words.add_argument("--replies", help="a file for the replies of all sessions")
    words.add_argument("--loose", action="store_true", help="the word of the program")
    words = words.parse_args()
    command = [words.program, "script", *["--loose"] * words.loose]
    count = size = total = 0
    paths, said = [], []
    with tempfile.TemporaryDirectory() as room:
        path = os.path.join(room, "session")
        session(path, {})
        start = counted(command, path)
        for name in sorted(os.listdir(words.files)):
            texts = texts_in(os.path.join(words.files, name))
            paths += [os.path.join(words.files, name, text) for text in texts]
            session(path, texts)
            if words.replies:
                with open(path, "rb") as source:
                    said.append(subprocess.run(command, stdin=source, stdout=subprocess.PIPE, check=True).stdout)
            taken, bytes_of_set = counted(command, path) - start, sum(len(text.encode()) for text in texts.values())
            print("%-12s %4d files, %8d bytes: %6.1f million instructions, %4.0f a byte"
                  % (name, len(texts), bytes_of_set, taken / 1e6, taken / bytes_of_set), flush=True)
            count, size, total = count + len(texts), size + bytes_of_set, total + taken
    print("%-12s %4d files, %8d bytes: %6.1f million instructions, %4.0f a byte" % ("all", count, size, total / 1e6, total / size))
    if words.parser:
        taken = parsed(words.parser, paths)
        print("parsing alone: %.1f million instructions, %.2f a byte" % (taken / 1e6, taken / size))
    if words.replies:
        with open(words.replies, "wb") as sink:
            sink.write(b"".join(said))


if __name__ == "__main__":
    main()
