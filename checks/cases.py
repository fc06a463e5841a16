#!/usr/bin/env python3
"""Makes the stored session of the program from the rows of cases/, and by session_cases.py those of cases/sessions.

The session is crates/pq_server/stdin, and what the program has to write is crates/pq_server/stdout. The gate runs the program
on the one and compares what it writes with the other, byte for byte, as two compilers build it. So a row is tested without a
proof. What is wanted is made of the rows alone, never of what a program wrote.

The session begins as examples/first_session.in does. Then each row sets its files and asks: a file that has another text is
changed, one that is new is opened, and one that the row does not have is removed. So all rows are answered by one engine.

With no option the two files are written. With --check the status is 1 if they are not what the rows make. With --run the
program is run on the session, by `listen` with --listen, and with --compare a file of output is looked at: the first row whose
reply differs is named. With --loose these take the rows of cases/loose, and the program gets that word. They are in no file.

usage: checks/cases.py [--check | [--loose] --run PROGRAM | [--loose] --listen PROGRAM | [--loose] --compare OUTPUT] [--top FOLDER]
"""
import argparse
import json
import os
import subprocess
import sys

import replies
import rows
import session_cases
from messages import METHODS, asked, bodies_of, changed, frame, notice, opened

HERE = os.path.dirname(os.path.abspath(__file__))
PROGRAM = os.path.join("crates", "pq_server")
FIRST = os.path.join("examples", "first_session")
OPENED = "textDocument/didOpen"


def read(path):
    """The bytes of a file."""
    try:
        with open(path, "rb") as it:
            return it.read()
    except OSError as error:
        sys.exit("checks/cases.py: %s cannot be read: %s" % (path, error.strerror))


class Session:
    """A session that grows row by row: what is sent, what has to come back, and what the server knows then.

    `sent` and `wanted` are pairs of the place that a frame is made of and the frame; `bodies` are the rows by the label of
    their request, with the body of the reply.
    """

    def __init__(self):
        self.sent = []
        self.wanted = []
        self.bodies = {}
        self.files = {}
        self.revision = 0

    def send(self, place, data):
        """Sends a frame."""
        self.sent.append((place, data))

    def begin(self, path, requests):
        """Sends the bodies of a stored session, in the file `path`."""
        for body in requests:
            self.send(path, frame(body))
            message = json.loads(body)
            if message["method"] == OPENED:
                document = message["params"]["textDocument"]
                self.files[replies.file_at(document["uri"])] = document["text"]
                self.revision += 1

    def want(self, path, answers):
        """Wants the bodies of a stored session's output, in the file `path`."""
        self.wanted += [(path, frame(body)) for body in answers]

    def edit(self, place, data):
        """Sends a frame that makes a revision."""
        self.send(place, data)
        self.revision += 1

    def set_files(self, row):
        """Makes the files of the server those of a row."""
        for name in [name for name in self.files if name not in row.files]:
            self.edit(row.place, notice("proto/removeFile", name))
        for name, text in row.files.items():
            if name not in self.files:
                self.edit(row.place, opened(name, text))
            elif self.files[name] != text:
                self.edit(row.place, changed(name, text))
        self.files = row.files

    def ask(self, row):
        """Sets the files of a row, asks what it asks, and wants the reply that it says."""
        self.set_files(row)
        position = {"position": row.position} if row.position else {}
        self.send(row.place, asked(row.label, METHODS[row.query], row.file, **position))
        result = replies.result(row.query, row.want, self.revision)
        body = b'{"id":%s,"jsonrpc":"2.0","result":%s}' % (json.dumps(row.label).encode(), result.encode())
        self.bodies[row.label] = row, body
        self.wanted.append((row.place, frame(body)))


def made(top, is_loose=False):
    """The session that the rows of cases/loose make, or all others."""
    requests = bodies_of(read(os.path.join(top, FIRST + ".in")))
    answers = bodies_of(read(os.path.join(top, FIRST + ".out")))
    session = Session()
    session.begin(FIRST + ".in", requests[:-2])
    session.want(FIRST + ".out", answers[:-1])
    for row in rows.read_rows(top, is_loose):
        session.ask(row)
    # The last two requests are `shutdown` and `exit`, of which the first has a reply.
    session.begin(FIRST + ".in", requests[-2:])
    session.want(FIRST + ".out", answers[-1:])
    return session


def joined(pieces):
    """The frames of pairs of a place and a frame."""
    return b"".join(data for _, data in pieces)


def first_difference(pieces, found):
    """The byte at which `found` first differs from the frames of `pieces`, and the place of the frame there; None if nowhere."""
    at = 0
    for place, data in pieces:
        part = found[at:at + len(data)]
        if part != data:
            same = next((i for i, (a, b) in enumerate(zip(part, data)) if a != b), len(part))
            return at + same, place
        at += len(data)
    return None if at == len(found) else (at, "the end")


def targets(top, session):
    """The two files of the program, each with what it has to have."""
    folder = os.path.join(top, PROGRAM)
    return [(os.path.join(folder, "stdin"), session.sent), (os.path.join(folder, "stdout"), session.wanted)]


def write(top, session):
    """Writes the two files."""
    for path, pieces in targets(top, session):
        with open(path, "wb") as it:
            it.write(joined(pieces))


def check(top, session):
    """What is wrong with the two files, a line for each."""
    found = []
    for path, pieces in targets(top, session):
        stored = read(path) if os.path.exists(path) else b""
        difference = first_difference(pieces, stored)
        if difference:
            found.append("%s is not what the rows make: byte %d is the first that differs, of %s"
                         % (os.path.relpath(path, top), difference[0] + 1, difference[1]))
    return found


def bodies_by_label(output):
    """The bodies of the frames of `output` by their label, up to the first byte that is of no frame."""
    found = {}
    while output:
        head, _, rest = output.partition(b"\r\n\r\n")
        try:
            length = int(head.partition(b":")[2])
            found[json.loads(rest[:length])["id"]] = rest[:length]
        except (ValueError, KeyError, TypeError):
            break
        output = rest[length:]
    return found


def differences(session, output):
    """The rows whose replies differ, each with the body wanted and the one found, or None."""
    found = bodies_by_label(output)
    return [(row, body, found.get(label)) for label, (row, body) in session.bodies.items() if found.get(label) != body]


def parted(wanted, found):
    """Where two long texts part, with what is around it in each; nothing for short ones."""
    if len(wanted) < 200:
        return []
    at = len(os.path.commonprefix([wanted, found]))
    part = slice(max(0, at - 30), at + 30)
    return ["they part at character %d: wanted %s, found %s" % (at + 1, wanted[part], found[part])]


def told(row, wanted, found):
    """What is said of a row whose reply differs."""
    lines = ["%s: the reply differs" % row.place, "row:    " + row.written, "wanted: " + row.want]
    if found is None:
        return "\n".join(lines + ["found:  no reply"])
    shown = replies.shown(row.query, found)
    if shown != row.want:
        return "\n".join(lines + ["found:  " + shown] + parted(row.want, shown))
    return "\n".join(lines + ["the body wanted: " + wanted.decode(), "the body found:  " + found.decode(errors="replace")])


def compare(session, output):
    """Compares an output with what is wanted; the status."""
    wrong = differences(session, output)
    if wrong:
        print(told(*wrong[0]))
        print("rows that differ: %d of %d" % (len(wrong), len(session.bodies)))
        return 1
    difference = first_difference(session.wanted, output)
    if difference:
        print("each row has its reply, but byte %d of the output differs, at %s" % (difference[0] + 1, difference[1]))
        return 1
    print("%d rows, %d bytes of output as wanted" % (len(session.bodies), len(output)))
    return 0


def run(program, session, *words):
    """Runs a program with these further words on the session, and compares; the status."""
    try:
        done = subprocess.run([program, "script", *words], input=joined(session.sent), stdout=subprocess.PIPE)
    except OSError as error:
        sys.exit("checks/cases.py: %s cannot be run: %s" % (program, error.strerror))
    status = compare(session, done.stdout)
    if done.returncode != 0:
        print("%s ended with status %d" % (program, done.returncode))
    return status or int(done.returncode != 0)


def run_listen(program, session, *words):
    """Runs the session over a connection to a program that listens, with these further words, and compares; the status."""
    sys.path.append(os.path.join(HERE, "..", "bench"))
    from clients import Connection, Server
    server = Server(program, 2, "--sessions", "1", *words)
    found = Connection(server.port).answers(joined(session.sent), 60)
    status = compare(session, b"".join(map(frame, found)))
    ended = server.ended()
    if ended != 0:
        print("%s ended with status %d" % (program, ended))
    return status or int(ended != 0)


def check_all(top, session):
    """Checks all stored sessions; the status."""
    wrong = check(top, session) + session_cases.check(top)
    for line in wrong:
        print("checks/cases.py: " + line)
    if wrong:
        print("checks/cases.py: `python3 checks/cases.py` writes the stored sessions anew from the rows")
        return 1
    print("the stored sessions are what their rows make, of which the program's has %d" % len(session.bodies))
    return 0


def write_all(top, session):
    """Writes all stored sessions; the status."""
    write(top, session)
    session_cases.write(top)
    print("%d rows, %d bytes of input, %d of output" % (len(session.bodies), len(joined(session.sent)), len(joined(session.wanted))))
    return 0


def main():
    """Reads the command line; the status."""
    words = argparse.ArgumentParser(description="Makes the stored session of the program from the rows of cases/.")
    choice = words.add_mutually_exclusive_group()
    choice.add_argument("--check", action="store_true", help="only say whether the stored session is what the rows make")
    choice.add_argument("--run", metavar="PROGRAM", help="run a program on the session, and name the first row that differs")
    choice.add_argument("--listen", metavar="PROGRAM", help="the same by `listen`, over a connection")
    choice.add_argument("--compare", metavar="OUTPUT", help="the same over a file of output")
    words.add_argument("--loose", action="store_true", help="with one of these three: the rows of cases/loose, by this word of the program")
    words.add_argument("--top", default=os.path.join(HERE, ".."), help="the top of the repository")
    words = words.parse_args()
    more = ["--loose"] * words.loose
    try:
        session = made(words.top, words.loose)
    except rows.Refused as error:
        print("checks/cases.py: %s" % error)
        return 1
    if words.run:
        return run(words.run, session, *more)
    if words.listen:
        return run_listen(words.listen, session, *more)
    if words.compare:
        return compare(session, read(words.compare))
    if words.loose:
        sys.exit("checks/cases.py: the rows of cases/loose are in no stored session")
    return check_all(words.top, session) if words.check else write_all(words.top, session)


if __name__ == "__main__":
    sys.exit(main())
