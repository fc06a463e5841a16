"""What runs rows over a program: checks/stdio.py and checks/listen.py by themselves, and checks/servers.py both."""
import argparse
import inspect
import multiprocessing
import os
import subprocess
import sys
import tempfile
import time

from server_process import Failed, end_servers

HERE = os.path.dirname(os.path.abspath(__file__))
PROGRAM = os.path.join(HERE, "..", "crates", "pq_server", "out", "pq_server")


class Place:
    """Where a row runs: the program, its further words, a folder of the row's own, and what a random row takes."""

    def __init__(self, words, folder):
        self.program, self.workers = os.path.abspath(words.program), ("--workers", str(words.workers))
        self.folder, self.seed, self.steps = folder, words.seed, words.steps


def rows_of(modules):
    """The rows, in the order of their modules: functions of one argument that is named `place`."""
    found = []
    for module in modules:
        own = [row for row in vars(module).values() if inspect.isfunction(row) and row.__module__ == module.__name__]
        found += [(row.__name__, row) for row in own if list(inspect.signature(row).parameters) == ["place"]]
    return found


def sentence(row):
    return row.__doc__.split("\n")[0]


def held(given):
    """Runs a row. Returns whether it holds, and what is printed of it. What a socket or a file refuses counts as a row that does not
    hold."""
    name, row, words = given
    start = time.monotonic()
    with tempfile.TemporaryDirectory() as folder:
        try:
            row(Place(words, os.path.realpath(folder)))
            why = None
        except Failed as failed:
            why = failed
        except (OSError, EOFError) as failed:
            why = "%s: %s" % (type(failed).__name__, failed)
        finally:
            end_servers()
    mark, seconds = "ok" if why is None else "FAILED", time.monotonic() - start
    said = "%-6s %-24s %5.1f s  %s" % (mark, name, seconds, sentence(row))
    return why is None, said if why is None else "%s\n    %s" % (said, why)


def failing(chosen, words):
    """Runs rows, some beside each other, and prints what was found. Returns the names of those that do not hold."""
    failed = []
    # A process for each row: it ends the servers that it started.
    with multiprocessing.Pool(words.jobs, maxtasksperchild=1) as pool:
        given = [(name, row, words) for name, row in chosen]
        for (name, _), (is_held, said) in zip(chosen, pool.imap(held, given, chunksize=1)):
            print(said, flush=True)
            failed += [] if is_held else [name]
    return failed


def built(folder):
    """The path of the program of these sources, built in the folder as the gate tries it: a check that fails ends it."""
    program = os.path.join(folder, "pq_server")
    script = os.path.join(HERE, "..", "bench", "unproved.py")
    done = subprocess.run([sys.executable, script, program, "--checked", "--quick"], stdin=subprocess.DEVNULL)
    if done.returncode != 0:
        sys.exit("the program could not be built")
    return program


def words_for():
    """The words that each of the scripts takes."""
    words = argparse.ArgumentParser()
    words.add_argument("--program", help="the program that is started, else the proved one")
    words.add_argument("--build", action="store_true", help="builds that program, with its checks at run time and without a proof")
    words.add_argument("--only", nargs="*", help="the names of rows")
    words.add_argument("--list", action="store_true", help="prints the names and sentences of the rows, and runs none")
    words.add_argument("--seed", type=int, default=1)
    words.add_argument("--steps", type=int, default=300, help="the steps of the random session")
    words.add_argument("--workers", type=int, default=2)
    words.add_argument("--jobs", type=int, default=3, help="how many rows run beside each other; most of them wait")
    return words


def run(modules, builds=False):
    """Runs the rows of the modules that the command line asks for. Returns the status: 1 if a row does not hold.

    With `builds` the program is built also without the word for it, unless the command line names one."""
    words = words_for().parse_args()
    words.build = words.build or builds and not words.program
    words.program = words.program or PROGRAM
    chosen = [(name, row) for name, row in rows_of(modules) if not words.only or name in words.only]
    if words.only and len(chosen) < len(set(words.only)):
        sys.exit("no row has one of these names: %s" % " ".join(words.only))
    if words.list:
        for name, row in chosen:
            print("%-24s %s" % (name, sentence(row)))
        return 0
    with tempfile.TemporaryDirectory() as folder:
        if words.build:
            words.program = built(folder)
        failed = failing(chosen, words)
    print("%d rows, %d failed%s" % (len(chosen), len(failed), "".join(" " + name for name in failed)))
    return 1 if failed else 0
