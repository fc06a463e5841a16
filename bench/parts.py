#!/usr/bin/env python3
"""Measures parts of pq_server alone, in a loop inside one process.

The program of each part is a few lines of Rattle in a text file beside this script. It is put into a scratch
repository with a copy of the crates that it stands on, proved and built there by `rt`, and run on texts that this
script makes, at n and at 2n bytes. Each run is made with k and with 3k rounds; the difference is the processor's time
of 2k rounds without the process's start. Printed are MB/s at 2n and the ratio of the times at n and 2n: 2 is linear,
2.2 the most. Lexing is measured beside parsing, which contains it.

usage: bench/parts.py [lexing parsing ..] [--runs N]
"""
import argparse
import os
import resource
import shutil
import subprocess
import sys
import tempfile

import files

MOST = 2.2
HERE = os.path.dirname(os.path.abspath(__file__))
CRATES = os.path.join(HERE, "..", "crates")
# the C library keeps freed memory: giving it back after each round and asking for it again costs more than the work
KEPT = dict(os.environ, MALLOC_TRIM_THRESHOLD_="1000000000", MALLOC_MMAP_THRESHOLD_="1000000000")
PARTS = {"lexing": ["pq_lex"], "parsing": ["pq_lex", "pq_names", "pq_syntax"]}


def built_from(folder, name, crates, uses, text=None):
    """The program of the text NAME.rt.txt, or of another text, built in the folder over copies of the crates, of which it uses some."""
    os.makedirs(folder, exist_ok=True)
    with open(os.path.join(folder, "crates.txt"), "w") as lines:
        for crate in crates:
            shutil.copytree(os.path.join(CRATES, crate), os.path.join(folder, "crates", crate), symlinks=True)
            for line in open(os.path.join(HERE, "..", "crates.txt")):
                if line.startswith(crate + ":"):
                    lines.write(line)
        lines.write("%s: %s\n" % (name, uses))
    home = os.path.join(folder, "crates", name)
    os.makedirs(os.path.join(home, "src"))
    shutil.copy(os.path.join(HERE, text or name + ".rt.txt"), os.path.join(home, "src", "main.rt"))
    done = subprocess.run(["rt", "run", "--", "1"], cwd=home, input=b"", capture_output=True)
    program = os.path.join(home, "out", name)
    if not os.path.exists(program):
        sys.exit(done.stdout.decode() + done.stderr.decode())
    return program


def built(folder, part):
    """The program of a part, built in the folder."""
    return built_from(folder, part, PARTS[part], PARTS[part][-1])


def ended(words, source=None, status=0, said=b""):
    """The process of the words, when it has ended. Its status and the end of its output have to be these."""
    done = subprocess.run(words, stdin=source or subprocess.DEVNULL, capture_output=True, env=KEPT)
    if done.returncode != status or not done.stdout.endswith(said):
        sys.exit("%s ended with status %d: %s" % (" ".join(words)[:200], done.returncode, (done.stdout + done.stderr).decode()[:400]))
    return done


def processor_time(words, source=None, status=0, said=b""):
    """The processor's time of one process, the system's part included."""
    before = resource.getrusage(resource.RUSAGE_CHILDREN)
    ended(words, source, status, said)
    after = resource.getrusage(resource.RUSAGE_CHILDREN)
    return after.ru_utime + after.ru_stime - before.ru_utime - before.ru_stime


def peak(words, said=b""):
    """The most memory that one process had at once, in kilobytes, and its processor seconds, by Debian's `time`."""
    done = ended(["/usr/bin/time", "-f", "%M %U %S"] + words, said=said)
    memory, user, system = done.stderr.split()[-3:]
    return int(memory), float(user) + float(system)


def instructions(words, source=None, status=0, said=b""):
    """The instructions of one process, as valgrind counts them: other work on the machine does not change them."""
    done = ended(["valgrind", "--tool=callgrind", "--callgrind-out-file=/dev/null"] + words, source, status, said)
    return int(done.stderr.rpartition(b"Collected : ")[2].split()[0])


class Rounds:
    """A program whose first word is a count of rounds, on one input. All its times are of one round."""

    def __init__(self, program, words, path=os.devnull, said=b""):
        self.program, self.words, self.path, self.said = program, words, path, said
        self.rounds = max(1, int(0.3 / max(self.measured(processor_time, 1), 0.001)))
        self.best = [float("inf"), float("inf")]

    def measured(self, measure, rounds):
        with open(self.path, "rb") as source:
            return measure([self.program, str(rounds)] + self.words, source, 0, self.said)

    def run(self):
        """Measures as many rounds as take about a third of a second, and three times as many."""
        for i in (0, 1):
            self.best[i] = min(self.best[i], self.measured(processor_time, self.rounds * (1, 3)[i]))

    def time(self):
        """The processor seconds of a round without the process's start, by the best runs."""
        return (self.best[1] - self.best[0]) / (2 * self.rounds)

    def instructions(self):
        """The instructions of a round after the first."""
        return self.measured(instructions, 2) - self.measured(instructions, 1)


def in_turns(sides, runs):
    """Measures each of the sides so many times. They take turns, so that a slow while of the machine meets all."""
    for _ in range(runs):
        for side in sides:
            side.run()


def seconds(program, path, rounds):
    with open(path, "rb") as source:
        return processor_time([program, str(rounds)], source)


def round_times(program, paths, runs):
    """The time of one round on each text: best times, which take turns, so that a slow while of the machine meets all."""
    rounds = [40_000_000 // os.path.getsize(path) for path in paths]
    best = [min(times) for times in zip(*[
        [seconds(program, path, many * times) for path, many in zip(paths, rounds) for times in (1, 3)]
        for _ in range(runs)])]
    return [(best[2 * i + 1] - best[2 * i]) / (2 * many) for i, many in enumerate(rounds)]


def main():
    words = argparse.ArgumentParser()
    words.add_argument("parts", nargs="*", default=sorted(PARTS))
    words.add_argument("--runs", type=int, default=9)
    words.add_argument("--program", action="append", default=[], metavar="PART=PATH", help="a program built before")
    words = words.parse_args()
    ready = dict(pair.split("=", 1) for pair in words.program)
    worst = 0.0
    with tempfile.TemporaryDirectory() as folder:
        for part in words.parts:
            program = ready.get(part) or built(os.path.join(folder, part), part)
            small, large = files.texts(500_000), files.texts(1_000_000)
            for (title, one), (_, two) in zip(small, large):
                paths = []
                for text in (one, two):
                    paths.append(os.path.join(folder, str(len(text))))
                    with open(paths[-1], "w") as sink:
                        sink.write(text)
                times = round_times(program, paths, words.runs)
                ratio = times[1] / times[0] * len(one) * 2 / len(two)
                worst = max(worst, ratio)
                print("%-8s %-28s %8.1f MB/s   ratio %.2f" % (part, title, len(two) / times[1] / 1e6, ratio), flush=True)
    print("largest ratio %.2f, wanted at most %.1f" % (worst, MOST))
    return 0 if worst <= MOST else 1


if __name__ == "__main__":
    sys.exit(main())
