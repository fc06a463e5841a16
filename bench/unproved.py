#!/usr/bin/env python3
"""Builds pq_server without its proof, with optimisation: to measure, or to try it before a proof.

`rt try` hands the whole program to the kit's `clang` as one module, with checks before operations
that a proof would cover. This script runs `rt try` from a copy of the kit's scripts
beside a `clang` that keeps the module and stops. It compiles and links the module as `rt run` does:
by the kit's `clang` at -O3 and by `rattle-link`. This takes two to three minutes.

Nothing is proved of the program. It answers the same bytes as the proved one, with more
instructions:

    bare        The checks are taken out of the module: 11 to 17 % more instructions for parsing
                alone. Where a proof would fail, the behaviour is undefined. Such a program is
                compared with another that was built like it. Its factors to `protoc` are too low.
    --checked   The checks stay: 1.9 times the instructions of a bare one. A check that fails writes
                a line to standard error and ends the program with status 70. What no check covers,
                such as memory that is used once it was freed, is undefined here too. This is the
                program of `bin/pq_server --unproved`.

The program has the time at which the build began, so a source that changed meanwhile is newer. A
rename puts it in its place, so a program that runs from there goes on. At SIGTERM and SIGHUP the
build ends with all that it started.

usage: bench/unproved.py PROGRAM [--checked] [--quick] [--crate FOLDER]
"""
import argparse
import os
import re
import shutil
import signal
import subprocess
import sys
import tempfile
import time

HERE = os.path.dirname(os.path.abspath(__file__))
CRATE = os.path.join(HERE, "..", "crates", "pq_server")
TARGET = "x86_64-unknown-linux-gnu"
SIGNALS = (signal.SIGTERM, signal.SIGHUP)
# What stands in for `clang`: it keeps the module that would be compiled with checks, and stops.
STAND_IN = '#!/bin/sh\ncase " $* " in *" -fsanitize=address "*) cp module.bc %s; exit 1;; esac\nexec %s "$@"\n'
# What the module has of `rt try` alone: the checks, what fills fresh memory, traps and marks for the address sanitizer.
CHECK = re.compile(r'(define internal void @"rattle-llvm-checks::\w+"\(i8 %a0\)) #\d+ \{\n.*?\n\}\n', re.S)
FILL = re.compile(r"\n  call void @llvm\.memset\.p0\.i64\(ptr %r\d+, i8 -86, i64 \d+, i1 false\)")
TRAP = "\n  call void @llvm.trap()"
MARK = " sanitize_address"
# What a check that fails calls in the place of a trap. It writes a line, and ends the process with all
# its threads. The status is EX_SOFTWARE of BSD's sysexits.
FAILED = """
@"unproved::line" = private constant [%(length)d x i8] c"%(line)s\\0A"
define internal void @"unproved::failed"() cold noinline noreturn nounwind {
start:
  %%written = call i64 @write(i32 2, ptr @"unproved::line", i64 %(length)d)
  call void @_exit(i32 70)
  unreachable
}
"""
LINE = "%s: a check failed where a proof was not made"
NEEDED = {"write": "declare i64 @write(i32, ptr, i64)\n", "_exit": "declare void @_exit(i32)\n"}
# What `rattle build` gives clang.
FLAGS = ["--target=" + TARGET, "-march=x86-64-v2", "-ffunction-sections", "-fdata-sections", "-fPIE", "-O3", "-c", "-x", "ir"]
FLAGS += [word for flag in ("-no-trap-after-noreturn", "-trap-unreachable", "-no-x86-call-frame-opt", "-disable-machine-licm",
                            "-disable-postra-machine-licm", "-sink-common-insts=false") for word in ("-mllvm", flag)]


def ended(words, **how):
    """The process of the words, when it has ended with status 0."""
    done = subprocess.run(words, stdin=subprocess.DEVNULL, capture_output=True, text=True, **how)
    if done.returncode != 0:
        sys.exit("%s ended with status %d: %s" % (words[0], done.returncode, (done.stdout + done.stderr)[-2000:]))
    return done.stdout


def kit_with(folder, clang):
    """A copy of the kit in the folder, where only `rt` and its scripts are copied, whose `clang` is another."""
    kit = os.path.dirname(ended(["rt", "doc"]).strip())
    copy = os.path.join(folder, "kit")
    os.makedirs(os.path.join(copy, "toolchain", "bin"))
    shutil.copytree(os.path.join(kit, "bin"), os.path.join(copy, "bin"))
    for below in ("", "toolchain", "toolchain/bin"):
        for name in os.listdir(os.path.join(kit, below)):
            link = os.path.join(copy, below, name)
            if not os.path.lexists(link) and name != "clang":
                os.symlink(os.path.join(kit, below, name), link)
    path = os.path.join(copy, "toolchain", "bin", "clang")
    with open(path, "w") as sink:
        sink.write(clang % (os.path.join(folder, "module.bc"), os.path.join(kit, "toolchain", "bin", "clang")))
    os.chmod(path, 0o755)
    return kit, copy


def module(folder, copy, crate):
    """The path of the program's module with its checks. `rt try` gets no object file and ends with an error."""
    how = {"stdin": subprocess.DEVNULL, "stdout": subprocess.PIPE, "stderr": subprocess.STDOUT}
    trial = subprocess.Popen([os.path.join(copy, "bin", "rt"), "try"], cwd=crate, **how)
    try:
        said, _ = trial.communicate()
    finally:
        # It ends what it started, unless it is killed.
        trial.terminate()
        trial.wait()
    path = os.path.join(folder, "module.bc")
    if not os.path.exists(path):
        sys.exit(said.decode())
    return path


def unchecked(text):
    """The module without what `rt try` adds to it."""
    text = CHECK.sub(r"\1 alwaysinline {\nstart:\n  ret void\n}\n", text)
    return FILL.sub("", text).replace(TRAP, "").replace(MARK, "")


def checked(text, name):
    """The module with its checks. One that fails ends the program `name` by a line and a status."""
    line = LINE % name
    text = FILL.sub("", text).replace(TRAP, '\n  call void @"unproved::failed"()').replace(MARK, "")
    lacking = [line for word, line in NEEDED.items() if not re.search(r"^(?:declare|define) .*@%s\(" % word, text, re.M)]
    return text + "".join(lacking) + FAILED % {"length": len(line) + 1, "line": line}


def built(folder, crate, program, has_checks, flags):
    """Builds the program of a crate's folder."""
    began = time.time()
    kit, copy = kit_with(folder, STAND_IN)
    whole, given, made = module(folder, copy, crate), os.path.join(folder, "given.ll"), os.path.join(folder, "made.o")
    clang = os.path.join(kit, "toolchain", "bin", "clang")
    text = ended([clang, "-S", "-emit-llvm", "-x", "ir", "-Xclang", "-disable-llvm-passes", whole, "-o", "-"])
    with open(given, "w") as sink:
        sink.write(checked(text, os.path.basename(os.path.abspath(crate))) if has_checks else unchecked(text))
    ended([clang] + flags + [given, "-o", made])
    libraries = [os.path.join(kit, "c", name) for name in ("libos_c.a", "liblibc_c.a")]
    # Beside the program, since a rename does not leave a file system.
    linked = "%s.%d" % (os.path.abspath(program), os.getpid())
    try:
        ended([os.path.join(kit, "bin", "rattle-link"), "--target", TARGET, "--toolchain", os.path.join(kit, "toolchain"),
               "-o", linked, made] + libraries)
        os.utime(linked, (began, began))
        os.replace(linked, program)
    finally:
        if os.path.exists(linked):
            os.remove(linked)


def stop(number, _):
    """Ends the build at a signal. A second one would end what puts things away."""
    for each in SIGNALS:
        signal.signal(each, signal.SIG_IGN)
    sys.exit(128 + number)


def main():
    words = argparse.ArgumentParser()
    words.add_argument("program", help="where to put it")
    words.add_argument("--checked", action="store_true", help="leave the checks in")
    words.add_argument("--quick", action="store_true", help="optimise nothing: a program that is built for one run")
    words.add_argument("--crate", default=CRATE, help="the folder of another crate that is a program")
    words = words.parse_args()
    for number in SIGNALS:
        signal.signal(number, stop)
    with tempfile.TemporaryDirectory() as folder:
        flags = ["-O0" if flag == "-O3" else flag for flag in FLAGS] if words.quick else FLAGS
        built(folder, words.crate, words.program, words.checked, flags)
    return 0


if __name__ == "__main__":
    sys.exit(main())
