#!/usr/bin/env python3
"""Refuses each growth of memory of each call in turn, and of whole programs: checks/refused.c does so, without a proof.

What contracts say of an allocation that fails is proved: the value is as before, and what was handed in comes back. Only a run
shows that a refused growth is answered at all, with no abort, no signal and no endless loop; that the same call, made again,
succeeds; and that a call answers `Memory` for no other reason. A cache or a flag that no contract sees could break each of these.

This script builds the program of checks/refused/ without a proof (bench/unproved.py). Its sources are named .rt.txt, since the gate
wants each .rt file to be one that it proves, and the proof of these took over ten processor minutes. That program makes each public call that takes memory
between two marks, and writes a line: what the call came to, and the state after it. The program is copied for each growth of each
call, and in the copy that growth alone is refused. Each copy has to write the line of the program itself. A call that answers
`Memory` is made again by the program. A growth that only makes a call faster may be refused with no answer `Memory`.
Before `publish`, `publish_ring`, `post_step` and `carry_one` are made again, the program compares the state with that before the call:
all memos and what came back, the store, and that the client of the carry is closed. A request whose run was starved is made again.
Before a change of a view and `see` are made again, it compares what the view and the look answer with their answers before the call.

It shows nothing of calls that the program does not make, nor of two growths refused in one call. A copy has one thread.
So whole programs are tried too: every stored session, in which several growths can be refused, and `listen`.

Run it before a change of what allocates lands: .ci/run runs the calls alone, and a person runs --sessions and --listen.
The status is 1 where a copy differs, or ended by a signal, or was not done after 20 seconds.

Wrong bodies that were tried, each caught:
- `intern` keeps a flag after its first `Memory` and answers `Memory` for ever: 22 copies, of `intern`, `set` and `edit`, write
  `refused again`. No clause of `intern` refuses it, so checks/edits/ cannot have it.
- `Inputs::set` drops the text in its refusal: each copy of a `set` with a text that met the refusal writes `absent`.
- `text_value` repeats a refused push for ever: not done after 20 seconds. Each such copy takes that long.
- A claim that calls itself without end where a push is refused: its copies end by signal 11.
- `publish` forgets the memo of its key where its reads get no memory: 9 copies write what the refusal left.
- `publish_ring` hands back a member too few where it gets no room for the ring: 22 copies write what the refusal left.
- `carry_one` leaves its client open after `Memory`: 106 copies write `the client is open`.
- `run_step` says of a run that it starves that it was over: 124 copies write `over`, and that the reply is a starved one.
- `set_document` copies its edits after the document is in the view: 7 copies write what the refusal left, and then no edits.
- `see` forgets what it saw of the file before it has room for the path: 3 copies write what the refusal left.

usage: checks/refused.py                        the calls
       checks/refused.py --each                 the calls, and of each line of the program how many growths were refused
       checks/refused.py --with PROGRAM         the calls of a program that was built so
       checks/refused.py --sessions PROGRAM     all stored sessions by `PROGRAM script`, where PROGRAM is pq_server
       checks/refused.py --listen PROGRAM       two clients of `PROGRAM listen` with one worker, one growth refused in each run
       checks/refused.py .. --mode from|every   with --sessions: each growth from the n-th on is refused, or each n-th
       checks/refused.py .. --step N            with --listen: only each N-th growth
"""
import argparse
import collections
import json
import os
import re
import shutil
import socket
import subprocess
import sys
import tempfile
import threading

HERE = os.path.dirname(os.path.abspath(__file__))
TOP = os.path.dirname(HERE)
SOURCES = os.path.join(HERE, "refused")
SUFFIX = ".rt.txt"
STORED = os.path.join(TOP, "crates", "stored_sessions", "stdin")
FLAGS = ["-O2", "-Wall", "-shared", "-fPIC", "-nostdlib"]
# The status of a copy that wrote its line.
DONE = 77
# What a program writes to standard error with the status 5.
NO_MEMORY = b"pq_server: out of memory\n"
Record = collections.namedtuple("Record", "call n status refused memory out err")


def library(folder):
    """Builds the library by the kit's compiler, or by the system's, and returns its path."""
    made = os.path.join(folder, "refused.so")
    kit = os.path.dirname(subprocess.run(["rt", "doc"], capture_output=True, text=True, check=True).stdout.strip())
    clang = os.path.join(kit, "toolchain", "bin", "clang")
    ours = [clang, "--target=x86_64-unknown-linux-gnu", "-fuse-ld=lld"]
    for words in (ours, ["cc"]):
        if shutil.which(words[0]) and not subprocess.run(words + FLAGS + ["-o", made, os.path.join(HERE, "refused.c")]).returncode:
            return made
    sys.exit("checks/refused.c was not compiled")


def build(folder, program):
    """Builds the program in a copy of the repository's crates, which has it as one more."""
    shutil.copytree(os.path.join(TOP, "crates"), os.path.join(folder, "crates"), ignore=shutil.ignore_patterns("out", "must-fail"))
    shutil.copy(os.path.join(TOP, "HANDLES"), folder)
    crate = os.path.join(folder, "crates", "refused")
    os.makedirs(os.path.join(crate, "src"))
    for name in os.listdir(os.path.join(SOURCES, "src")):
        shutil.copy(os.path.join(SOURCES, "src", name), os.path.join(crate, "src", name.removesuffix(SUFFIX) + ".rt"))
    with open(os.path.join(folder, "crates.txt"), "w", encoding="utf-8") as it:
        for path in (os.path.join(TOP, "crates.txt"), os.path.join(SOURCES, "uses.txt")):
            with open(path, encoding="utf-8") as uses:
                it.write(uses.read())
    subprocess.run([sys.executable, os.path.join(TOP, "bench", "unproved.py"), program, "--crate", crate], check=True)


def records_of(path):
    """The records that the library wrote."""
    with open(path, "rb") as it:
        data = it.read()
    at = 0
    while at < len(data):
        end = data.index(b"\n", at)
        *numbers, out, err = map(int, data[at:end].split())
        at = end + 1 + out + err
        yield Record(*numbers, data[end + 1 : at - err], data[at - err : at])


def frames_of(data):
    """The bodies of the whole frames of an output, and the bytes after them."""
    bodies = []
    while True:
        head, found, rest = data.partition(b"\r\n\r\n")
        if not found or len(rest) < int(head[16:]):
            return bodies, data
        bodies.append(rest[: int(head[16:])])
        data = rest[int(head[16:]) :]


def starved(body):
    """The text of -32603 with the label of a demand's reply, or None where the reply is another one."""
    result = json.loads(body).get("result", {"capabilities": 1})
    if isinstance(result, dict) and "capabilities" in result:
        return None
    return out_of_memory(body)


def out_of_memory(body):
    """The text of -32603 with the label of a reply."""
    reply = json.loads(body)
    text = {"error": {"code": -32603, "message": "out of memory"}, "id": reply["id"], "jsonrpc": "2.0"}
    return json.dumps(text, separators=(",", ":"), ensure_ascii=False).encode()


def framed(body):
    """The frame of a body."""
    return b"Content-Length: %d\r\n\r\n" % len(body) + body


def wrong_output(want, out, is_whole):
    """Why an output is none that the output with ample memory allows, or None. `is_whole` says that nothing may lack."""
    wanted, (bodies, rest) = frames_of(want)[0], frames_of(out)
    if len(bodies) > len(wanted):
        return "a frame too many"
    for body, right in zip(bodies, wanted):
        if body not in (right, starved(right)):
            return "a wrong frame: %r" % body[:200]
    if is_whole:
        return None if len(bodies) == len(wanted) and not rest else "the output is cut, with no status 5"
    following = wanted[len(bodies)] if len(bodies) < len(wanted) else b""
    allowed = [framed(it) for it in (following, following and starved(following)) if it]
    return None if not rest or any(it.startswith(rest) for it in allowed) else "a wrong end: %r" % rest[:200]


def wrong_script(want, out):
    """Why the line of a script differs from that with ample memory in what it may not, or None."""
    (wanted, _, want), (found, _, out) = want.partition(b"\n"), out.partition(b"\n")
    if found == wanted:
        return wrong_output(want.rstrip(b"\n"), out.rstrip(b"\n"), True)
    if found == b"script => 5":
        return wrong_output(want.rstrip(b"\n"), out.rstrip(b"\n"), False)
    return "it ended as %r" % found


def wrong_copy(want, it):
    """Why a copy of a call is wrong, or None."""
    if it.status < 0:
        return "ended by signal %d" % -it.status if it.status != -14 else "not done after 20 seconds"
    if it.status != DONE:
        return "ended with status %d" % it.status
    if not it.refused and it.memory:
        return "answered `Memory`, and nothing was refused"
    if want.startswith(b"script => "):
        return wrong_script(want, it.out)
    return None if it.out == want else "wrote %r" % it.out.decode(errors="replace")


def named(output, at, line):
    """The name of a call whose line is at that place of the output: its room, and what the line says of the call."""
    room = output[: at + 1].rpartition(b"== ")[2].partition(b"\n")[0]
    return "%s: %s" % (room.decode(), line.decode(errors="replace").partition(" => ")[0][:100])


def calls(library, program, folder, is_each):
    """Refuses each growth of each call. Returns whether each copy wrote the right line."""
    path = os.path.join(folder, "records")
    with open(os.path.join(SOURCES, "stdin"), "rb") as given:
        own = subprocess.run([program], stdin=given, capture_output=True, env=dict(os.environ, LD_PRELOAD=library, REFUSE_RECORDS=path))
    with open(os.path.join(SOURCES, "stdout"), "rb") as it:
        bad = [] if own.returncode == 0 and own.stdout == it.read() else ["the program itself wrote what its file stdout has not"]
    by_call = collections.defaultdict(list)
    for it in records_of(path):
        by_call[it.call].append(it)
    silent, at, by_line = 0, 0, collections.Counter()
    for copies in by_call.values():
        want = copies[-1].out
        at = max(own.stdout.find(want, at), at)
        name = named(own.stdout, at, want)
        by_line[at, name] += sum(it.refused for it in copies)
        for it in copies:
            wrong = wrong_copy(want, it)
            silent += it.refused > 0 and it.memory == 0
            if wrong:
                bad.append("%s: growth %d: %s" % (name, it.n, wrong))
    growths = sum(by_line.values())
    for (_, name), count in by_line.items() if is_each else ():
        print("%6d %s" % (count, name))
    for line in bad:
        print(line)
    print("%d calls, %d growths refused, %d of them with no answer `Memory`, %d wrong" % (len(by_call), growths, silent, len(bad)))
    return not bad and growths > 0


def stored():
    """The stored sessions: a name and the bytes of each."""
    with open(STORED, "rb") as it:
        data = it.read()
    while data:
        line, _, data = data.partition(b"\n")
        name, length = line.decode().rsplit(" ", 1)
        yield name, data[: int(length)]
        data = data[int(length) :]


def wrong_run(whole, it):
    """Why a run of a session is wrong, or None."""
    if it.status < 0:
        return "ended by signal %d" % -it.status if it.status != -14 else "not done after 20 seconds"
    if it.status == 5 and it.err == NO_MEMORY:
        return wrong_output(whole.out, it.out, False)
    if (it.status, it.err) != (whole.status, whole.err):
        return "ended with status %d and %r" % (it.status, it.err[:200])
    return wrong_output(whole.out, it.out, True)


def sessions(library, program, folder, mode):
    """Refuses growths of each stored session. Returns whether each run is right."""
    given, path = os.path.join(folder, "session"), os.path.join(folder, "records")
    environment = dict(os.environ, LD_PRELOAD=library, REFUSE_RECORDS=path, REFUSE_INPUT=given)
    if mode:
        environment["REFUSE_MODE"] = mode
    ends, count, bad = collections.Counter(), 0, collections.defaultdict(list)
    for name, session in stored():
        with open(given, "wb") as it:
            it.write(session)
        open(path, "wb").close()
        subprocess.run([program, "script"], env=environment, stdin=subprocess.DEVNULL, check=True)
        runs = list(records_of(path))
        count += 1
        for it in runs:
            wrong = wrong_run(runs[-1], it)
            ends["status %d" % it.status] += 1
            ends["with -32603"] += it.out.count(b'"code":-32603') > runs[-1].out.count(b'"code":-32603')
            if wrong:
                bad[wrong].append("growth %d of %s" % (it.n, name))
    for wrong, places in bad.items():
        print("wrong in %d runs, as with %s: %s" % (len(places), ", ".join(places[:3]), wrong))
    print("%d sessions, %s" % (count, ", ".join("%s: %d" % it for it in sorted(ends.items()))))
    return not bad and count > 0


def session_of(name):
    """A session that asks twice about a file that it opens."""
    uri = '{"uri":"file:///%s"}' % name
    text = r'"syntax = \"proto3\";\nmessage M { int32 x = 0; N n = 1; }"'
    bodies = ['{"id":0,"jsonrpc":"2.0","method":"initialize","params":{}}']
    bodies.append('{"jsonrpc":"2.0","method":"textDocument/didOpen","params":{"textDocument":%s,"text":%s}}}' % (uri[:-1], text))
    for number, method in ((1, "diagnostic"), (2, "documentSymbol")):
        bodies.append('{"id":%d,"jsonrpc":"2.0","method":"textDocument/%s","params":{"textDocument":%s}}' % (number, method, uri))
    bodies += ['{"id":3,"jsonrpc":"2.0","method":"shutdown"}', '{"jsonrpc":"2.0","method":"exit"}']
    return b"".join(framed(it.encode()) for it in bodies)


def client(port, name, got, number):
    """Runs a session, and keeps what came and whether the server closed."""
    out, end = b"", "closed"
    try:
        with socket.create_connection(("127.0.0.1", port), timeout=15) as it:
            it.sendall(session_of(name))
            while piece := it.recv(65536):
                out += piece
    except socket.timeout:
        end = "not done after 15 seconds"
    except OSError:
        end = "closed"
    got[number] = out, end


def listened(library, program, folder, n):
    """A run of `listen` in which the n-th growth is refused: what the two clients got, and a later one; the status; the growths."""
    counted = os.path.join(folder, "count")
    open(counted, "w").close()
    environment = dict(os.environ, LD_PRELOAD=library, REFUSE_COUNT=counted)
    if n:
        environment["REFUSE_N"] = str(n)
    words = [program, "listen", "--port", "0", "--workers", "1", "--sessions", "3"]
    run = subprocess.Popen(words, env=environment, stdin=subprocess.DEVNULL, stdout=subprocess.PIPE, stderr=subprocess.PIPE)
    got = [(b"", "closed")] * 3
    line = run.stdout.readline()
    if line.startswith(b"listening on"):
        port = int(line.rsplit(b":", 1)[1])
        clients = [threading.Thread(target=client, args=(port, name, got, k)) for k, name in enumerate(("a.proto", "b.proto"))]
        for it in clients:
            it.start()
        for it in clients:
            it.join()
        # A client that could not join is no session, so the server waits for one more.
        for _ in range(3):
            client(port, "c.proto", got, 2)
            if got[2][0]:
                break
        for _ in range(3):
            if run.poll() is None:
                client(port, "d.proto", [None], 0)
    try:
        _, err = run.communicate(timeout=15)
    except subprocess.TimeoutExpired:
        run.kill()
        _, err = run.communicate()
    with open(counted) as it:
        growths = [int(word) for word in it.read().split()] or [0, 0]
    return line, got, run.returncode, err, growths


def replies_of(out):
    """The frames of an output, with no identifiers of results: they number the edits of all clients."""
    bodies, rest = frames_of(out)
    return [re.sub(rb'"resultId":"\d+"', b'"resultId":"?"', it) for it in bodies], rest


def touched(want, got):
    """How a client was touched: `` not at all, else by what, and whether that is allowed."""
    (wanted, _), (bodies, rest), end = replies_of(want), replies_of(got[0]), got[1]
    lost = [k for k, (body, right) in enumerate(zip(bodies, wanted)) if body != right]
    # By `listen` a fixed text is copied as a reply, so it can lack room as well.
    wrong = [k for k in lost if bodies[k] != out_of_memory(wanted[k]) and b"-32801" not in bodies[k]]
    if wrong or len(bodies) > len(wanted) or end != "closed":
        return "wrong: %s %r" % (end, [bodies[k][:100] for k in wrong]), False
    if len(bodies) < len(wanted) or rest:
        return "closed after %d replies" % len(bodies), True
    refused = [k for k in lost if b"-32603" in bodies[k]]
    return ("-32603" if refused else ""), len(refused) < 2


def listen(library, program, folder, step):
    """Refuses each growth of `listen` in a run of its own. Returns whether each run is right."""
    line, got, status, err, growths = listened(library, program, folder, 0)
    if status != 0 or not all(frames_of(out)[0] for out, _ in got):
        print("with nothing refused: status %r, %r, %r" % (status, line, err[-300:]))
        return False
    ends, bad = collections.Counter(), collections.defaultdict(list)
    for n in range(1, growths[0] + 1, step):
        line, found, status, err, _ = listened(library, program, folder, n)
        if not line or status == 5 and err.endswith(NO_MEMORY) and not any(out for out, _ in found):
            how, right = "it did not begin, with status %d" % status, status == 5
        else:
            each = [touched(want[0], it) for want, it in zip(got, found)]
            how = " and ".join(it for it, _ in each if it) or "no client touched"
            right = all(is_right for _, is_right in each) and sum(it != "" for it, _ in each) < 2 and status == 0
            how += "" if status == 0 else ", status %r" % status
        ends[how] += 1
        if not right:
            bad[how, err[-200:]].append(str(n))
    for how, count in ends.most_common():
        print("%6d %s" % (count, how))
    for (how, err), places in bad.items():
        print("wrong in %d runs, as with growth %s: %s: %r" % (len(places), ", ".join(places[:3]), how, err))
    print("%d runs" % sum(ends.values()))
    return not bad


def main():
    words = argparse.ArgumentParser()
    words.add_argument("--each", action="store_true", help="print how many growths of each line were refused")
    words.add_argument("--with", dest="program", help="a program that was built so")
    words.add_argument("--sessions", metavar="PROGRAM")
    words.add_argument("--listen", metavar="PROGRAM")
    words.add_argument("--mode", choices=["from", "every"])
    words.add_argument("--step", type=int, default=1)
    words = words.parse_args()
    with tempfile.TemporaryDirectory() as folder:
        made, right = library(folder), True
        if words.sessions:
            right = sessions(made, words.sessions, folder, words.mode) and right
        if words.listen:
            right = listen(made, words.listen, folder, words.step) and right
        if not words.sessions and not words.listen:
            program = words.program or os.path.join(folder, "refused")
            if not words.program:
                build(folder, program)
            right = calls(made, os.path.abspath(program), folder, words.each)
    return 0 if right else 1


if __name__ == "__main__":
    sys.exit(main())
