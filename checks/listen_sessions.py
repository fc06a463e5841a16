"""Rows of `checks/listen.py`: which connections become sessions, what a late reader gets, when the port is closed, and how sessions
linger."""
import fcntl
import functools
import json
import socket
import struct
import termios
import time

from listen_client import Listener
from messages import FIRST, diagnosed, opened
from server_process import LONGEST, Failed, check, end_servers, uri_of
from stdio_client import codes
from stdio_lists import BAD, HEAD

# The clients that may be open, and the sessions that may linger.
MOST_OPEN = 64
MOST_LINGERING = 64
# The times of the server, in seconds: between two lines of connections that are turned away, and for which a session lingers.
BETWEEN_LINES = 1.0
LINGERING = 2.0
# More bytes than a connection holds that nobody has read: a write of them ends once the server has taken some in.
MORE_THAN_HELD = 1 << 23
# How often a row is tried that has to be faster than those times.
ATTEMPTS = 10
# Requests whose replies, every other one of 16,384 bytes or more, are more than that by far.
LATE = 600
LONG_BAD = HEAD + "message M { int32 a = 0; }\n" * 80
# For how long nothing more has to come until nothing more is expected, in seconds.
QUIET = 0.3
TURNED_AWAY = "[WARN  pq_server] a connection was turned away: 64 clients are open"
NO_LENGTH = "[WARN  pq_server] client %d: the header part has no Content-Length"


class TooSlow(Exception):
    """What was found can be due to a machine that was slow."""


def in_time(row):
    """The row, which is tried again, over a new server, where it was too slow."""
    @functools.wraps(row)
    def tried(place):
        for _ in range(ATTEMPTS):
            try:
                return row(place)
            except TooSlow as slow:
                why = slow
                end_servers()
        raise Failed("%s, each of %d times" % (why, ATTEMPTS))
    return tried


def seconds_since(start):
    return time.monotonic() - start


def be_within(seconds, start, what):
    if seconds_since(start) >= seconds:
        raise TooSlow("%s %.1f seconds" % (what, seconds))


# ---- connections


@in_time
def turned_away(place):
    """Two connections that are turned away at one time leave one line, are closed unanswered, and are no sessions."""
    server = Listener(place, "--sessions", str(MOST_OPEN + 2))
    clients = [server.begun() for _ in range(MOST_OPEN)]
    start = time.monotonic()
    beyond = [server.connected(), server.connected()]
    beyond[1].send(FIRST)
    for client in beyond:
        client.be_ended("while 64 clients are open")
    replace(server, clients)
    # The server has accepted one more, so it has left the lines of those before.
    be_within(BETWEEN_LINES, start, "two connections were not turned away within")
    time.sleep(BETWEEN_LINES * 1.1)
    server.connected().be_ended("more than a second later")
    replace(server, clients)
    for client in clients:
        client.leave()
    server.end(TURNED_AWAY, TURNED_AWAY)


def replace(server, clients):
    """One of the clients ends its session, and another one begins in its place."""
    clients.pop(0).leave()
    clients.append(server.begun())


def other_roots(place):
    """A root that is not the folder of the library leaves its line, and one that is, or no root or no library, leaves none."""
    other = place.folder + "/a\nb"
    roots = [{}, {"rootUri": uri_of(place.folder)}, {"rootUri": uri_of(place.folder + "/")}, {"rootUri": uri_of(other)}]
    line = "[WARN  pq_server] client 3: the root folder %s is not the library's folder %s" % (other.replace("\n", "\\n"), place.folder)
    for words, lines in ((["--lib", place.folder], [line]), (["--lib", place.folder + "/"], [line]), ([], [])):
        server = Listener(place, "--sessions", str(len(roots)), *words)
        for client in [server.begun(**root) for root in roots]:
            client.leave()
        server.end(*lines)


def last_session(place):
    """The port is closed once the last session was accepted, while sessions run on, and the status is 0."""
    server = Listener(place, "--sessions", "2")
    clients = [server.begun(), server.begun()]
    be_refused(server)
    clients[0].send(opened("a.proto", BAD))
    for client in clients:
        check(codes(client.pull("a.proto")), ["P120"], "what a session says after the port is closed")
    for client in clients:
        client.leave()
    server.end()


def be_refused(server):
    """Waits until a connection is refused. Those before it were made, and nobody accepts them."""
    start = time.monotonic()
    while seconds_since(start) < LONGEST / 2:
        try:
            socket.create_connection(("127.0.0.1", server.port), timeout=1).close()
        except ConnectionRefusedError:
            return
        except OSError:
            # The port was closed while the connection was made, or too many wait there.
            pass
        time.sleep(0.02)
    raise Failed("the port is open after the last session")


# ---- replies


def late_reader(place):
    """A client that reads once its requests are sent and its output has ended gets the reply of each, in order."""
    server = Listener(place, "--sessions", "1")
    client = server.begun()
    client.send(opened("long.proto", LONG_BAD) + opened("a.proto", BAD))
    client.send(b"".join(diagnosed(label, ("a.proto", "long.proto")[label % 2]) for label in range(LATE)))
    client.socket.shutdown(socket.SHUT_WR)
    # The writer of the session waits for room then, and the outbox and the window are full.
    start, before = time.monotonic(), 0
    while (held := bytes_held(client.socket)) == 0 or held != before:
        if seconds_since(start) > LONGEST / 2:
            raise Failed("what comes to a client that reads nothing did not come to a stop")
        before = held
        time.sleep(QUIET)
    for label in range(LATE):
        reply = json.loads(client.bodies(1)[0])
        check((reply["id"], len(reply["result"]["items"]) > 1), (label, label % 2 == 1), "the next reply")
    client.be_ended("after the last reply")
    client.close()
    server.end()


def bytes_held(stream):
    """How many bytes have come on a connection that were not read."""
    return struct.unpack("i", fcntl.ioctl(stream, termios.FIONREAD, bytes(4)))[0]


# ---- lingering


def lingering(place):
    """A session that has ended is closed after two seconds, though its client sends on, and not at once."""
    server = Listener(place, "--sessions", "2")
    silent, client = server.begun(), server.begun()
    silent.exit()
    start = time.monotonic()
    client.exit()
    while not client.is_cut():
        if seconds_since(start) > LONGEST / 2:
            raise Failed("a session whose client sends on lingers after %d seconds" % (LONGEST / 2))
        time.sleep(LINGERING / 4)
    if seconds_since(start) < LINGERING * 0.75:
        raise Failed("the session lingered for %.2f seconds" % seconds_since(start))
    server.end()


@in_time
def oldest_is_cut(place):
    """Of 65 sessions that linger the oldest is cut, and no other; they keep no client out."""
    server = Listener(place, "--sessions", str(MOST_LINGERING + 2))
    first, *others = [server.begun() for _ in range(MOST_OPEN)]
    start = time.monotonic()
    end_by_errors(first)
    be_lingering(first)
    end_by_errors(*others)
    others.append(server.connected())
    end_by_errors(others[-1])
    client = server.begun()
    while not first.is_cut():
        be_within(LINGERING * 0.75, start, "the first of 65 that linger was not cut within")
        time.sleep(0.02)
    for other in others:
        other.is_cut()
    time.sleep(LINGERING * 0.1)
    cut = [number for number, other in enumerate(others, 1) if other.is_cut()]
    be_within(LINGERING * 0.95, start, "whether another one was cut was not seen within")
    check(cut, [], "which others are cut")
    for it in [client, first, *others]:
        it.close()
    status, lines = server.left()
    check(sorted(lines), sorted(NO_LENGTH % number for number in range(MOST_LINGERING + 1)), "the lines of standard error")
    check(status, 0, "the status")


def end_by_errors(*clients):
    """The sessions of these clients end, since each sends a header part without a length."""
    for client in clients:
        client.send(b"\r\n")
    for client in clients:
        client.be_ended("after a header part without a length")


def be_lingering(client):
    """Waits until the session lingers: nothing else takes in what its client sends after the end."""
    try:
        client.send(bytes(MORE_THAN_HELD))
    except OSError as failed:
        raise TooSlow("the first session did not take in what its client sent on: %s" % failed)
