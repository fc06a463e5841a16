"""Rows of `checks/listen.py`: sessions that end by an error, and servers that do not begin."""
import errno
import os
import socket
import struct

from listen_client import Listener
from messages import frame, notice, opened
from server_process import check, write
from stdio_client import codes
from stdio_lists import BAD

PLACE = {"line": 99, "character": 0}
CHANGE = {"range": {"start": PLACE, "end": PLACE}, "text": "x"}
UNREADABLE = frame({"jsonrpc": "2.0", "method": "textDocument/didOpen", "params": {"textDocument": {"uri": "file:///a.proto", "text": 1}}})
# What a client sends before it ends its output, and the line of its session after `client N: `, if there is one.
ENDS = ((b"\r\n", "the header part has no Content-Length"),
        (b"x" * 4096, "the header part has no end in its first 4096 bytes"),
        (b"Content-Length: 10\r\n\r\n{}", "the input ends inside a frame"),
        (UNREADABLE, "an edit has unreadable parameters"),
        (opened("a.proto", BAD) + notice("textDocument/didChange", "a.proto", contentChanges=[CHANGE]), "the range is bad"),
        (opened("a.proto", " " * 1_048_577), "the text is too long"),
        (b"", None),
        (frame({"jsonrpc": "2.0", "method": "exit"}), None))


def errors_of_sessions(place):
    """A session that ends by an error leaves one line with its client's number, one that ends in order leaves none, and the others go on."""
    server = Listener(place, "--sessions", str(len(ENDS) + 1))
    other = server.begun()
    other.send(opened("other.proto", BAD))
    for data, _ in ENDS:
        client = server.begun()
        client.send(data)
        client.socket.shutdown(socket.SHUT_WR)
        client.be_ended("by a session that has ended")
        client.close()
        check(codes(other.pull("other.proto")), ["P120"], "what another session says")
    other.leave()
    server.end(*("[WARN  pq_server] client %d: %s" % (number, text) for number, (_, text) in enumerate(ENDS, 1) if text))


def reset_connections(place):
    """A session whose client resets the connection leaves its line, and the server goes on."""
    server = Listener(place, "--sessions", "2")
    client = server.begun()
    # A close sends a reset then.
    client.socket.setsockopt(socket.SOL_SOCKET, socket.SO_LINGER, struct.pack("ii", 1, 0))
    client.close()
    server.wait_for_lines(1)
    server.begun().leave()
    server.end("[WARN  pq_server] client 0: a read failed")


def port_is_taken(place):
    """A port that cannot be bound leaves two lines, is not announced, and the status is 4."""
    with socket.create_server(("127.0.0.1", 0)) as taken:
        port = taken.getsockname()[1]
        server = Listener(place, port=port)
        check(server.announced, "", "standard output")
        reason = "%s (os error %d)" % (os.strerror(errno.EADDRINUSE), errno.EADDRINUSE)
        server.end("pq_server: 127.0.0.1:%d: %s" % (port, reason), "pq_server: start failed", status=4)


def unread_libraries(place):
    """A library that cannot be read leaves two lines, after its port was announced, and the status is 4."""
    write(place.folder, {"long/a.proto": " " * 1_048_577})
    reason = "%s (os error %d)" % (os.strerror(errno.ENOENT), errno.ENOENT)
    for name, line in (("nowhere", "nowhere: " + reason), ("long", "long/a.proto: the text has more than 1048576 bytes")):
        path = os.path.join(place.folder, name)
        server = Listener(place, "--lib", path)
        check(server.port is not None, True, "whether the port was announced before " + path)
        server.end("pq_server: " + os.path.join(place.folder, line), "pq_server: start failed", status=4)
