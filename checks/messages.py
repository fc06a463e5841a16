"""Messages of a client of the language server, as the bytes of their frames."""
import json

# The method of each query, by the name that cases/ and the benches use for it.
METHODS = {"diagnostics": "textDocument/diagnostic", "symbols": "textDocument/documentSymbol",
           "descriptors": "proto/descriptor", "definitions": "textDocument/definition"}


def frame(body):
    data = body if isinstance(body, bytes) else json.dumps(body, separators=(",", ":"), ensure_ascii=False).encode()
    return b"Content-Length: %d\r\n\r\n" % len(data) + data


def notice(method, name, **more):
    return frame({"jsonrpc": "2.0", "method": method, "params": dict(more, textDocument={"uri": "file:///" + name})})


def opened(name, text):
    return frame({"jsonrpc": "2.0", "method": "textDocument/didOpen",
                  "params": {"textDocument": {"uri": "file:///" + name, "text": text}}})


def changed(name, text):
    return notice("textDocument/didChange", name, contentChanges=[{"text": text}])


def asked(label, method, name, **more):
    return frame({"id": label, "jsonrpc": "2.0", "method": method,
                  "params": dict(more, textDocument={"uri": "file:///" + name})})


def diagnosed(label, name):
    return asked(label, "textDocument/diagnostic", name)


def withdrawn(label):
    return frame({"jsonrpc": "2.0", "method": "$/cancelRequest", "params": {"id": label}})


FIRST = frame({"id": "first", "jsonrpc": "2.0", "method": "initialize", "params": {}})
LAST = frame({"id": "last", "jsonrpc": "2.0", "method": "shutdown"}) + frame({"jsonrpc": "2.0", "method": "exit"})


def is_request(body):
    """Whether a body of these messages is that of a request."""
    return body.startswith(b'{"id":')


def bodies_of(data):
    """The bodies of the frames of `data`, which has to be whole frames."""
    found, at = [], 0
    while at < len(data):
        head = data.index(b"\r\n\r\n", at)
        length = int(data[at:head].partition(b":")[2])
        at = head + 4 + length
        found.append(data[head + 4:at])
    return found


def read_body(source):
    """The body of the next frame of a stream."""
    length = int(source.readline().partition(b":")[2])
    source.readline()
    return source.read(length)
