"""Texts of proto3 that the benches parse, each of about so many bytes. `protoc` takes them too."""
import os

HEAD = 'syntax = "proto3";\n\npackage bench.made;\n\noption java_package = "com.example.bench.made";\n'

GROUP = """
// How far record %(n)d is along. The state is set by the service alone.
enum Stage%(n)d {
  option allow_alias = true;
  STAGE_%(n)d_UNKNOWN = 0; // no state yet
  STAGE_%(n)d_STARTED = 1;
  STAGE_%(n)d_BEGUN = 1 [deprecated = true];
  STAGE_%(n)d_ENDED = 2;
}

/* A record, and what is known of it.
 * Fields with an odd number came later. */
message Record%(n)d {
  reserved 15, 20 to 29;
  reserved "old_name", "older_name";

  // The name that people give it.
  string display_name = 1;
  int64 created_at = 2 [json_name = "created", deprecated = true];
  repeated int32 counts = 3 [packed = true];
  map<string, Part> parts = 4;
  optional double weight = 5;
  Stage%(n)d stage = 6;

  /* A part of it. */
  message Part {
    bytes payload = 1;
    repeated .bench.made.Record%(n)d.Part others = 2;
    bool is_last = 3;
  }

  oneof holder {
    string person = 7;
    uint64 machine = 8; // by its number
  }
}

// Reads and writes records.
service Records%(n)d {
  rpc Find(Record%(n)d.Part) returns (stream Record%(n)d);
  rpc Store(stream Record%(n)d) returns (Record%(n)d.Part) {
    option deprecated = true;
  }
}
"""


def proto_text(size):
    """A file of messages with scalar fields, of `size` bytes or a little fewer."""
    parts = ['syntax = "proto3";\n']
    length = len(parts[0])
    number = 0
    while True:
        part = "message Message%d {\n  int32 first = 1;\n  string second_of_them = 2;\n  bool third = 3;\n}\n" % number
        if length + len(part) > size:
            return "".join(parts)
        parts.append(part)
        length += len(part)
        number += 1


def varied_text(size):
    """A file of enums, messages, services, options and comments, of `size` bytes or a little fewer."""
    parts = [HEAD]
    length = len(HEAD)
    while True:
        part = GROUP % {"n": len(parts)}
        if length + len(part) > size:
            return "".join(parts)
        parts.append(part)
        length += len(part)


def texts(size):
    """Texts of about `size` bytes, by title."""
    plain = proto_text(size)
    commented = plain.replace("{\n", "{\n  // What the fields below are for, in a line of words.\n", size // 300)[:size]
    return [("messages of scalar fields", plain),
            ("the same with comments", commented.rsplit("}\n", 1)[0] + "}\n"),
            ("enums, options, services", varied_text(size))]


def written(path, text):
    """The path of the text, when it is a file."""
    os.makedirs(os.path.dirname(path), exist_ok=True)
    with open(path, "w") as sink:
        sink.write(text)
    return path
