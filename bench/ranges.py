"""Edits of files by changes with ranges, for the benches: single ones, and notifications that are as long as they may be."""
from shared import frame, notice

MAX_BODY = 16_777_216
MAX_TEXT = 1_048_576


def change(line, start, end, text):
    """A change of the columns from `start` to `end` of a line. A change with no line sets the whole text."""
    if line is None:
        return {"text": text}
    return {"range": {"start": {"line": line, "character": start}, "end": {"line": line, "character": end}}, "text": text}


def ranged(name, *changes):
    """A notification of a list of changes."""
    return notice("textDocument/didChange", name, contentChanges=list(changes))


def lined(size, length):
    """A text of `size` bytes of comments, in lines of `length` bytes."""
    return ("//" + "x" * (length - 3) + "\n") * (size // length)


def numbers(count, below):
    """`count` numbers below `below`, which are the same in each run."""
    state = 1
    for _ in range(count):
        state = (state * 6364136223846793005 + 1442695040888963407) % (1 << 64)
        yield (state >> 33) % below


def spread(count, lines, columns):
    """Changes of one character each, all over the first `columns` columns of `lines` lines."""
    places = numbers(2 * count, lines * columns)
    for at, other in zip(places, places):
        column = other % columns
        yield change(at // columns, column, column + 1, "y")


def flood(count, size):
    """A notification of one body of at most 16 MiB: a member that sets `size` bytes, `count` small ones, and one that sets no text.

    The text is in 1,000 lines, so that the members are short. The text of the last member is what is left, so the edit is accepted.
    """
    text = lined(size, size // 1000)
    data = ranged("a.proto", change(None, 0, 0, text), *spread(count, 1000, 9), change(None, 0, 0, ""))
    assert len(data) <= MAX_BODY, len(data)
    return data


def scattered(count, line):
    """A text of at most 1 MiB in lines of `line` bytes, and a notification of `count` changes of it, of one character each."""
    text = lined(MAX_TEXT, line)
    return text, ranged("a.proto", *spread(count, len(text) // line, line - 1))
