"""Shapes of growth: sessions of n of something, and what the cost of each should follow.

A maker returns the messages that come before what is measured, and those that are measured. Makers of the other benches are
used where they have the shape. A shape names what its cost should follow: the count n; the pairs of a file and a file that it
reaches, which n files in a chain have n * n / 2 of; the bytes that are sent or replied; or nothing that grows.
"""
import itertools
from collections import namedtuple

import compile
import engine
import links
import sessions
import workspaces
from compile import number
from shared import FIRST, LAST, METHODS, asked, changed, diagnosed, frame, notice, opened

# Of a session: n, the bytes sent and the bytes replied.
Follows = namedtuple("Follows", "unit amount")
COUNT = Follows("n", lambda n, sent, replied: n)
PAIRS = Follows("pair", lambda n, sent, replied: n * n / 2)
SENT = Follows("byte", lambda n, sent, replied: sent)
REPLIED = Follows("byte replied", lambda n, sent, replied: replied)
NOTHING = Follows("session", lambda n, sent, replied: 1)

# The sizes are n times each of `times`. The cost may grow by `slack` times the growth of what it follows: 1.1 gives 2.2 for a
# doubling of n, and 4.4 for one of pairs. `library` makes the texts of the files under `--lib`, by name; reading them is measured.
Shape = namedtuple("Shape", "title make n follows times slack library", defaults=(COUNT, (1, 2, 4), 1.1, None))
HEAD = 'syntax="proto3";'
EDITS = 10
WORKSPACE, LONG = (1, 10), (1, 10, 40)


def inside(session):
    """A whole session of another bench, nothing of which comes before what is measured."""
    return b"", session[len(FIRST):-len(LAST)]


def one_file(text, query="diagnostics"):
    return b"", opened("a.proto", text) + asked(1, METHODS[query], "a.proto")


def files_opened(files):
    return b"".join(opened(*file) for file in files)


def each_asked(names):
    return b"".join(diagnosed(i, name) for i, name in enumerate(names))


# Texts.

def of_compile(title, make, query, n):
    """A case of bench/compile.py, a tenth as large."""
    query = {"Diagnostics": "diagnostics", "Descriptor": "descriptors", "Symbols": "symbols"}[query]
    return Shape("%s: %s" % (title, query), lambda n: one_file(make(n)[0], query), n // 10)


def package(parts, references, found):
    """A package of so many parts, and so many references."""
    text = compile.deep_package(parts, references)[0]
    return one_file(text.replace("N x", "M x") if found else text)


def long_part(n):
    """A package of one part of n bytes, and n / 10 references to a message in it."""
    return one_file(compile.deep_package(1, n // 10)[0].replace("package a", "package " + "a" * n).replace("N x", "M x"))


def beside(package, text):
    """The text beside a file of this package, which it imports, or alone if there is none."""
    if package is None:
        return one_file(text)
    before, measured = one_file(text.replace(HEAD, HEAD + 'import "b.proto";', 1))
    return before, opened("b.proto", HEAD + "package " + package + ";") + measured


def half_package(part, name, apart=False, longer=False):
    """Texts of n bytes: half is a package of such parts, the rest references to a name, each in a message of its own or not. A file
    of a longer package can be visible, too."""
    def text(n):
        package = ".".join([part(n)] * (n // 2 // (len(part(n)) + 1)))
        start = HEAD + "package " + package + ";"
        field = ("message M%(n)d{" + name + " x=1;}") if apart else (name + " x%(n)d=%(field)d;")
        fields = itertools.takewhile(lambda at: at[0] < n, accumulated(field, len(start)))
        inner = "".join(more for _, more in fields)
        return beside(package + ".P.Q" if longer else None, start + (inner if apart else "message M{" + inner + "}"))
    return text


def parts_apart(at, name="N", leaves=False):
    """Texts of n bytes: half is a package of parts that differ, the rest references to a name in the part of them at this place,
    from 0 to 1. The part can be one of another file's package instead, which goes another way from there."""
    def text(n):
        parts = ["p%d" % i for i in range(n // 14)]
        before = int(at * (len(parts) - 1))
        first = "q" if leaves else parts[before]
        start = HEAD + "package " + ".".join(parts) + ";message M{"
        field = first + "." + name + " x%(n)d=%(field)d;"
        fields = itertools.takewhile(lambda at: at[0] < n, accumulated(field, len(start)))
        return beside(".".join(parts[:before] + ["q"]) if leaves else None, start + "".join(more for _, more in fields) + "}")
    return text


def in_an_index(name):
    """Texts of n bytes: half is a package of short parts, the rest references to a name. Five small files are visible too, so an
    index of the names of all files is made."""
    def text(n):
        start = HEAD + "".join('import "f%d";' % i for i in range(5)) + "package " + ".".join("a" * (n // 4)) + ";message M{"
        fields = itertools.takewhile(lambda at: at[0] < n, accumulated(name + " x%(n)d=%(field)d;", len(start)))
        before, measured = one_file(start + "".join(more for _, more in fields) + "}")
        return before, files_opened(("f%d" % i, HEAD + "message F%d{}" % i) for i in range(5)) + measured
    return text


def found_around(n):
    """A text of n bytes: half is a package, the rest references to a message of a visible file of the package around it."""
    package = ".".join("a" * (n // 4))
    start = HEAD + 'import "b.proto";package ' + package + ".q;message Z{"
    fields = itertools.takewhile(lambda at: at[0] < n, accumulated("M x%(n)d=%(field)d;", len(start)))
    before, measured = one_file(start + "".join(more for _, more in fields) + "}")
    return before, opened("b.proto", HEAD + "package " + package + ";message M{}") + measured


def beside_files(k, package, field, other, inner):
    """Texts of n bytes: half is a package, the rest references. k files are visible that have a package of the same length and
    messages."""
    def text(n):
        long = "a" * (n // 2)
        start = HEAD + "".join('import "f%d";' % i for i in range(k)) + "package " + package % long + ";message M{"
        fields = itertools.takewhile(lambda at: at[0] < n, accumulated(field, len(start)))
        before, measured = one_file(start + "".join(more for _, more in fields) + "}")
        return before, files_opened(("f%d" % i, HEAD + "package " + other % long + ";" + inner(n)) for i in range(k)) + measured
    return text


def apart(k):
    """The packages differ in the first byte. A message there has the name that is referred to, which is nothing here."""
    return beside_files(k, "y%s", "T x%(n)d=%(field)d;", "x%s", lambda n: "message T{message T{}}")


def leaves(k, others=lambda n: 0):
    """Dotted names that leave the package in its last part, and are found in the visible files. These have other messages, too."""
    return beside_files(k, "%s.a", "b.X x%(n)d=%(field)d;", "%s.b",
                        lambda n: "message X{}" + "".join("message Y%d{}" % i for i in range(others(n))))


def nested_in_half(n):
    """A text of n bytes: half is a package of short parts, the rest references in messages nested 60 deep, each with a field of
    the reference's name."""
    start = HEAD + "package " + ".".join(["a"] * (n // 4)) + ";message X{}" + "message M{int32 X=536870911;" * 60
    fields = itertools.takewhile(lambda at: at[0] < n - 60, accumulated("X x%(n)d=%(field)d;", len(start)))
    return one_file(start + "".join(more for _, more in fields) + "}" * 60)


def long_message(inner, field, package=lambda name: None):
    """Texts of n bytes: half is the name of a message, which has `inner`, and fields or messages like `field`. `package` gives the
    package of another visible file, by that name."""
    def text(n):
        start = HEAD + "message X{}message " + "M" * (n // 2) + "{" + inner
        ends = "}" * (1 + inner.count("message M{"))
        fields = itertools.takewhile(lambda at: at[0] < n - len(ends), accumulated(field, len(start)))
        return beside(package("M" * (n // 2)), start + "".join(more for _, more in fields) + ends)
    return text


def inside_all(name):
    """A package inside a message of this name, and inside 60 messages M, each in the one before."""
    return ".".join([name] + ["M"] * 60 + ["P" * len(name)])


def copies_in_long(copy):
    """Texts of n bytes: half is the name of a message, the rest copies of other messages in it. The definition at a place that
    has none is asked: diagnostics would have the long name in each error."""
    def text(n):
        start = HEAD + "message " + "M" * (n // 2) + "{"
        whole = start + copy * ((n - len(start)) // len(copy)) + "}"
        return b"", opened("a.proto", whole) + asked(1, METHODS["definitions"], "a.proto", position={"line": 0, "character": 0})
    return text


def accumulated(field, length):
    """The texts of fields, each with the length of what ends in it."""
    for i in itertools.count(1):
        more = field % {"n": i, "field": number(i)}
        length += len(more)
        yield length, more


def equal_messages(n):
    """n equal messages in a package of 10 n bytes: each error has the full name."""
    return one_file(HEAD + "package " + "a" * (10 * n) + ";" + "message M{}" * n)


def messages_in(package):
    """n messages in a package of 20 n bytes, and no reference."""
    return lambda n: one_file(HEAD + "package " + package(20 * n) + ";" + "".join("message M%d{}" % i for i in range(n)))


def long_names(n):
    """The descriptor of n references in a package of 10 n bytes: each has the full name of its type."""
    return one_file(compile.references(n)[0].replace("a.b", "a" * (10 * n)), "descriptors")


def repeated(text, n, query="diagnostics"):
    """n times a text, which has its number in it."""
    return one_file(HEAD + "message M{}" + "".join(text % {"n": i, "field": number(i + 1)} for i in range(n)), query)


def in_message(text, n, query="diagnostics"):
    """n times a text inside a message."""
    inner = "".join(text % {"n": i, "field": number(i + 1)} for i in range(n))
    return one_file(HEAD + "message M{" + inner + "}", query)


def dotted(n):
    """A reference of n parts."""
    return one_file(HEAD + "message M{" + ".".join("a" * n) + " x=1;}")


def escapes(n):
    """An option whose value is n strings, each with an escape."""
    return one_file(HEAD + "option a=" + r'"x\n" ' * n + ";", "descriptors")


def aggregate(n):
    """An option whose value is an aggregate of n parts."""
    return one_file(HEAD + "option (a)={" + "".join("x%d: 1 " % i for i in range(n)) + "};", "descriptors")


def definitions(n, between):
    """n definitions, each of another reference of one message. `between` parts the references."""
    fields = ["M f%d=%d;%s" % (i, number(i), between) for i in range(1, n + 1)]
    starts = itertools.accumulate(map(len, fields[:-1]), initial=len(HEAD + "message M{"))
    places = [(0, at) for at in starts] if not between else [(i, 0) for i in range(1, n)]
    asks = (asked(i, METHODS["definitions"], "a.proto", position={"line": line, "character": at})
            for i, (line, at) in enumerate(places))
    return opened("a.proto", HEAD + "message M{" + "".join(fields) + "}") + diagnosed("all", "a.proto"), b"".join(asks)


# Files that one file imports.

def visible(n, same, named):
    """n files of one package, or of n, and one that imports all. It names the type of each, or as many that are nowhere."""
    packages = ["q" if same else "q%d" % i for i in range(n)]
    files = [("f%d" % i, HEAD + "package %s;message T%d{}" % (packages[i], i)) for i in range(n)]
    text = HEAD + "package q;" + "".join('import "f%d";' % i for i in range(n))
    text += "".join("message U%d{%s.%s%d x=1;}" % (i, packages[i], named, i) for i in range(n))
    return b"", files_opened(files) + opened("top", text) + diagnosed(1, "top")


def defined_beside(n):
    """n messages of one file beside n files of its package, which it imports."""
    files = [("f%d" % i, HEAD + "package q;message T%d{}" % i) for i in range(n)]
    text = HEAD + "package q;" + "".join('import "f%d";message U%d{}' % (i, i) for i in range(n))
    return b"", files_opened(files) + opened("top", text) + diagnosed(1, "top")


# Libraries.

def library(name, n):
    """n files, by their names in a folder."""
    return {name % i: HEAD + "message M%d{}" % i for i in range(n)}


def nothing_sent(n):
    return b"", b""


def library_asked(n):
    """A file that imports the n files of a library."""
    return b"", opened("top", HEAD + "".join('import "f%d.proto";' % i for i in range(n))) + diagnosed(1, "top")


# Graphs of imports. Each maker gives the files, and then the one that is asked where one is asked.

def importing(i, imports):
    """A file that imports others."""
    return "f%d" % i, HEAD + "package p%d;" % i + "".join('import "f%d";' % k for k in imports) + "message M{}"


def of_links(make):
    """The files of a case of bench/links.py."""
    def files(n):
        text, _, first = make(n)
        return [line.split(": ", 1) for line in text.splitlines()], first
    return files


def ladder(n):
    """Each file imports the next two."""
    return [importing(i, range(i + 1, min(i + 3, n))) for i in range(n)], "f0"


def layers(n):
    """Layers of 16 files, each of which imports the whole layer below."""
    return [importing(i, range(i // 16 * 16 + 16, min(i // 16 * 16 + 32, n))) for i in range(n)], "f0"


def binary_tree(n):
    """Each file imports two below it."""
    return [importing(i, range(2 * i + 1, min(2 * i + 3, n))) for i in range(n)], "f0"


def public(make):
    """The same files with public imports."""
    def files(n):
        found, first = make(n)
        return [(name, text.replace("import ", "import public ")) for name, text in found], first
    return files


def asks_one(make):
    def session(n):
        files, first = make(n)
        return b"", files_opened(files) + diagnosed(1, first)
    return session


def asks_all(make):
    def session(n):
        files, _ = make(n)
        return b"", files_opened(files) + each_asked(name for name, _ in files)
    return session


def ring_cut(asks_each):
    """A ring of n files is cut and closed again. The file behind the cut is asked each time, or all are."""
    def session(n):
        names = ["r%d.proto" % i for i in range(n)]
        texts = [engine.ring_text(i, n) for i in range(n)]
        asks = each_asked(names if asks_each else [names[n // 2]])
        last = n // 2 - 1
        rounds = (changed(names[last], text) + asks for text in (engine.ring_text(last, n, True), texts[last]))
        return files_opened(zip(names, texts)) + asks, b"".join(rounds)
    return session


# A graph: its title, its files, what its cost follows, and n.
GRAPHS = [("a chain", of_links(links.chain), PAIRS, 64),
          ("a public chain", public(of_links(links.chain)), PAIRS, 64),
          ("a ladder", ladder, PAIRS, 64),
          ("a public ladder", public(ladder), PAIRS, 64),
          ("layers of 16", layers, PAIRS, 64),
          ("a comb", of_links(links.comb), PAIRS, 32),
          ("each file imports all before it", of_links(links.all_before), PAIRS, 16),
          ("each file publicly imports all before it", public(of_links(links.all_before)), PAIRS, 16),
          ("a star", of_links(links.star), COUNT, 100),
          ("a binary tree", binary_tree, COUNT, 100),
          ("a ring", of_links(links.ring), COUNT, 64)]


# Edits.

def workspace(case, rounds):
    """So many rounds of a case of bench/workspaces.py among n files."""
    def session(n):
        side = workspaces.Side(None, "", case, n)
        return side.opens[len(FIRST):], b"".join(map(side.round, range(rounds)))
    return session


def of_workspaces(title, case):
    """The root reaches all files, and a leaf the hub alone. A round where nothing changed costs so little that one copy of a
    buffer, which comes at some sizes and not at others, costs as much as ten of them: there are a hundred."""
    quiet = "nothing changed" in title
    rounds = 10 * EDITS if quiet else EDITS
    flat = quiet or title.startswith("a leaf")
    return Shape("%s, %d rounds" % (title, rounds), workspace(case, rounds), 100, *((NOTHING, WORKSPACE, 1.3) if flat else (COUNT, WORKSPACE)))


def bottom_comment(n):
    """A comment at the bottom of a chain is edited, and the top is asked."""
    files, first = of_links(links.chain)(n)
    name, text = files[-1]
    rounds = (changed(name, text + "//" + "x" * i) + diagnosed(i, first) for i in range(EDITS))
    return files_opened(files) + diagnosed("all", first), b"".join(rounds)


def hub_edited(n):
    """The message of a file that n import is edited, and all are asked."""
    files = [("f%d" % i, HEAD + 'import "hub";message M%d{T x=1;}' % i) for i in range(n)]
    asks = each_asked(name for name, _ in files)
    rounds = (changed("hub", HEAD + "message T{int32 a%d=1;}" % i) + asks for i in range(2))
    return opened("hub", HEAD + "message T{}") + files_opened(files) + asks, b"".join(rounds)


def comes_and_goes(n):
    """A file that another imports comes and goes n times, and the other is asked each time."""
    rounds = (opened("b", HEAD + "message T{}") + diagnosed(i, "a") + notice("proto/removeFile", "b") + diagnosed(i, "a")
              for i in range(n))
    return opened("a", HEAD + 'import "b";message M{T x=1;}'), b"".join(rounds)


def edited_often(n):
    """One file is edited n times, and asked each time."""
    return inside(sessions.requests(n, "textDocument/diagnostic", True))


def absent_names(n):
    """n names that were never opened are asked once."""
    return b"", each_asked("absent%d.proto" % i for i in range(n))


# Messages.

def ignored(body):
    """A notification that the server ignores, whose parameter is this JSON."""
    return b"", frame(b'{"jsonrpc":"2.0","method":"x","params":' + body + b"}")


def nested_json(start, end, n):
    """A list of n towers of 100 lists or objects."""
    return ignored(b"[" + b",".join([start * 100 + b"0" + end * 100] * n) + b"]")


def flat_json(item, n):
    """A list of n equal items."""
    return ignored(b"[" + b",".join([item] * n) + b"]")


def long_body(n):
    """A body of nearly n MiB, which is one string. A body has at most 16 MiB."""
    return ignored(b'{"p":"' + b"a" * ((n << 20) - 100) + b'"}')


def many_changes(n):
    """One notification with n changes of one file, of which the last counts."""
    return opened("a", ""), notice("textDocument/didChange", "a", contentChanges=[{"text": HEAD}] * n)


TEXTS = [of_compile(*case) for case in compile.CASES] + [
    Shape("a package of n parts, no reference", lambda n: package(n, 0, True), 2_000),
    Shape("a package of n parts, 10 references found", lambda n: package(n, 10, True), 500),
    Shape("a package of n parts, 10 references to nothing", lambda n: package(n, 10, False), 250),
    Shape("a package of 100 parts, n references found", lambda n: package(100, n, True), 250),
    Shape("a package of 100 parts, n references to nothing", lambda n: package(100, n, False), 100),
    Shape("a package of n parts, n references found", lambda n: package(n, n, True), 100),
    Shape("a package of n parts, n references to nothing", lambda n: package(n, n, False), 50),
    Shape("a package of one part of n bytes, n / 10 references", long_part, 2_500),
    Shape("n bytes: half a package of short parts, references to nothing", half_package(lambda n: "a", "N"), 250_000),
    Shape("n bytes: half a package of one part, references to nothing", half_package(lambda n: "a" * (n // 2 - 1), "N"), 250_000),
    Shape("n bytes: half a package of 17 parts, references to nothing", half_package(lambda n: "a" * (n // 34 - 1), "N"), 250_000),
    Shape("n bytes: half a package, messages of one reference to nothing", half_package(lambda n: "a", "N", True), 250_000),
    Shape("n bytes: half a package, references found", half_package(lambda n: "a", "M"), 25_000),
    Shape("n bytes: half a package, dotted names whose first part is found", half_package(lambda n: "a", "M.N"), 25_000),
    Shape("n bytes: half a package, references in messages nested 60 deep", nested_in_half, 25_000),
    Shape("n bytes: half a message's name, references to nothing in it", long_message("", "N x%(n)d=%(field)d;"), 25_000),
    Shape("n bytes: half a message's name, messages of one reference in it", long_message("", "message N%(n)d{X x=1;}"), 25_000),
    Shape("n bytes: half a message's name, such messages nested 60 deep in it",
          long_message("message M{" * 60, "message N%(n)d{X x=1;}"), 25_000),
    Shape("n bytes: half a message's name, references to a field of it", long_message("int32 X=536870911;", "X x%(n)d=%(field)d;"), 25_000),
    Shape("n bytes: half a message's name, references to fields of messages nested 60 deep in it",
          long_message("message M{int32 X=536870911;" * 60, "X x%(n)d=%(field)d;"), 25_000),
    Shape("n bytes: half a message's name, messages of one reference to such fields",
          long_message("message M{int32 X=536870911;" * 60, "message N%(n)d{X x=1;}"), 25_000),
    Shape("n bytes: half a message's name, references to nothing nested 60 deep in it, beside a longer package",
          long_message("message M{" * 60, "N x%(n)d=%(field)d;", lambda name: "P" + name * 2), 25_000),
    Shape("n bytes: half a message's name, references to nothing nested 60 deep in it, beside a package inside all of these",
          long_message("message M{" * 60, "N x%(n)d=%(field)d;", inside_all), 25_000),
    Shape("n bytes: half a message's name, dotted names nested 60 deep in it, beside a package inside all of these",
          long_message("message X{}" + "message M{" * 60, "X.N x%(n)d=%(field)d;", inside_all), 25_000),
    Shape("n bytes: half a message's name, messages of one reference in it, beside a package inside it",
          long_message("", "message N%(n)d{X x=1;}", inside_all), 25_000),
    Shape("n bytes: half a package, references to nothing, beside a longer package", half_package(lambda n: "a", "N", longer=True), 25_000),
    Shape("n bytes: half a package, dotted names whose first part is found, beside a longer package",
          half_package(lambda n: "a", "M.N", longer=True), 25_000),
    Shape("n bytes: half a package, dotted names whose first part is a package", half_package(lambda n: "a", "a.N"), 25_000),
    Shape("n bytes: half a package, dotted names whose first part is a package, found", half_package(lambda n: "a", "a.M"), 25_000),
    Shape("n bytes: half a package of parts that differ, dotted names whose first part is a package, its last", parts_apart(1), 25_000),
    Shape("n bytes: half a package of parts that differ, dotted names whose first part is a package, its last, found",
          parts_apart(1, "M"), 25_000),
    Shape("n bytes: half a package of parts that differ, dotted names whose first part is a package, the one in the middle",
          parts_apart(0.5), 25_000),
    Shape("n bytes: half a package of parts that differ, dotted names whose first part is a package, another file's",
          parts_apart(0.9, leaves=True), 25_000),
    Shape("n bytes: half a package, references found in a file of the package around it", found_around, 25_000),
    Shape("n bytes: half a package, beside a file of another as long, references to its names", apart(1), 25_000),
    Shape("n bytes: half a package, beside five files of another as long, references to their names", apart(5), 25_000),
    Shape("n bytes: half a package, dotted names that leave it, found", leaves(1), 25_000),
    Shape("n bytes: half a package, beside five files, dotted names that leave it, found", leaves(5), 25_000),
    Shape("n bytes: half a package, beside five files of n / 50 messages each, dotted names that leave it, found",
          leaves(5, lambda n: n // 50), 25_000),
    Shape("n bytes: half a package, beside five files, references found", in_an_index("M"), 25_000),
    Shape("n bytes: half a package, beside five files, references to nothing", in_an_index("N"), 25_000),
    Shape("n bytes: half a package, beside five files, dotted names whose first part is found", in_an_index("M.N"), 25_000),
    Shape("n bytes: half a package, beside five files, dotted names whose first part is a package, found", in_an_index("a.M"), 25_000),
    Shape("n bytes: half a message's name, copies of two messages in it: a definition", copies_in_long("message A{message A{}}"), 25_000),
    Shape("n bytes: half a message's name, copies of messages nested 60 deep in it: a definition",
          copies_in_long("message A{" * 60 + "}" * 60), 25_000),
    Shape("n equal messages in a package of 10 n bytes", equal_messages, 250, REPLIED),
    Shape("n references in a package of 10 n bytes: descriptors", long_names, 250, REPLIED),
    Shape("n messages in a package of one part of 20 n bytes", messages_in(lambda length: "a" * length), 1_000),
    Shape("n messages in a package of 20 n bytes, of short parts", messages_in(lambda length: "a" + ".a" * (length // 2)), 1_000),
    Shape("messages", lambda n: repeated("message M%(n)d{}", n), 1_000),
    Shape("messages: symbols", lambda n: repeated("message M%(n)d{}", n, "symbols"), 1_000),
    Shape("equal messages", lambda n: repeated("message M{}", n), 1_000),
    Shape("services", lambda n: repeated("service S%(n)d{}", n), 1_000),
    Shape("options of a file: descriptors", lambda n: repeated("option (a.b%(n)d)=1;", n, "descriptors"), 1_000),
    Shape("lines that are not ASCII", lambda n: repeated("message M%(n)d{}//\u00e9\n", n), 1_000),
    Shape("optional fields: descriptors", lambda n: in_message("optional int32 f%(n)d=%(field)d;", n, "descriptors"), 500),
    Shape("lines, a diagnostic each", lambda n: in_message("int32 f%(n)d=0;\n", n), 1_000),
    Shape("a reference of n parts", dotted, 5_000),
    Shape("a string of n escapes: descriptors", escapes, 5_000),
    Shape("an aggregate of n parts: descriptors", aggregate, 1_000),
    Shape("n definitions on one line", lambda n: definitions(n, ""), 250),
    Shape("n definitions, a line each", lambda n: definitions(n, "\n"), 250),
    Shape("n types of n visible files of one package", lambda n: visible(n, True, "T"), 60),
    Shape("n types of n visible files of n packages", lambda n: visible(n, False, "T"), 60),
    Shape("n types that are nowhere, n visible files of one package", lambda n: visible(n, True, "N"), 60),
    Shape("n types that are nowhere, n visible files of n packages", lambda n: visible(n, False, "N"), 60),
    Shape("n messages beside n visible files of their package", defined_beside, 100),
    Shape("one import n times", lambda n: asks_one(of_links(links.repeated))(n), 2_000)]

ASKED = [Shape("%s, %s asked" % (title, which), asks(files), n, follows)
         for title, files, follows, n in GRAPHS for which, asks in (("one", asks_one), ("all", asks_all))]

CHANGES = [of_workspaces(*case) for case in workspaces.CASES] + [
    Shape("a ring cut and closed, one asked", ring_cut(False), 32, PAIRS),
    Shape("a ring cut and closed, all asked", ring_cut(True), 32, PAIRS),
    Shape("a comment at the bottom of a chain, the top asked", bottom_comment, 64),
    Shape("a file that n import is edited, all asked", hub_edited, 100),
    Shape("a file comes and goes n times", comes_and_goes, 250),
    Shape("one file edited n times", edited_often, 100),
    Shape("asks of n absent names", absent_names, 500)]

MESSAGES = [
    Shape("a body of n MiB", long_body, 4, SENT),
    Shape("JSON: towers of 100 objects", lambda n: nested_json(b'{"":', b"}", n), 250, SENT),
    Shape("JSON: towers of 100 lists", lambda n: nested_json(b"[", b"]", n), 250, SENT),
    Shape("JSON: n objects of one member", lambda n: flat_json(b'{"":0}', n), 25_000, SENT),
    Shape("JSON: n lists of one number", lambda n: flat_json(b"[0]", n), 25_000, SENT),
    Shape("JSON: n numbers", lambda n: flat_json(b"1", n), 50_000, SENT),
    Shape("n small requests", lambda n: inside(sessions.small_requests(n)), 500),
    Shape("one notification with n changes", many_changes, 1_000)]

LIBRARIES = [
    Shape("a library of n files", nothing_sent, 1_000, library=lambda n: library("f%d.proto", n)),
    Shape("a library of n folders", nothing_sent, 1_000, library=lambda n: library("d%d/a.proto", n)),
    Shape("a library of n files that are not read", nothing_sent, 1_000, library=lambda n: library("f%d.txt", n)),
    Shape("a library of n files, one that imports all asked", library_asked, 1_000, library=lambda n: library("f%d.proto", n))]

SHAPES = TEXTS + ASKED + CHANGES + MESSAGES + LIBRARIES
