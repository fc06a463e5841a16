"""The answers of the server's queries: how a row of cases/ writes one, and the bytes of the reply that it means.

A query is named as the head of a table names it: diagnostics, symbols, descriptors or definitions. The printed JSON has its
keys in the order of their bytes and no blanks, as the server prints it.
"""
import json
import re

ERROR, INFORMATION = 1, 3
RANGE = r"\d+:\d+-(?:\d+:)?\d+"
FINDING = re.compile(r"(info )?(P\d{3}) (%s) (.+)" % RANGE)
ROOT = "file:///"
BETWEEN = re.compile(r"; (?=(?:info )?P\d{3} \d)")
LOCATION = re.compile(r"(\S+) (%s)" % RANGE)


def printed(value):
    """A value as the server prints JSON."""
    return json.dumps(value, ensure_ascii=False, separators=(",", ":"), sort_keys=True)


def uri_of(file):
    """The URI of a file, whose name has no character that a URI would escape."""
    return ROOT + file


def file_at(uri):
    """The file of a URI."""
    return uri[len(ROOT):] if uri.startswith(ROOT) else uri


def range_of(written):
    """The range that a row writes as LINE:START-END, or as LINE:START-LINE:END over several lines."""
    start, end = ([int(word) for word in part.split(":")] for part in written.split("-"))
    end = end if len(end) == 2 else [start[0], end[0]]
    if end < start:
        raise ValueError("the range %s ends before it starts" % written)
    return {"start": {"line": start[0], "character": start[1]}, "end": {"line": end[0], "character": end[1]}}


def shown_range(found):
    """A range as a row writes it."""
    start, end = found["start"], found["end"]
    line = "" if start["line"] == end["line"] else "%d:" % end["line"]
    return "%d:%d-%s%d" % (start["line"], start["character"], line, end["character"])


def finding_of(written):
    """The diagnostic that a row writes as `CODE RANGE MESSAGE`, or as `info CODE RANGE MESSAGE`."""
    match = FINDING.fullmatch(written)
    if not match:
        raise ValueError("`%s` is not of the form [info ]CODE LINE:START-END MESSAGE" % written)
    information, code, where, message = match.groups()
    return {"code": code, "message": message, "range": range_of(where), "source": "proto",
            "severity": INFORMATION if information else ERROR}


def shown_finding(found):
    """A diagnostic as a row writes it."""
    information = "info " if found["severity"] == INFORMATION else ""
    return "%s%s %s %s" % (information, found["code"], shown_range(found["range"]), found["message"])


def diagnostics(want, revision):
    """The result that is a full report of `FINDING; FINDING; ..`, or of none if `want` is `-`."""
    items = [] if want == "-" else [finding_of(part) for part in BETWEEN.split(want)]
    return printed({"items": items, "kind": "full", "resultId": str(revision)})


def definitions(want, _revision):
    """The result that is the place `FILE RANGE`, or null."""
    if want == "null":
        return want
    match = LOCATION.fullmatch(want)
    if not match:
        raise ValueError("`%s` is neither null nor of the form FILE LINE:START-END" % want)
    return printed({"range": range_of(match[2]), "uri": uri_of(match[1])})


def compact(want):
    """The text of JSON that a row gives, which has to be as the server prints it."""
    try:
        value = json.loads(want)
    except ValueError as error:
        raise ValueError("the answer is not JSON: %s" % error) from None
    if printed(value) != want:
        raise ValueError("the answer is JSON with other blanks, escapes or order of keys than the server prints")
    return want


def symbols(want, _revision):
    """The result that is the outline `want`."""
    return compact(want)


def descriptors(want, revision):
    """The result that has the descriptor `want` of a file at a revision."""
    return '{"file":%s,"revision":"%d"}' % (compact(want), revision)


RESULTS = {"diagnostics": diagnostics, "symbols": symbols, "descriptors": descriptors, "definitions": definitions}


def result(query, want, revision):
    """The result of a query, as JSON, that a row writes as `want`. A ValueError says what is wrong with `want`."""
    return RESULTS[query](want, revision)


def shown_result(query, found):
    """A result as a row writes it."""
    if query == "diagnostics":
        return "; ".join(shown_finding(item) for item in found["items"]) or "-"
    if query == "descriptors":
        return printed(found["file"])
    if query == "definitions" and found:
        return "%s %s" % (file_at(found["uri"]), shown_range(found["range"]))
    return printed(found)


def shown(query, body):
    """The body of a reply as a row writes it, or the body itself where no row can write it."""
    try:
        return shown_result(query, json.loads(body)["result"])
    except (ValueError, KeyError, TypeError):
        return body.decode(errors="replace")
