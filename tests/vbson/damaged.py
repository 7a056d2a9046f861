"""Two hundred small documents, each cut at each place and with each bit turned: what the library must report of each, by the
checker of tests/fuzz (bson_bytes.py), as lines and answers of documents.py."""
import random
import sys
from collections import Counter
from pathlib import Path

sys.path.append(str(Path(__file__).resolve().parents[1] / "fuzz"))

import bson_bytes
import byte_strings
import vbson
from documents import KINDS

DOCUMENTS, MOST_BYTES = 200, 60
# Fewer than one of any other kind is a sign that some are not met. (Neither a cut nor a bit makes a document that nests
# deeper, or bytes after one that is whole.)
LEAST = {"Depth": 0, "Trailing": 0}


def documents():
    """Small documents, of which each kind is one's."""
    found, generator = [], random.Random(7)
    while len(found) < DOCUMENTS:
        data, _ = byte_strings.Maker(generator).document(2)
        if 5 < len(data) <= MOST_BYTES:
            found.append(data)
    return found


def damages(data):
    for length in range(len(data)):
        yield data[:length]
    for at in range(8 * len(data)):
        yield data[:at // 8] + bytes([data[at // 8] ^ 1 << at % 8]) + data[at // 8 + 1:]


def of_string(data, seen):
    """The calls on a string, and the answers."""
    digits = data.hex()
    try:
        value = bson_bytes.meaning(data)
    except bson_bytes.Fault as fault:
        seen[fault.name] += 1
        words = f"not a document at byte {fault.place} ({KINDS[fault.name]})"
        return [(f"explain {digits}", f"0 {words.encode().hex()}"), (f"show {digits}", f"{vbson.NOT_A_DOCUMENT} ")]
    seen["a document"] += 1
    try:
        shown = bson_bytes.shown(value)
    except bson_bytes.HasNoText:
        return [(f"explain {digits}", "0 ")]
    return [(f"explain {digits}", "0 "), (f"show {digits}", f"0 {shown.encode().hex()}")]


def cases(seen):
    """Each document's number with a line and its answer."""
    return [(number, line, wanted) for number, data in enumerate(documents()) for it in damages(data)
            for line, wanted in of_string(it, seen)]


def judged(answers, given, seen):
    """Of each document what is wrong, or None; and of each kind of fault, whether it was met."""
    wrong = {}
    for (number, line, wanted), answer in zip(given, answers):
        if answer != wanted:
            wrong.setdefault(number, f"{line}: {answer} and not {wanted}")
    for number in range(DOCUMENTS):
        yield f"document {number}, damaged", wrong.get(number)
    for name in (*KINDS, "a document"):
        yield f"damage {name}", None if seen[name] >= LEAST.get(name, 1) else "it was not met"


def told(ask):
    """What is judged of the answers that `ask` gives to lines."""
    seen = Counter()
    given = cases(seen)
    answers = ask([line for _, line, _ in given])
    if len(answers) != len(given):
        yield "answers on damaged documents", f"{len(answers)} to {len(given)} lines"
    yield from judged(answers, given, seen)
