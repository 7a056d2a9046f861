"""Documents from readers, to writers and concatenated: what each call returns over a reader that delivers parts and
writers that take one byte, also where one of them fails, by the reader and writer of tests/fuzz/bson_bytes.py."""
import struct
import sys
from pathlib import Path

HERE = Path(__file__).resolve().parent
sys.path += [str(HERE.parent / "fuzz"), str(HERE.parent / "rows")]

import bson_bytes
import forms
from grammar import TAKEN
from rows import rows

# Documents of bytes have finite doubles.
TAKEN.add("doubles")

LINES = ("canonical", "relaxed", "canonical_in_order", "relaxed_in_order", "show", "check")
WORDS = {"Depth": "nested too deep", "Short": "ends too early", "Length": "invalid length", "Tag": "unknown element type",
         "End": "missing NUL after a string", "Utf8": "invalid UTF-8", "Boolean": "a boolean is neither 0 nor 1",
         "Trailing": "trailing bytes after the document"}

REFUSED = {"Key": "a key has a 0 byte in it", "Regex": "a regular expression has a 0 byte in it"}


class CannotRead(Exception):
    pass


class CannotWrite(Exception):
    pass


class MemberSpans:
    """Gives at most `piece` bytes a read, until `reads` reads were done."""

    def __init__(self, data, piece, reads):
        self.data, self.piece, self.reads, self.at = data, piece, reads, 0

    def read(self, most):
        if self.reads == 0:
            raise CannotRead
        self.reads -= 1
        given = self.data[self.at:self.at + min(most, self.piece)]
        self.at += len(given)
        return given

    def fill(self, had, count):
        while len(had) < count:
            more = self.read(count - len(had))
            if not more:
                break
            had += more
        return had

    def document(self):
        """The length, and as many bytes as it says."""
        had = self.fill(b"", 4)
        size = struct.unpack("<I", had)[0] if len(had) == 4 else 0
        return self.fill(had, size) if size < 2**31 else had


class Drip:
    """Takes so many bytes."""

    def __init__(self, room):
        self.room, self.taken = room, b""

    def write(self, data):
        room = self.room - len(self.taken)
        self.taken += data[:room]
        if room < len(data):
            raise CannotWrite


def read_document(data, piece, reads):
    """What from_reader answers, and the bytes of what it read."""
    reader = MemberSpans(data, piece, reads)
    try:
        value = bson_bytes.meaning(reader.document())
        return b"done, %d left" % (len(data) - reader.at), bson_bytes.written(value)
    except CannotRead:
        return b"cannot read", b""
    except bson_bytes.Fault as fault:
        return b"no BSON document, by the byte at %d" % fault.place, b""


def line_of(line, data):
    value = bson_bytes.meaning(data)
    if line == "check":
        return b""
    if line == "show":
        return bson_bytes.shown(value).encode() + b"\n"
    written = forms.in_order if line.endswith("_in_order") else forms.ascending
    return written(bson_bytes.of_texts(value), line.startswith("relaxed"), is_mongodb=False).encode() + b"\n"


def has_length(data):
    return len(data) >= 4 and struct.unpack("<I", data[:4])[0] == len(data)


def run_dump(line, keeps_going, data, piece, reads, writes, reports):
    """What run_documents answers, writes and reports."""
    reader, writer, report = MemberSpans(data, piece, reads), Drip(writes), Drip(reports)
    number, start, refused = 1, 0, 0
    try:
        while given := reader.document():
            try:
                writer.write(line_of(line, given))
            except bson_bytes.Fault as fault:
                words = WORDS[fault.name]
                if not keeps_going or not has_length(given):
                    raise
                refused += 1
                report.write(b"document %d at byte %d: %s at its byte %d\n" % (number, start, words.encode(), fault.place))
            number, start = number + 1, start + len(given)
        answer = b"%d %d" % (number - 1, refused)
    except (CannotRead, CannotWrite, bson_bytes.Fault) as end:
        words = {CannotRead: "cannot read", CannotWrite: "cannot write"}.get(type(end)) or WORDS[end.name]
        answer = b"document %d at byte %d: %s" % (number, start, words.encode())
    return answer, writer.taken, report.taken


def asked(*calls):
    """What follows these calls of tests/rows, and the answers."""
    for row in rows():
        words = row.call.decode(errors="replace").split(" ", 2)
        if words[0] == "bytes" and words[1] in calls and not row.name.startswith("{"):
            yield words[2] if len(words) > 2 else "", row.wanted.decode(errors="replace")


def single_documents():
    return list({bytes.fromhex(it): None for it, _ in asked("again", "check", "from", "front", "read")})


def has_text(data):
    try:
        line_of("show", data)
        return True
    except (bson_bytes.Fault, bson_bytes.HasNoText):
        return False


def dumps():
    """Those of the rows, and all documents of the rows that have a text in one, between rejected ones."""
    documents = [it for it in single_documents() if len(it) < 200]
    refused = [it for it in documents if not has_text(it) and has_length(it) and not is_document(it)]
    whole = b"".join(it + (refused[at % len(refused)] if at % 5 == 0 else b"")
                     for at, it in enumerate(it for it in documents if has_text(it)))
    return list({bytes.fromhex(it.split(" ")[-1]): None for it, _ in asked("run", "run_on", "dump")}) + [whole]


def is_document(data):
    try:
        bson_bytes.meaning(data)
        return True
    except bson_bytes.Fault:
        return False


def texts():
    """Texts of documents, each with its bytes, or the words for why it has none."""
    for text, answer in asked("to", "write"):
        if not text.startswith("made "):
            refused = REFUSED.get(answer.removeprefix("NoBytes(").removesuffix(")"))
            yield text.encode(), refused or bytes.fromhex(answer)
