"""The rows of tests/rows on BSON bytes as lines `CALL HEX` for a program over the library, which answers each by a line
`STATUS HEX`: its status, and what was left.

    is, explain    vbson_is_document, vbson_explain_document
    canonical, relaxed, show    vbson_decode with finite doubles
    encode         vbson_encode with finite doubles
"""
import re

import vbson
from rows import rows

KINDS = {"Depth": "nested too deep", "Short": "ends too early", "Length": "invalid length", "Tag": "unknown element type",
         "End": "missing NUL after a string", "Utf8": "invalid UTF-8", "Boolean": "a boolean is neither 0 nor 1",
         "Trailing": "trailing bytes after the document"}
UNWRITTEN = {"Key": vbson.ZERO_IN_KEY, "Regex": vbson.ZERO_IN_REGEX}
# Fewer than these are a sign that some rows are not found.
LEAST_CASES = 700


def of_bytes(name, digits, wanted):
    """The calls on the bytes of a row, each with its status and what it leaves."""
    fault = re.fullmatch(r"Malformed \{ kind: (\w+), offset: (\d+) \}", wanted)
    if fault:
        words = f"not a document at byte {fault[2]} ({KINDS[fault[1]]})"
        yield "explain", digits, vbson.OK, words.encode()
        for call in ("is", "canonical", "relaxed", "show"):
            yield call, digits, vbson.NOT_A_DOCUMENT, b""
        return
    yield "is", digits, vbson.OK, b""
    yield "explain", digits, vbson.OK, b""
    if name == "read" and not wanted.startswith("Document("):
        yield "show", digits, vbson.OK, wanted.replace("↵", "\n").encode()


def of_text(text, wanted):
    """The same of a text whose document is written."""
    status = UNWRITTEN.get(wanted.removeprefix("NoBytes(").removesuffix(")"), vbson.OK)
    left = bytes.fromhex(wanted) if status == vbson.OK else b""
    yield "encode", text.encode().hex(), status, left


def of_dump(form, digits, wanted):
    """The same of a dump of one document, whose keys the library sorts."""
    text, _, counts = wanted.rpartition("↵")
    if form in ("canonical", "relaxed", "show") and counts == "DocumentCounts { documents: 1, refused: 0 }":
        yield form, digits, vbson.OK, text.encode()


def calls_of(row):
    call = row.call.removeprefix(b"{:?} ")
    if not call.startswith(b"bytes "):
        return
    wanted, words = row.wanted.decode(), call.decode().split(" ", 2)
    name, rest = words[1:]
    if name in ("read", "check", "again"):
        yield from of_bytes(name, rest, wanted)
    elif name in ("write", "to") and not rest.startswith("made "):
        yield from of_text(rest, wanted)
    elif name == "dump":
        yield from of_dump(*rest.split(" "), wanted)


def cases():
    """Each call with its row's place, the line that asks for it, and the line that answers."""
    found = []
    for row in rows():
        for call, digits, status, left in calls_of(row):
            found.append((f"{row.place}, {call}", f"{call} {digits}", f"{status} {left.hex()}"))
    return found


NUMBERS = {vbson.NotJson: vbson.NOT_JSON, vbson.BadObjectId: vbson.BAD_OBJECT_ID, vbson.NotExtendedJson: vbson.NOT_EXTENDED_JSON,
           vbson.NotRepresentable: vbson.NOT_REPRESENTABLE, vbson.NotADocument: vbson.NOT_A_DOCUMENT}
CAUSES = {"a key has a 0 byte in it": vbson.ZERO_IN_KEY, "a regular expression has a 0 byte in it": vbson.ZERO_IN_REGEX}


def by_python(line):
    """The answer of the package vbson."""
    call, _, digits = line.partition(" ")
    given = bytes.fromhex(digits)
    try:
        if call == "is":
            return f"{vbson.OK if vbson.is_document(given) else vbson.NOT_A_DOCUMENT} "
        if call == "explain":
            return f"0 {vbson.explain_document(given).encode().hex()}"
        if call == "encode":
            return f"0 {vbson.encode(given, keep_order=False).hex()}"
        return f"0 {vbson.decode(given, call, keep_order=False, mongodb_layout=False).encode().hex()}"
    except vbson.NotADocument as error:
        words = vbson.explain_document(given) if call != "encode" else "not a document"
        # (the error is made of those words, and offset and reason are all of them)
        is_whole = str(error) == words == f"not a document at byte {error.offset} ({error.reason})" or call == "encode"
        return f"{vbson.NOT_A_DOCUMENT if is_whole else -1} "
    except vbson.NotEncodable as error:
        return f"{CAUSES[str(error)]} "
    except vbson.Error as error:
        return f"{NUMBERS[type(error)]} "


def round_trips():
    """Of each document of the rows, what is wrong with its text and the bytes of that text, or None."""
    for name, line, answer in cases():
        if line.startswith("is ") and answer == "0 ":
            text = vbson.decode(bytes.fromhex(line[3:]), keep_order=False)
            try:
                written = vbson.encode(text, keep_order=False)
            except (vbson.NotExtendedJson, vbson.BadObjectId):
                # (a document whose keys are those of a wrapper)
                continue
            again = vbson.encode(vbson.decode(written, keep_order=False), keep_order=False)
            yield f"{name}, and back", None if vbson.is_document(written) and again == written else f"{written.hex()} and {again.hex()}"


def hashes():
    """Of each text of the rows that has bytes, what is wrong with the hashes and the sameness of both, or None."""
    for name, line, answer in cases():
        if line.startswith("encode ") and answer.startswith("0 "):
            text = bytes.fromhex(line[7:])
            ascending, in_order = (vbson.encode(text, keep_order=keep_order) for keep_order in (False, True))
            number = vbson.hash_of(text)
            found = vbson.hash_of_document(ascending), vbson.hash_of_document(in_order)
            yield f"{name}, hashed", None if found == (number, number) else f"{found} and not {number}"
            are_same = vbson.same_documents(ascending, in_order), vbson.same_documents(in_order, b"\5\0\0\0\0")
            yield f"{name}, compared", None if are_same == (True, len(in_order) == 5) else f"{are_same}"


def alone(call, given, *mode, **options):
    """What a call returns of one text or document, or its error."""
    try:
        return call(given, *mode, **options), None
    except vbson.Error as error:
        return b"", (type(error), str(error), error.path, error.reason)


def told_alike(refused):
    return [(*it[:-1], (type(it[-1]), str(it[-1]), it[-1].path, it[-1].reason)) for it in refused]


def blocks():
    """For all bytes of the rows concatenated, and for all their texts as lines, what is wrong with the calls on blocks
    beside those on each, or None. Bytes that do not begin with their length end a block of their own."""
    strings = [bytes.fromhex(line[3:]) for _, line, _ in cases() if line.startswith("is ")]
    whole = [it for it in strings if len(it) >= 5 and int.from_bytes(it[:4], "little") == len(it)]
    for mode in ("canonical", "relaxed", "show"):
        yield f"a block of documents, {mode}", block_fault(whole, mode)
        for number, it in enumerate([it for it in strings if it and it not in whole]):
            if int.from_bytes(it[:4], "little") > len(it) or len(it) < 5:
                yield f"a block that ends early, {number}, {mode}", block_fault([b"\5\0\0\0\0", it], mode)
    texts = [it for _, line, _ in cases() if line.startswith("encode ") for it in [bytes.fromhex(line[7:])] if b"\n" not in it and it.strip()]
    for keep_order in (False, True):
        left, refused = vbson.encode_lines(b"\n".join(texts), keep_order=keep_order)
        made = [alone(vbson.encode, it, keep_order=keep_order) for it in texts]
        wanted = b"".join(it for it, _ in made), [(number, error) for number, (_, error) in enumerate(made, 1) if error]
        yield f"a block of lines, {keep_order}", None if (left, told_alike(refused)) == wanted else f"{left.hex()} {refused}"


def block_fault(parts, mode):
    left, refused = vbson.decode_documents(b"".join(parts), mode)
    made = [alone(vbson.decode, it, mode) for it in parts]
    starts = [sum(map(len, parts[:at])) for at in range(len(parts))]
    wanted = "".join(f"{it}\n" for it, error in made if not error).encode()
    faults = [(number, start, error) for number, (start, (_, error)) in enumerate(zip(starts, made), 1) if error]
    return None if (left, told_alike(refused)) == (wanted, faults) else f"{left} {refused}"
