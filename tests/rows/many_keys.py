"""Rows on documents of many keys that were chosen to have one hash, under the hasher of std's maps, and on as many
others.

Each is a call of bson_rows: the keys put in descending or ascending order and found, taken out from both ends, compared
and hashed in another order, written, read from a text that has them all twice, and read from bytes where none may occur
twice, with each once or one of them once more. A step that takes time in proportion to the number of keys would take minutes.
"""
from dataclasses import dataclass

COUNT = 100_000
WORD = (1 << 64) - 1
START = 0x243F6A8885A308D3
MULTIPLIER = 0x9E3779B97F4A7C15


def folded(a, b):
    product = a * b
    return (product & WORD) ^ (product >> 64)


def number_at(data, at):
    return int.from_bytes(data[at:at + 8], "little")


def absorbed(state, data, one, two):
    return folded(number_at(data, one) ^ state, number_at(data, two) ^ MULTIPLIER)


def hashed(data):
    """The hash of more than eight bytes by the hasher of std's maps."""
    state = (START + len(data)) & WORD
    for at in range(0, (len(data) - 1) // 16 * 16, 16):
        state = absorbed(state, data, at, at + 8)
    return absorbed(state, data, len(data) - 16, len(data) - 8)


def is_plain(data):
    return all(0x20 < byte < 0x7F and byte not in b'"\\:' for byte in data)


def undoing_head(length):
    """24 bytes after which a key of this length has state 0, whatever the next eight are."""
    for attempt in range(1_000_000):
        head = b"k%015d" % attempt
        undo = absorbed((START + length) & WORD, head, 0, 8).to_bytes(8, "little")
        if is_plain(undo):
            return head + undo
    raise SystemExit("no head found")


def keys(count, chosen):
    """So many keys of 48 bytes in ascending order; their hashes are one, or differ."""
    head = undoing_head(48)
    if not chosen:
        head = head[:-1] + bytes([head[-1] + 1])
    made = [head + b"%08x" % number + b"T" * 16 for number in range(count)]
    distinct = len({hashed(key) for key in made[:1000]})
    if (distinct == 1) != chosen:
        raise SystemExit(f"{distinct} hashes among the first 1000 keys")
    return made


@dataclass
class ManyKeys:
    """A row, as those of the files beside this one."""

    name: str
    call: bytes
    wanted: bytes


def inserts(pairs):
    return b" ".join(b"insert:%s:%d" % pair for pair in pairs)


def gets(names):
    return b" ".join(b"get:%s" % key for key in names)


def made(pairs):
    return b"made doc " + b" ".join(b"int32:%d put:%s" % (number, key) for key, number in pairs)


def shown(pairs):
    return b"{ " + b", ".join(b'"%s": %d' % pair for pair in pairs) + b" }"


def found(pairs):
    call = b"document " + inserts(pairs[::-1]) + b" " + gets(key for key, _ in pairs) + b" get:none len"
    replies = [b"None"] * len(pairs) + [b"%d" % number for _, number in pairs] + [b"None", b"%d" % len(pairs)]
    return call, b" ".join(replies) + b" -> " + shown(pairs[::-1])


def taken_out(pairs):
    left = pairs[3:-3]
    ends = [pair for one, other in zip(pairs[:3], pairs[:-4:-1]) for pair in (one, other)]
    gone = b" ".join(b"remove:%s get:%s" % (key, key) for key, _ in ends)
    call = b"document " + inserts(pairs) + b" " + gone + b" " + gets(key for key, _ in left) + b" len"
    replies = [b"None"] * len(pairs) + [b"%d None" % number for _, number in ends]
    replies += [b"%d" % number for _, number in left] + [b"%d" % len(left)]
    return call, b" ".join(replies) + b" -> " + shown(left)


def written(pairs):
    wanted = b"{" + b",".join(b'"%s":%d' % pair for pair in pairs) + b"}"
    return b"relaxed " + made(pairs[::-1]), wanted


def read_twice(pairs):
    before = [(key, 0) for key, _ in pairs]
    return b"show {" + b",".join(b'"%s":%d' % pair for pair in before + pairs) + b"}", shown(pairs)


def compared(pairs):
    return b"same " + made(pairs) + b" and " + made(pairs[::-1]), b"equal, equal hashes"


def told_apart(pairs):
    other = [(pairs[7][0], 0) if at == 7 else pair for at, pair in enumerate(pairs)]
    return b"same " + made(other) + b" and " + made(pairs[::-1]), b"unequal"


def element(key, number):
    return b"\x10" + key + b"\0" + number.to_bytes(4, "little")


def encoded(pairs):
    inside = b"".join(element(*pair) for pair in pairs) + b"\0"
    return (len(inside) + 4).to_bytes(4, "little") + inside


def each_once(pairs):
    return b"bytes once " + encoded(pairs[::-1]).hex().encode(), shown(pairs[::-1])


def one_twice(pairs):
    data = encoded(pairs[::-1] + pairs[-1:])
    place = len(data) - len(element(*pairs[-1]))
    return b"bytes once " + data.hex().encode(), b"Malformed { kind: DuplicateKey, offset: %d }" % place


def rows():
    """The rows of both kinds of keys."""
    made_rows = []
    for chosen in (True, False):
        pairs = [(key, number) for number, key in enumerate(keys(COUNT, chosen))]
        for make in (found, taken_out, written, read_twice, compared, told_apart, each_once, one_twice):
            kind = "chosen" if chosen else "ordinary"
            made_rows.append(ManyKeys(f"{COUNT} {kind} keys, {make.__name__}", *make(pairs)))
    return made_rows
