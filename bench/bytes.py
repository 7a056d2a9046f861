#!/usr/bin/env python3
"""Times the reading of BSON bytes beside MongoDB's C library on the same documents.

    bench/bytes.py [MEGABYTES ..]        (10 and 50 if none is given)

The first table is of calls (bytes.c): vbson_is_document beside bson_validate with UTF-8, vbson_decode to canonical JSON
beside bson_as_canonical_extended_json, and vbson_hash_document, which makes a value of each document. A time is the user
time of one pass over the documents, without the reading. A second table has whole runs of the program over dumps, as
`./bson decode canonical` and `./bson decode check` start it, beside libbson's on the same file: processor seconds, reading
and writing too. Documents follow one another on standard input, and each time is the least of five runs in turns. Needs
./bson build, ./vbson build, Debian's libbson-dev, a C compiler and pkg-config.
"""
import os
import random
import struct
import subprocess
import sys
import tempfile

sys.dont_write_bytecode = True

from run import HERE, ROUNDS, TOP, megabytes

PROGRAM = f"{TOP}/crates/bson_program/out/bson_program"
LIBRARY = f"{TOP}/languages/out"


# ---- documents

def element(tag, key, value):
    return bytes([tag]) + key.encode() + b"\0" + value


def document(*elements):
    inside = b"".join(elements)
    return struct.pack("<I", len(inside) + 5) + inside + b"\0"


def text(content):
    encoded = content.encode()
    return struct.pack("<I", len(encoded) + 1) + encoded + b"\0"


def int32(value):
    return struct.pack("<i", value)


def int64(value):
    return struct.pack("<q", value)


def array(tag, values):
    return document(*(element(tag, str(at), value) for at, value in enumerate(values)))


def order(rng):
    """A document of eleven kinds, some four hundred bytes."""
    line = document(element(0x02, "sku", text("%08x" % rng.getrandbits(32))), element(0x10, "count", int32(3)),
                    element(0x12, "cents", int64(rng.getrandbits(40))))
    return document(
        element(0x07, "_id", rng.randbytes(12)), element(0x02, "name", text("x" * rng.randrange(4, 40))),
        element(0x02, "city", text("Zürich Köln Århus")), element(0x08, "paid", bytes([rng.getrandbits(1)])),
        element(0x09, "at", int64(rng.randrange(10**12, 2 * 10**12))), element(0x0A, "note", b""),
        element(0x05, "key", struct.pack("<IB", 16, 0) + rng.randbytes(16)),
        element(0x11, "stamp", struct.pack("<II", 1, 2)), element(0x10, "n", int32(rng.randrange(-10**9, 10**9))),
        element(0x04, "tags", array(0x02, [text("a"), text("bb"), text("ccc")])),
        element(0x04, "lines", array(0x03, [line, line])))


def numbers(rng):
    return document(element(0x04, "v", array(0x01, [struct.pack("<d", rng.uniform(-1e6, 1e6)) for _ in range(40)])),
                    *(element(0x12, "k%02d" % at, int64(rng.getrandbits(62))) for at in range(10)))


def texts(rng):
    some = ("plain ASCII text. ", "Füße, naïve, Ærø. ", "日本語の文。")
    return document(*(element(0x02, "t%d" % at, text(rng.choice(some) * 40)) for at in range(4)))


def deep(rng):
    made = document(element(0x10, "n", int32(rng.getrandbits(20))))
    for _ in range(rng.randrange(1, 40)):
        made = document(element(0x04, "a", document(element(0x03, "0", made))))
    return made


def binaries(rng):
    return document(element(0x05, "b", struct.pack("<IB", 4000, 0) + rng.randbytes(4000)))


def many(make):
    def documents(rng, size):
        different = b"".join(make(rng) for _ in range(500))
        return different * -(-size // len(different))
    return documents


def wide(rng, size):
    """One document whose keys ascend."""
    return document(*(b"\x12key%07d\0" % at + rng.randbytes(8) for at in range(size // 20)))


def random_keys(rng, size):
    # A step that shares no factor with the prime gives each key once.
    keys = (at * 7_654_321 % 9_999_991 for at in range(size // 20))
    return document(*(b"\x12key%07d\0" % key + rng.randbytes(8) for key in keys))


def nulls(_, size):
    """One array of nulls, whose keys are empty: the most values that bytes hold."""
    return document(element(0x04, "a", struct.pack("<I", size // 2 * 2 + 5) + b"\x0a\0" * (size // 2) + b"\0"))


KINDS = [("orders", many(order)), ("numbers, most of them doubles", many(numbers)), ("texts", many(texts)),
         ("binaries", many(binaries)), ("deep", many(deep)), ("one wide document, ascending keys", wide),
         ("one wide document, random keys", random_keys), ("an array of nulls with empty keys", nulls)]


# ---- programs

def built(room, name, *words):
    subprocess.run(["cc", "-O2", f"{HERE}/bytes.c", "-o", f"{room}/{name}", *words], check=True)
    return f"{room}/{name}"


def ours(room):
    if not os.path.exists(f"{LIBRARY}/lib/libvbson.a"):
        raise SystemExit("bench/bytes.py: no languages/out/lib/libvbson.a: run ./vbson build")
    return built(room, "ours", f"-I{LIBRARY}/include", f"{LIBRARY}/lib/libvbson.a")


def libbson(room):
    flags = subprocess.run(["pkg-config", "--cflags", "--libs", "libbson-1.0"], capture_output=True, text=True)
    if flags.returncode != 0:
        raise SystemExit("bench/bytes.py: no libbson-1.0 (Debian's libbson-dev)")
    return built(room, "libbson", "-DLIBBSON", *flags.stdout.split())


def spent(command, path, whole=False):
    """User seconds of one run, of a whole run also the system's, and its greatest memory in megabytes; nothing where it
    ends with a fault."""
    with open(path, "rb") as given, open(os.devnull, "wb") as taken:
        run = subprocess.Popen(command, stdin=given, stdout=taken, stderr=taken)
        _, status, usage = os.wait4(run.pid, 0)
    return (usage.ru_utime + whole * usage.ru_stime, usage.ru_maxrss / 1024) if status == 0 else None


def best_of(rounds, commands, path, whole=False):
    """The least seconds and the greatest memory of each command, all run in turns; nothing of one that fails."""
    runs = [[spent(command, path, whole) for command in commands] for _ in range(rounds)]
    return [None if None in own else (min(it for it, _ in own), max(it for _, it in own)) for own in zip(*runs)]


def measured(program, theirs, path, times):
    """Seconds of a pass: check, bson_validate, text, its text, hash."""
    words = [(program, "check"), (theirs, "check"), (program, "text"), (theirs, "text"), (program, "hash")]
    found = best_of(ROUNDS, [[it, task, str(count)] for it, task in words for count in (0, times)], path)
    return [None if whole is None or none is None else max(0.0, whole[0] - none[0]) / times
            for none, whole in zip(found[0::2], found[1::2])]


def whole_runs(theirs, path):
    """Seconds of whole runs: decode canonical, libbson's text, decode check, bson_validate."""
    # (as the script starts it)
    ours = ["env", "MALLOC_MMAP_THRESHOLD_=131072", PROGRAM]
    commands = [[*ours, "decode", "canonical"], [theirs, "text", "1"], [*ours, "decode", "check"],
                [theirs, "check", "1"]]
    return [it and it[0] for it in best_of(ROUNDS, commands, path, whole=True)]


def cell(seconds):
    return "" if seconds is None else f"{seconds:.3f}"


def ratio(one, other):
    return "" if one is None or not other else f"{one / other:.2f}"


def cells_of_calls(program, theirs, path, size):
    """A row of the table of calls, without its name and size."""
    check, validate, canonical, text_of_theirs, hashed = measured(program, theirs, path, max(1, int(50 // size)))
    return [cell(check), cell(validate), ratio(check, validate), cell(canonical), cell(text_of_theirs),
            ratio(canonical, text_of_theirs), cell(hashed), ratio(hashed, validate)]


def main():
    sizes = megabytes(sys.argv[1:])
    if not os.path.exists(PROGRAM):
        raise SystemExit("bench/bytes.py: there is no program: run ./bson build")
    whole = []
    with tempfile.TemporaryDirectory() as room:
        program, theirs = ours(room), libbson(room)
        print("| Input | MB | `vbson_is_document`, s | `bson_validate`, s | Ratio | `vbson_decode`, s | libbson text, s | Ratio "
              "| `vbson_hash_document`, s | Over `bson_validate` |\n" + "|---" * 10 + "|")
        for name, make in KINDS:
            for size in sizes:
                path = f"{room}/input.bson"
                with open(path, "wb") as out:
                    out.write(make(random.Random(20260101), int(size * 1_000_000)))
                print(f"| {name} | {size} | {' | '.join(cells_of_calls(program, theirs, path, size))} |", flush=True)
                text_run, text_of_theirs, check_run, validate_run = whole_runs(theirs, path)
                cells = [cell(text_run), cell(text_of_theirs), ratio(text_run, text_of_theirs), cell(check_run),
                         cell(validate_run), ratio(check_run, validate_run)]
                whole.append(f"| {name} | {size} | {' | '.join(cells)} |")
    print("\n| Input | MB | `decode canonical`, s | libbson text, s | Ratio | `decode check`, s | `bson_validate`, s | Ratio |\n"
          + "|---" * 8 + "|")
    print("\n".join(whole))


if __name__ == "__main__":
    main()
