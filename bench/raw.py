#!/usr/bin/env python3
"""Times documents that remain bytes beside libbson, on 65 MB, 10 MB and 200 KB of orders of twenty keys.

    bench/raw.py

A C program (raw.c) over languages/out/lib/libvbson.a and libbson reads the value of one key of each document, then all
elements, and then writes the document with another value of the key, and without the key "version": the nanoseconds of
processor time per document, the least of 25 rounds in turns (of 65 MB of 5). Needs ./vbson build, Debian's libbson-dev, a C
compiler and pkg-config.
"""
import os
import random
import struct
import subprocess
import sys
import tempfile

sys.dont_write_bytecode = True

from bytes import array, document, element, int32, int64, text
from run import BYTES, HERE, TOP

OUT = f"{TOP}/languages/out"
# The documents of the larger sizes come from memory, and those of the smallest one from the processor's cache. The rounds
# of each are chosen so that it takes seconds.
SIZES = {65_000_000: 5, 10_000_000: 25, 200_000: 500}
KEYS = (("the first", "_id"), ("the tenth", "status"), ("the last", "lines"), ("none", "absent"))


def order(rng):
    """An order of twenty keys, some 600 bytes."""
    line = document(element(0x02, "sku", text("%08x" % rng.getrandbits(32))), element(0x10, "count", int32(3)),
                    element(0x12, "cents", int64(rng.getrandbits(40))))
    address = document(element(0x02, "street", text("Long Street %d" % rng.randrange(200))), element(0x02, "city", text("Springfield")),
                       element(0x02, "zip", text("%05d" % rng.randrange(10**5))))
    return document(
        element(0x07, "_id", rng.randbytes(12)), element(0x10, "number", int32(rng.randrange(10**9))),
        element(0x02, "customer", text("x" * rng.randrange(4, 40))), element(0x02, "email", text("somebody@example.com")),
        element(0x09, "created", int64(rng.randrange(10**12, 2 * 10**12))), element(0x09, "updated", int64(rng.randrange(10**12, 2 * 10**12))),
        element(0x08, "paid", bytes([rng.getrandbits(1)])), element(0x01, "total", struct.pack("<d", rng.uniform(1, 1000))),
        element(0x02, "currency", text("EUR")), element(0x02, "status", text("shipped")),
        element(0x03, "billing", address), element(0x03, "shipping", address),
        element(0x05, "key", struct.pack("<IB", 16, 0) + rng.randbytes(16)), element(0x0A, "note", b""),
        element(0x11, "stamp", struct.pack("<II", 1, 2)), element(0x12, "points", int64(rng.getrandbits(40))),
        element(0x10, "version", int32(3)), element(0x08, "gift", b"\0"),
        element(0x04, "tags", array(0x02, [text("a"), text("bb"), text("ccc")])),
        element(0x04, "lines", array(0x03, [line, line])))


def orders(size):
    """At least so many bytes of orders."""
    rng, made = random.Random(1), bytearray()
    while len(made) < size:
        made += order(rng)
    return bytes(made)


def main():
    if not os.path.exists(f"{OUT}/lib/libvbson.a"):
        raise SystemExit("bench/raw.py: there is no languages/out/lib/libvbson.a: run ./vbson build")
    flags = subprocess.run(["pkg-config", "--cflags", "--libs", "libbson-1.0"], capture_output=True, text=True)
    if flags.returncode != 0:
        raise SystemExit("bench/raw.py: no libbson-1.0 (Debian's libbson-dev)")
    with tempfile.TemporaryDirectory() as room:
        words = ["cc", "-O2", f"-I{OUT}/include", f"{HERE}/raw.c", "-o", f"{room}/raw", f"{OUT}/lib/libvbson.a", *flags.stdout.split()]
        subprocess.run(words, check=True)
        changed = []
        print("| MB | Key | `vbson_raw_get`, ns | `bson_iter_init_find`, ns | Ratio | all by `vbson_raw_next`, ns | by `bson_iter_next`, ns | Ratio | `vbson_is_document`, ns |\n"
              "|---|---|---|---|---|---|---|---|---|")
        for size, rounds in ({BYTES: 1} if BYTES else SIZES).items():
            dump = orders(size)
            for name, key in KEYS:
                ran = subprocess.run([f"{room}/raw", key, str(rounds)], input=dump, capture_output=True, check=True)
                get, find, ours, theirs, check, change, by_libbson = map(float, ran.stdout.split())
                print(f"| {size / 1e6:g} | {name} | {get:.0f} | {find:.0f} | {get / find:.2f} | {ours:.0f} | {theirs:.0f} | {ours / theirs:.2f} | {check:.0f} |", flush=True)
                changed.append(f"| {size / 1e6:g} | {name} | {change:.0f} | {change + check:.0f} | {by_libbson:.0f} | {change / by_libbson:.2f} | {(change + check) / by_libbson:.2f} |")
        print("\n| MB | Key that is changed | by a builder, ns | with `vbson_is_document` | by `bson_append_iter`, ns | Ratio | with the check |\n|---|---|---|---|---|---|---|")
        print("\n".join(changed))


if __name__ == "__main__":
    main()
