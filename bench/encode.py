#!/usr/bin/env python3
"""Times `bson_program encode` beside libbson's bson_new_from_json on the same lines.

    bench/encode.py [MEGABYTES ..]        (10 and 50 where none is given)

For each kind of documents of bench/bytes.py, a canonical line each, and for the relaxed lines of the first, it prints
the processor seconds of a whole run of each program, which reads lines and writes a dump, the least of five runs in
turns, and whether both dumps are the same bytes. bson_program has to be built (./bson encode
does). Needs Debian's libbson-dev, a C compiler and pkg-config.
"""
import os
import random
import subprocess
import sys
import tempfile

sys.dont_write_bytecode = True

from bytes import KINDS
from run import HERE, ROUNDS, TOP, megabytes

PROGRAM = f"{TOP}/crates/bson_program/out/bson_program"


def libbson(room):
    flags = subprocess.run(["pkg-config", "--cflags", "--libs", "libbson-1.0"], capture_output=True, text=True)
    if flags.returncode != 0:
        raise SystemExit("bench/encode.py: no libbson-1.0 (Debian's libbson-dev)")
    subprocess.run(["cc", "-O2", f"{HERE}/encode.c", "-o", f"{room}/libbson", *flags.stdout.split()], check=True)
    return f"{room}/libbson"


def lines(form, dump, path):
    """Writes the lines of a dump in a form."""
    with open(path, "wb") as out:
        subprocess.run([PROGRAM, "decode", form], input=dump, stdout=out, check=True)


def spent(command, path, output):
    """Processor seconds of one run."""
    with open(path, "rb") as given, open(output, "wb") as taken:
        run = subprocess.Popen(command, stdin=given, stdout=taken)
        _, status, usage = os.wait4(run.pid, 0)
        run.returncode = status
    if status != 0:
        raise SystemExit(f"{command[0]} refused {path}")
    return usage.ru_utime + usage.ru_stime


def inputs():
    """Names, makers of dumps and forms of lines. (A line of one document of many megabytes says nothing of lines.)"""
    many = [(name, make) for name, make in KINDS if not name.startswith(("one ", "an "))]
    yield from ((name, make, "canonical") for name, make in many)
    yield f"{many[0][0]}, relaxed", many[0][1], "relaxed"


def main():
    sizes = megabytes(sys.argv[1:])
    print("| Lines of | MB | `bson_program encode`, s | libbson, s | Ratio of times | Same bytes |")
    print("|---" * 6 + "|")
    with tempfile.TemporaryDirectory() as room:
        commands = [[PROGRAM, "encode"], [libbson(room)]]
        for name, make, form in inputs():
            for size in sizes:
                path, outputs = f"{room}/input.jsonl", [f"{room}/ours", f"{room}/theirs"]
                # (a line is some two times as long as its bytes)
                limit = int(size * 1_000_000)
                dump = make(random.Random(20260101), limit)
                lines(form, dump, path)
                whole = os.path.getsize(path)
                with open(path, "rb+") as it:
                    it.seek(min(whole, limit))
                    it.readline()
                    it.truncate()
                runs = [[spent(command, path, output) for command, output in zip(commands, outputs)] for _ in range(ROUNDS)]
                ours, theirs = map(min, zip(*runs))
                same = subprocess.run(["cmp", "-s", *outputs]).returncode == 0
                print(f"| {name} | {os.path.getsize(path) / 1e6:.0f} | {ours:.2f} | {theirs:.2f} | {ours / theirs:.2f} "
                      f"| {'yes' if same else 'no'} |", flush=True)


if __name__ == "__main__":
    main()
