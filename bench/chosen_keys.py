#!/usr/bin/env python3
"""Times documents of keys that were chosen to have one hash beside documents of other keys, and texts whose keys occur twice.

    bench/chosen_keys.py [--keys N ..] [--longest SECONDS] [PROGRAM ..]

PROGRAM is a built `bson_cli`, this repository's own where none is given; several programs get a column each.
For each number of keys N (10000, 100000 and 400000 where none is given) it prints the processor time a key and the
peak memory of `bson_cli canonical` on one object of N chosen keys, and of N keys that differ from these in one byte.
A time is the least of five runs; the programs run in turns. A run past the longest, 60 s, is cut off and shown as >.

Where `crates/bson_rows` is built it also times the rows of `tests/rows/many_keys.py` (100000 keys put, found, taken
out, hashed, compared, written, read twice) in both kinds; reading the row and writing its answer are counted.

Where `crates/bson_program` is built it also times each command on the inputs of `tests/rows/growth.py` at 1 and 8 MB, and
prints for each command the greatest times at both, and how many times longer the larger input needs at most.

Where `./vbson` has built the library it also times calls of Python at both sizes, on ascending keys and then the same keys
again, and prints the ratio.
"""
import argparse
import os
import resource
import subprocess
import sys
import tempfile
import time

sys.dont_write_bytecode = True
TOP = os.path.dirname(os.path.dirname(os.path.abspath(__file__)))
sys.path.insert(0, os.path.join(TOP, "tests", "rows"))

import growth
import many_keys
from run import BYTES, ROUNDS

OWN = os.path.join(TOP, "crates", "bson_cli", "out", "bson_cli")
LINES = os.path.join(TOP, "crates", "bson_program", "out", "bson_program")
ROWS = os.path.join(TOP, "crates", "bson_rows", "out", "bson_rows")
LIBRARY = os.path.join(TOP, "languages", "out", "lib", "libvbson.so")
SIZES = [BYTES // 10] if BYTES else [10_000, 100_000, 400_000]
# The bytes of the smaller inputs of tests/rows/growth.py.
SMALLER = BYTES or growth.LARGE


def generate(path, count, chosen):
    made = many_keys.keys(count, chosen)
    with open(path, "wb") as out:
        out.write(b"{" + b",".join(b'"%s":%d' % pair for pair in zip(made, range(count))) + b"}")


def timed(command, path, longest, statuses):
    """Processor seconds of one run and its peak memory in megabytes; None where it is cut off."""
    def limited():
        resource.setrlimit(resource.RLIMIT_CPU, (longest, longest))
    with open(path, "rb") as given, open(os.devnull, "wb") as taken:
        run = subprocess.Popen(command, stdin=given, stdout=taken, stderr=taken, preexec_fn=limited)
        _, status, usage = os.wait4(run.pid, 0)
    if os.WIFSIGNALED(status):
        return None
    if os.waitstatus_to_exitcode(status) not in statuses:
        raise SystemExit(f"{command} ended with {status}")
    return usage.ru_utime + usage.ru_stime, usage.ru_maxrss // 1024


def best(commands, path, longest, statuses=(0,)):
    """The least time and memory of each command in five rounds; one that was cut off runs no more."""
    runs = [[] for _ in commands]
    for _ in range(ROUNDS):
        for command, own in zip(commands, runs):
            if None not in own:
                own.append(timed(command, path, longest, statuses))
    return [None if None in own else (min(run[0] for run in own), max(run[1] for run in own)) for own in runs]


def cell(result, count, longest):
    if result is None:
        return f"> {longest} s"
    return "%.3f s, %.2f us a key, %d MB" % (result[0], result[0] / count * 1e6, result[1])


def texts(room, sizes, programs, longest):
    print("| keys | kind | " + " | ".join(programs) + " |")
    print("|---|---|" + "---|" * len(programs))
    path = os.path.join(room, "input.json")
    for count in sizes:
        for kind in ["chosen", "ordinary"]:
            generate(path, count, kind == "chosen")
            results = best([[program, "canonical"] for program in programs], path, longest)
            print(f"| {count} | {kind} | " + " | ".join(cell(result, count, longest) for result in results) + " |", flush=True)


def calls(room, longest):
    print(f"\n| {many_keys.COUNT} keys | time |")
    print("|---|---|")
    path = os.path.join(room, "row")
    for row in many_keys.rows():
        with open(path, "wb") as out:
            out.write(row.call + b"\n")
        result, = best([[ROWS]], path, longest)
        print(f"| {row.name} | " + ("> %d s" % longest if result is None else "%.2f s" % result[0]) + " |", flush=True)


def growths(room, longest):
    """A line for each command: its greatest times, and its greatest growth."""
    print(f"\n| bson_program | {SMALLER / 1e6:g} MB | {growth.PARTS * SMALLER / 1e6:g} MB | at most | of |")
    print("|---|---|---|---|---|")
    for make, commands in ((growth.texts, growth.COMMANDS), (growth.documents, growth.COMMANDS_OF_BSON)):
        inputs = []
        for size in (SMALLER, growth.PARTS * SMALLER):
            for name, data in make(size).items():
                inputs.append((name, os.path.join(room, f"{size} {name}")))
                with open(inputs[-1][1], "wb") as out:
                    out.write(data)
        for words in commands:
            command = [[LINES, *words.split()]]
            found = {}
            for name, path in inputs:
                result, = best(command, path, longest, (0, 1))
                found.setdefault(name, []).append(result[0] if result else float("inf"))
            name = max(found, key=lambda it: found[it][1] / found[it][0])
            small, large = (max(it[at] for it in found.values()) for at in (0, 1))
            print(f"| {words} | {small:.3f} s | {large:.3f} s | {found[name][1] / found[name][0]:.2f} | {name} |", flush=True)


def library_calls():
    """A line for each call: the times at both sizes, and the ratio."""
    sys.path.append(os.path.join(TOP, "languages", "python"))
    os.environ.setdefault("VBSON_LIBRARY", LIBRARY)
    import vbson

    def seconds(call, text):
        started = time.process_time()
        call(text)
        return time.process_time() - started
    given = [growth.members(growth.twice(size // growth.MEMBER)) for size in (SMALLER, growth.PARTS * SMALLER)]
    named = {
        "convert": vbson.convert,
        "encode": vbson.encode,
        "hash_of": vbson.hash_of,
        "same": lambda text: vbson.same(text, text),
    }
    print(f"\n| vbson | {SMALLER / 1e6:g} MB | {growth.PARTS * SMALLER / 1e6:g} MB | ratio |")
    print("|---|---|---|---|")
    for name, call in named.items():
        small, large = (min(seconds(call, text) for _ in range(ROUNDS)) for text in given)
        print(f"| {name} | {small:.3f} s | {large:.3f} s | {large / small:.2f} |", flush=True)


def main():
    parser = argparse.ArgumentParser()
    parser.add_argument("--keys", type=int, nargs="+", default=SIZES)
    parser.add_argument("--longest", type=int, default=60)
    parser.add_argument("programs", nargs="*", default=[])
    given = parser.parse_args()
    with tempfile.TemporaryDirectory() as room:
        texts(room, given.keys, given.programs or [OWN], given.longest)
        if os.path.exists(ROWS):
            calls(room, given.longest)
        if os.path.exists(LINES):
            growths(room, given.longest)
    if os.path.exists(LIBRARY):
        library_calls()


if __name__ == "__main__":
    main()
