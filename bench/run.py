#!/usr/bin/env python3
"""Times bson_cli beside serde_json alone on the same texts.

    bench/run.py [MEGABYTES ..]        (10 and 50 where none is given)

For each kind of input it prints the wall time and the peak memory of `bson_cli canonical`, of `bson_cli relaxed` and of
the floor, a program that only reads the text by serde_json and writes it again, and the ratios to the floor. A time is
the best of five runs; the three programs run in turns, so that what else the machine does slows all of them alike.
Inputs come from a seeded generator, so that every run times the same bytes.
"""
import base64
import os
import random
import subprocess
import sys
import tempfile
import time

HERE = os.path.dirname(os.path.abspath(__file__))
TOP = os.path.dirname(HERE)
# In a test BENCH_BYTES is the number of bytes of each input, which is then run once. Its times say nothing.
BYTES = int(os.environ.get("BENCH_BYTES", "0"))
ROUNDS = 1 if BYTES else 5


def megabytes(words):
    """The sizes of the inputs in megabytes: those of the words, or 10 and 50."""
    given = [int(word) for word in words] or [10, 50]
    return [BYTES / 1e6] if BYTES else given


def small_document(rng, i):
    return '{"_id":{"$oid":"%024x"},"n":%d,"name":"%s","ok":%s,"tags":["a","b","c"]}' % (
        rng.getrandbits(96), rng.randrange(-10**9, 10**9), "x" * rng.randrange(4, 20), rng.choice(["true", "false"]))


def wide_member(rng, i):
    return '"key%07d":{"$numberLong":"%d"}' % (i, rng.randrange(-10**18, 10**18))


def random_member(rng, i):
    # A step that shares no factor with the prime gives each key once.
    return '"key%07d":{"$numberLong":"%d"}' % (i * 7_654_321 % 9_999_991, rng.randrange(-10**18, 10**18))


def descending_member(rng, i):
    return '"key%07d":{"$numberLong":"%d"}' % (9_999_999 - i, rng.randrange(-10**18, 10**18))


def code_with_scope(rng, i):
    return '{"$code":"function() { return x; }","$scope":{"x":%d,"b":{"a":[1,{"c":%d}]}}}' % (rng.randrange(10**6), i)


def deep_value(rng, i):
    depth = rng.randrange(1, 60)
    return '{"a":[' * depth + '{"$numberInt":"%d"}' % rng.randrange(10**6) + "]}" * depth


def decimal(rng, i):
    return '{"$numberDecimal":"%d.%dE%+d"}' % (rng.randrange(1, 10), rng.randrange(10**20), rng.randrange(-6000, 6000))


def date(rng, i):
    if i % 2:
        return '{"$date":{"$numberLong":"%d"}}' % rng.randrange(-10**14, 10**14)
    return '{"$date":"%04d-%02d-%02dT%02d:%02d:%02d.%03dZ"}' % (
        rng.randrange(1970, 9999), rng.randrange(1, 13), rng.randrange(1, 29), rng.randrange(24), rng.randrange(60),
        rng.randrange(60), rng.randrange(1000))


def binary_of(size, rng):
    return '{"$binary":{"base64":"%s","subType":"00"}}' % base64.b64encode(rng.randbytes(size)).decode()


def binary(rng, i):
    return binary_of(rng.randrange(64, 4096), rng)


def large_binary(rng, i):
    return binary_of(7_500_000, rng)


KINDS = [("small documents", small_document, "[", "]"), ("one wide object", wide_member, "{", "}"),
         ("wide, keys in random order", random_member, "{", "}"),
         ("wide, keys descending", descending_member, "{", "}"), ("code with scope", code_with_scope, "[", "]"),
         ("deep and mixed", deep_value, "[", "]"), ("decimals", decimal, "[", "]"), ("dates", date, "[", "]"),
         ("binaries", binary, "[", "]"), ("binaries of 10 MB", large_binary, "[", "]")]


def generate(path, make, opening, closing, size):
    rng = random.Random(20260101)
    with open(path, "w") as out:
        out.write(opening)
        written, i = 1, 0
        while written < size:
            piece = make(rng, i)
            out.write(("," if i else "") + piece)
            written += len(piece) + 1
            i += 1
        out.write(closing)


def timed(command, path):
    """Seconds of one run, and its greatest memory in megabytes."""
    with open(path, "rb") as given, open(os.devnull, "wb") as taken:
        start = time.monotonic()
        run = subprocess.Popen(command, stdin=given, stdout=taken)
        _, status, usage = os.wait4(run.pid, 0)
        seconds = time.monotonic() - start
    if status != 0:
        raise SystemExit(f"{command} ended with {status}")
    return seconds, usage.ru_maxrss // 1024


def best_of(rounds, commands, path):
    """The least seconds and the greatest memory of each command, all run in turns."""
    runs = [[timed(command, path) for command in commands] for _ in range(rounds)]
    return [(min(seconds for seconds, _ in own), max(memory for _, memory in own)) for own in zip(*runs)]


def floor_program(room):
    """Builds the floor in a folder of its own, through its proof."""
    crate = os.path.join(room, "crates", "json_floor")
    os.makedirs(os.path.join(crate, "src"))
    os.makedirs(os.path.join(crate, "specs"))
    with open(os.path.join(room, "crates.txt"), "w") as crates:
        crates.write("json_floor: serde_json anyhow\n")
    open(os.path.join(crate, "specs", "Lib.antt"), "w").close()
    with open(os.path.join(HERE, "json_floor.source")) as source, open(os.path.join(crate, "src", "main.rt"), "w") as copy:
        copy.write(source.read())
    subprocess.run(["rt", "run"], cwd=crate, input=b"{}", check=True, stdout=subprocess.DEVNULL, stderr=subprocess.DEVNULL)
    return os.path.join(crate, "out", "json_floor")


def main():
    sizes = megabytes(sys.argv[1:])
    subprocess.run([os.path.join(TOP, "bson"), "build"], check=True, stdout=subprocess.DEVNULL)
    program = os.path.join(TOP, "crates", "bson_cli", "out", "bson_cli")
    with tempfile.TemporaryDirectory() as room:
        floor = floor_program(room)
        print("| input | MB | floor s | canonical s | ratio | relaxed s | ratio | floor MB | canonical MB |")
        print("|---|---|---|---|---|---|---|---|---|")
        for name, make, opening, closing in KINDS:
            for size in sizes:
                path = os.path.join(room, "input.json")
                generate(path, make, opening, closing, int(size * 1_000_000))
                commands = [[floor], [program, "canonical"], [program, "relaxed"]]
                (base, base_memory), (canonical, memory), (relaxed, _) = best_of(ROUNDS, commands, path)
                print("| %s | %g | %.2f | %.2f | %.2f | %.2f | %.2f | %d | %d |" % (
                    name, size, base, canonical, canonical / base, relaxed, relaxed / base, base_memory, memory))
                sys.stdout.flush()


if __name__ == "__main__":
    main()
