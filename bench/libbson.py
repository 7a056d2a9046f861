#!/usr/bin/env python3
"""Times bson_cli beside MongoDB's C library on the same texts.

    bench/libbson.py [MEGABYTES ..]        (10 and 50 where none is given)

Each kind of input of bench/run.py, as one document: a list is the value of the key "a", since libbson takes documents
alone, and the deep values nest at most 80 levels, since it refuses 100; code with scope is left out, of which version
1.23 refuses a list of some hundred. Beside these are places with a price, whose doubles bson_program
accepts, with --sort-keys. Both programs read standard input and write the canonical text. A time is the least processor
seconds of five runs in turns, a peak the greatest. Needs Debian's libbson-dev, a C compiler and pkg-config.
"""
import os
import subprocess
import sys
import tempfile

sys.dont_write_bytecode = True

from run import HERE, KINDS, ROUNDS, TOP, code_with_scope, generate, megabytes


def deep_value(rng, i):
    depth = rng.randrange(1, 40)
    return '{"a":[' * depth + '{"$numberInt":"%d"}' % rng.randrange(10**6) + "]}" * depth


def place(rng, i):
    """A place with its coordinates and a price, of 2 to 17 digits."""
    return '{"id":%d,"at":{"lat":%r,"lon":%.5f},"price":%.2f,"score":%r}' % (
        i, rng.uniform(-90, 90), rng.uniform(-180, 180), rng.uniform(0, 10**rng.randrange(1, 6)), rng.random())


def spent(command, path):
    """Processor seconds of one run, and its greatest memory in megabytes."""
    with open(path, "rb") as given, open(os.devnull, "wb") as taken:
        run = subprocess.Popen(command, stdin=given, stdout=taken)
        _, status, usage = os.wait4(run.pid, 0)
    if status != 0:
        raise SystemExit(f"{command} ended with {status}")
    return usage.ru_utime + usage.ru_stime, usage.ru_maxrss // 1024


def best_of(rounds, commands, path):
    runs = [[spent(command, path) for command in commands] for _ in range(rounds)]
    return [(min(seconds for seconds, _ in own), max(memory for _, memory in own)) for own in zip(*runs)]


def libbson(room):
    flags = subprocess.run(["pkg-config", "--cflags", "--libs", "libbson-1.0"], capture_output=True, text=True)
    if flags.returncode != 0:
        raise SystemExit("bench/libbson.py: no libbson-1.0 (Debian's libbson-dev)")
    program = f"{room}/libbson"
    subprocess.run(["cc", "-O2", f"{HERE}/libbson.c", "-o", program, *flags.stdout.split()], check=True)
    return program


def main():
    sizes = megabytes(sys.argv[1:])
    subprocess.run([f"{TOP}/bson", "build"], check=True, stdout=subprocess.DEVNULL)
    ours = [f"{TOP}/crates/bson_cli/out/bson_cli", "canonical"]
    with_doubles = [f"{TOP}/crates/bson_program/out/bson_program", "canonical", "--sort-keys"]
    with tempfile.TemporaryDirectory() as room:
        theirs = libbson(room)
        print("| input | MB | bson_cli, s | MB | libbson, s | MB | ratio of times |\n|---|---|---|---|---|---|---|")
        for name, make, opening, closing in [*KINDS, ("places with prices", place, "[", "]")]:
            if make is code_with_scope:
                continue
            make = deep_value if name == "deep and mixed" else make
            opening, closing = ('{"a":[', "]}") if opening == "[" else (opening, closing)
            for size in sizes:
                path = f"{room}/input.json"
                generate(path, make, opening, closing, int(size * 1_000_000))
                own, other = best_of(ROUNDS, [with_doubles if make is place else ours, [theirs]], path)
                cells = [f"{own[0]:.2f}", own[1], f"{other[0]:.2f}", other[1], f"{own[0] / other[0]:.2f}"]
                print(f"| {name} | {size} | {' | '.join(map(str, cells))} |", flush=True)


if __name__ == "__main__":
    main()
