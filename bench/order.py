#!/usr/bin/env python3
"""Compares the program to itself with --strict, which sorts keys, on the same texts.

    bench/order.py
    bench/order.py --time [MEGABYTES ..]        (10 and 50 where none is given)

For each kind of input of bench/run.py, and for a file of a document a line, it prints the instructions in order
over those with --strict, on 1 MB, as valgrind's callgrind counts them (so that what else the machine does says nothing), and
the peak of memory of both over the size of the text, on 10 MB. With --time it prints the processor seconds of both, the
least of five runs in turns (of three from 50 MB on), beside those of libbson on the same document, as bench/libbson.py
does. bson_program has to be built (./bson lines does).
"""
import os
import random
import re
import subprocess
import sys
import tempfile

sys.dont_write_bytecode = True
import libbson
from run import KINDS, ROUNDS, TOP, code_with_scope, generate, megabytes, small_document

PROGRAM = f"{TOP}/crates/bson_program/out/bson_program"
COUNTED = ["valgrind", "--tool=callgrind", "--callgrind-out-file=/dev/null"]


def lines(path, size):
    rng, written = random.Random(20260101), 0
    with open(path, "w") as out:
        while written < size:
            written += out.write(small_document(rng, written) + "\n")


def instructions(words, path):
    ran = subprocess.run([*COUNTED, PROGRAM, *words, path], stdout=subprocess.DEVNULL, stderr=subprocess.PIPE, check=True)
    return int(re.search(rb"Collected : (\d+)", ran.stderr)[1])


def peak(words, path):
    run = subprocess.Popen([PROGRAM, *words, path], stdout=subprocess.DEVNULL)
    _, status, usage = os.wait4(run.pid, 0)
    run.returncode = status
    if status != 0:
        raise SystemExit(f"{path} was refused")
    return usage.ru_maxrss * 1024


def times(sizes):
    ways = [[PROGRAM, "canonical", "--strict"], [PROGRAM, "canonical"]]
    print("| Input | MB | Sorted, s | In order, s | libbson, s | In order over sorted | over libbson |")
    print("|---|---|---|---|---|---|---|")
    with tempfile.TemporaryDirectory() as room:
        theirs = libbson.libbson(room)
        for name, make, opening, closing in KINDS[:-1]:
            make = libbson.deep_value if name == "deep and mixed" else make
            opening, closing = ('{"a":[', "]}") if opening == "[" else (opening, closing)
            for size in sizes:
                path, rounds = f"{room}/input.json", ROUNDS if size < 50 else 3
                generate(path, make, opening, closing, int(size * 1_000_000))
                others = [] if make is code_with_scope else [[theirs]]
                by_key, in_order, *other = [own for own, _ in libbson.best_of(rounds, [*ways, *others], path)]
                cells = [f"{by_key:.3f}", f"{in_order:.3f}", f"{other[0]:.3f}" if other else ""]
                cells += [f"{in_order / by_key:.2f}", f"{in_order / other[0]:.2f}" if other else ""]
                print(f"| {name} | {size} | {' | '.join(cells)} |", flush=True)


def main():
    if sys.argv[1:2] == ["--time"]:
        return times(megabytes(sys.argv[2:]))
    inputs = [(kind[0], ["canonical"], lambda path, size, kind=kind: generate(path, *kind[1:], size)) for kind in KINDS[:-1]]
    inputs.append(("small documents, one a line", ["lines", "canonical"], lines))
    print("| Input | Instructions | Peak over size, sorted | in order |\n|---|---|---|---|")
    with tempfile.TemporaryDirectory() as room:
        path = f"{room}/input.json"
        for name, words, make in inputs:
            make(path, 1_000_000)
            by_key, in_order = (instructions([*words, *more], path) for more in (["--strict"], []))
            make(path, 10_000_000)
            peaks = [peak([*words, *more], path) / os.path.getsize(path) for more in (["--strict"], [])]
            print(f"| {name} | {in_order / by_key:.2f} | {peaks[0]:.1f} | {peaks[1]:.1f} |", flush=True)


if __name__ == "__main__":
    main()
