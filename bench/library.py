#!/usr/bin/env python3
"""Times the library for C and Rust beside the program, and beside libbson where Debian's libbson-dev is installed.

    bench/library.py

A million calls on a document of 103 bytes, the best of three runs; and each kind of input of bench/run.py at 10 MB: the
program's wall time (the best of five runs), the first call of a C program and its best of five, and the same of a Rust
program where cargo is. libbson reads numbers
and keys as given, in their order; it takes a document alone, so it gets only the kind that is one.
"""
import os
import shutil
import subprocess
import sys
import tempfile

sys.dont_write_bytecode = True

from run import BYTES, HERE, KINDS, ROUNDS, TOP, best_of, generate

PROGRAM = f"{TOP}/crates/bson_cli/out/bson_cli"
CALLS, SIZE = 1000 if BYTES else 1_000_000, BYTES or 10_000_000
DEBIAN = "/usr/share/cargo/registry"


def built(room, name, words):
    done = subprocess.run(["cc", "-O2", f"{HERE}/library.c", "-o", f"{room}/{name}", *words], capture_output=True)
    return f"{room}/{name}" if done.returncode == 0 else None


def libbson(room):
    if not shutil.which("pkg-config"):
        return None
    for name in ("bson2", "libbson-1.0"):
        found = subprocess.run(["pkg-config", "--cflags", "--libs", name], capture_output=True, text=True)
        if found.returncode == 0:
            return built(room, "libbson", ["-DLIBBSON", *found.stdout.split()])
    return None


def rust(room):
    if not shutil.which("cargo"):
        return None
    shutil.copytree(f"{TOP}/languages/rust", f"{room}/rust")
    if os.path.isdir(DEBIAN):
        # (cargo looks for optional packages too, and finds them among those of Debian)
        os.mkdir(f"{room}/rust/.cargo")
        with open(f"{room}/rust/.cargo/config.toml", "w") as it:
            it.write(f'[source.crates-io]\nreplace-with = "debian"\n[source.debian]\ndirectory = "{DEBIAN}"\n')
    shutil.copy(f"{HERE}/library.rs", f"{room}/rust/examples")
    where = {**os.environ, "VBSON_LIB": f"{TOP}/languages/out/lib", "CARGO_TARGET_DIR": f"{room}/target"}
    words = ["cargo", "build", "--offline", "--quiet", "--release", "--example", "library"]
    done = subprocess.run(words, cwd=f"{room}/rust", env=where)
    return f"{room}/target/release/examples/library" if done.returncode == 0 else None


def nanoseconds(program):
    runs = [subprocess.run([program, "small", str(CALLS)], capture_output=True, text=True, check=True) for _ in range(3)]
    return min(int(it.stdout) for it in runs)


def seconds(program, path):
    with open(path, "rb") as given:
        ran = subprocess.run([program, "whole", "5"], stdin=given, capture_output=True, text=True, check=True)
    return [float(it) for it in ran.stdout.split()]


def main():
    if not BYTES:
        subprocess.run([f"{TOP}/vbson", "build"], check=True)
    with tempfile.TemporaryDirectory() as room:
        ours = built(room, "library", [f"-I{TOP}/languages/out/include", f"{TOP}/languages/out/lib/libvbson.a"])
        theirs, in_rust = libbson(room), rust(room)
        print(f"a call on 103 bytes: {nanoseconds(ours)} ns")
        print(f"the same by libbson: {nanoseconds(theirs)} ns" if theirs else "libbson is not here")
        print(f"the same from Rust: {nanoseconds(in_rust)} ns" if in_rust else "cargo is not here")
        print(f"| input of {SIZE / 1e6:g} MB | bson_cli, s | C, first call, s | C, best call, s | Rust, first call, s | Rust, best call, s |\n|---|---|---|---|---|---|")
        for name, make, opening, closing in KINDS:
            path = f"{room}/input.json"
            generate(path, make, opening, closing, SIZE)
            [(program, _)] = best_of(ROUNDS, [[PROGRAM, "canonical"]], path)
            first, least = seconds(ours, path)
            cells = [program, first, least, *(seconds(in_rust, path) if in_rust else [])]
            print(f"| {name} | {' | '.join(f'{it:.2f}' for it in cells)} |", flush=True)
            if theirs and opening == "{":
                first, least = seconds(theirs, path)
                print(f"| the same by libbson | | {first:.2f} | {least:.2f} |")


if __name__ == "__main__":
    main()
