#!/usr/bin/env python3
"""Prints what a user of the proved programs trusts, a line for each part with its SHA-256 sum. (tools/package ships it.)

The proofs rest on the kit, which checks and compiles them, on the statements, and on what is not proved: the C library,
the header, and the scripts. The statements of a crate are its definitions (specs/) and the contracts of its public
functions. The last line is the sum of all lines above it: it changes if and only if one of them does.
"""
import hashlib
import os
import sys

sys.dont_write_bytecode = True
TOP = os.path.dirname(os.path.dirname(os.path.realpath(__file__)))
sys.path.append(f"{TOP}/tools")

import kit
import sources

# The kit's files that decide, or that end up in a program.
OF_KIT = ("WHAT", "KIT-ID", "bin", "toolchain", "c")
SCRIPTS = ("HANDLES", "crates.txt", "bson", "vbson", "tools", "languages/c/vbson.h", "languages/c/vbson.map", "languages/python", "languages/rust/src")


def files_below(path):
    """The files at or below a path, but those that a run left."""
    if os.path.isfile(path):
        return [path]
    found = []
    for at, folders, names in os.walk(path):
        folders[:] = sorted(it for it in folders if it not in ("out", "target", "__pycache__"))
        found += [f"{at}/{it}" for it in sorted(names)]
    return found


def line_of(name, *texts):
    found = hashlib.sha256()
    for it in texts:
        found.update(len(it).to_bytes(8, "little") + it)
    return f"{found.hexdigest()}  {name}"


def of_files(top, label, paths):
    for path in paths:
        for file in files_below(f"{top}/{path}"):
            with open(file, "rb") as it:
                yield line_of(f"{label}/{os.path.relpath(file, top)}", it.read())


def statements_of(crate):
    """The definitions of a crate, and the contracts of its public functions."""
    for path in sources.files_in(f"crates/{crate}/specs", ".antt"):
        yield path
        yield sources.without_comments(sources.read(path))
    for it in sources.functions_in(crate):
        if it.is_public:
            yield it.path
            yield repr([(clause.kind, clause.name, clause.text) for clause in it.clauses])


def lines(rtlib):
    yield "the kit, which checks the proofs and compiles the programs"
    yield from of_files(rtlib.KIT, "kit", OF_KIT)
    yield "the statements of each crate"
    for crate in sources.crates():
        yield line_of(crate, *(it.encode() for it in statements_of(crate)))
    yield "what is not proved: header, wrappers and scripts"
    yield from of_files(TOP, "here", SCRIPTS)


def main():
    rt = kit.rt()
    if not rt:
        print("bson: the Rattle kit is not here: no command 'rt'", file=sys.stderr)
        return 3
    found = [*lines(rt.rtlib)]
    print(*found, line_of("all of it", "\n".join(found).encode()), sep="\n")
    return 0


if __name__ == "__main__":
    sys.exit(main())
