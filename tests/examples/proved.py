"""Lays out the program of the examples, proves and builds it over the libraries that are there, and runs it, as `rt ci` does."""
import os
import subprocess
import tempfile
from dataclasses import dataclass, field

import kit
import program
import sources

NAME = "bson_examples"
# What given.txt and the root of the program use.
ALWAYS = {"bson", "bson_store", "std", "anyhow"}


@dataclass
class Outcome:
    """What came of the program: why it is not proved, and what it printed as each compiler made it, if it ran."""

    unproved: str = ""
    printed: dict[str, str] = field(default_factory=dict)
    # The compilers whose program ended well and printed what the examples say.
    right: set[str] = field(default_factory=set)


def lay_out(rt, folder):
    """Lays out the sources as `rt fmt` does, and returns what it says of those that it cannot read."""
    files = [f"{folder}/src/{it}" for it in sorted(os.listdir(f"{folder}/src"))]
    ran = subprocess.run([rt.rtlib.RATTLE, "fmt", "--write", *files], stdin=subprocess.DEVNULL, capture_output=True, text=True)
    return "" if ran.returncode == 0 else f"{ran.stdout}{ran.stderr}status {ran.returncode}"


def is_of_ci(crate):
    """Whether its library is one that `rt ci` has left."""
    return os.path.isdir(crate.rlib) and not os.path.exists(f"{os.path.dirname(crate.rlib)}/stamp")


def missing(crates):
    """The libraries that are not there: each is one that `rt ci` has left, or else each is one of tools/build.py."""
    if not all(map(is_of_ci, crates)):
        for it in crates:
            it.rlib = f"{it.folder}/out/rlib/statements/{it.name}.rlib"
    return [it.name for it in crates if not os.path.isdir(it.rlib)]


def outcome_of(rt, folder, examples, jobs):
    """Proves the program of these examples from nothing, and runs it. Its sources are below a folder."""
    # (its first call sets a handler of a signal, which only the main thread may)
    rt.rtlib.guarded()
    rt.Crate.allowed = rt.handles_of(sources.TOP)
    found = {it.name: it for it in rt.rtlib.crates_below(sources.TOP)}
    names = ALWAYS.union(*(it.crates for it in examples))
    crate = rt.Crate(folder, sources.TOP, {}, name=NAME)
    crate.deps, crate.of_kit = [found[it] for it in found if it in names], sorted(names - {*found})
    kit.share(crate.below())
    if lost := missing(crate.below()):
        return Outcome(f"these libraries are not built: {', '.join(lost)}")
    os.mkdir(f"{folder}/out")
    with open(f"{folder}/stdout", "w", encoding="utf-8") as file:
        file.write(program.expected(examples))
    with tempfile.TemporaryFile("w+", errors="replace") as crate.out:
        status = crate.ci(["--jobs", str(jobs)], tests=False)
        crate.out.seek(0)
        outcome = Outcome(crate.out.read() if status else "")
    for compiler, ending in rt.BACKENDS.items():
        if not status and os.path.isfile(f"{folder}/out/{NAME}{ending}"):
            if rt.run(crate, False, ending):
                outcome.right.add(compiler)
            with open(f"{folder}/out/stdout{ending}", encoding="utf-8", errors="replace") as file:
                outcome.printed[compiler] = file.read()
    return outcome
