#!/usr/bin/env python3
"""Writes what this checkout has proved and built to an archive, or reads such an archive into a checkout.

    tools/proofs.py write ARCHIVE    (./bson proofs ARCHIVE)
    tools/proofs.py read ARCHIVE     (./bson build --from ARCHIVE)

An archive holds the proved libraries and programs, and SUMS: the kit, and for each crate the sum of its sources, the
sum of what was made of them, and the last line of its proof. An archive is read only if the kit here and all sources
of its crates have the sums of the archive, and its files do too. Then tools/build.py finds all of it built.

Status 0: done; 1: the archive was not written, or was refused with the reason; 2: other arguments.
"""
import hashlib
import json
import os
import shutil
import subprocess
import sys

sys.dont_write_bytecode = True
TOP = os.path.dirname(os.path.dirname(os.path.realpath(__file__)))
sys.path.append(f"{TOP}/tools")

import build
import kit

FORMAT = 1


class Refused(Exception):
    pass


def sum_of_kit(rtlib):
    found = hashlib.sha256()
    for name in ("WHAT", "KIT-ID"):
        found.update((rtlib.text_of(f"{rtlib.KIT}/{name}") or "").encode())
    return found.hexdigest()


def steps_here(rt):
    """The build of each crate, lowest first."""
    crates = [it for it in rt.rtlib.crates_below(TOP)]
    sums = build.sums_of(rt.rtlib, crates)
    return {it.name: build.Step(rt.rtlib, it, sums[it.name]) for it in crates}


def write(rt, archive):
    built = {name: step for name, step in steps_here(rt).items() if step.is_built()}
    if not built:
        raise Refused("nothing is proved here yet; build first")
    crates = {name: [step.of_sources, step.sum_of_made(), step.proved] for name, step in built.items()}
    sums = {"format": FORMAT, "kit": sum_of_kit(rt.rtlib), "crates": crates}
    room = f"{TOP}/crates/SUMS"
    with open(room, "w", encoding="utf-8") as it:
        json.dump(sums, it, indent=1)
    paths = ["SUMS", *(os.path.relpath(step.made, f"{TOP}/crates") for step in built.values())]
    how = ["--sort=name", "--owner=0", "--group=0", "--numeric-owner", "--mtime=@0", "--use-compress-program", "zstd -q -10 -T0"]
    try:
        done = subprocess.run(["tar", "--create", "--file", archive, *how, "--directory", f"{TOP}/crates", *paths], check=False)
    finally:
        os.remove(room)
    if done.returncode:
        raise Refused(f"{archive} can't be written")
    print(f"bson: {archive} holds {build.counted(len(built), 'proved crate')}")


def unpacked(archive, room):
    """Unpacks the archive into a folder, and returns its sums."""
    words = ["tar", "--extract", "--file", archive, "--use-compress-program", "zstd -q", "--no-same-owner", "--directory", room]
    if subprocess.run(words, check=False, stderr=subprocess.DEVNULL).returncode:
        raise Refused(f"{archive} can't be unpacked")
    try:
        with open(f"{room}/SUMS", encoding="utf-8") as it:
            sums = json.load(it)
    except (OSError, ValueError):
        raise Refused(f"{archive} holds no sums") from None
    if sums.get("format") != FORMAT:
        raise Refused(f"{archive} has another format")
    return sums


def check(rt, steps, sums, room):
    """Compares the kit, the sources and each file of the archive with its sums."""
    if sums["kit"] != sum_of_kit(rt.rtlib):
        raise Refused(f"the archive was proved by another kit than {rt.rtlib.KIT}")
    for name, (of_sources, of_made, proved) in sums["crates"].items():
        step = steps.get(name)
        if not step or step.of_sources != of_sources:
            raise Refused(f"the archive was proved from other sources of {name}")
        if not build.PROVED.fullmatch(proved):
            raise Refused(f"the archive does not say that {name} is proved")
        path = f"{room}/{os.path.relpath(step.made, f'{TOP}/crates')}"
        found = build.sum_of_files(path) if os.path.isdir(path) else rt.rtlib.sum_of(path)
        if found != of_made:
            raise Refused(f"the archive's files of {name} differ from its sums")


def read(rt, archive):
    steps = steps_here(rt)
    room = f"{TOP}/crates/unpacked.{os.getpid()}"
    os.mkdir(room)
    try:
        sums = unpacked(archive, room)
        check(rt, steps, sums, room)
        origin = f"proved on another machine, at the sums {hashlib.sha256(rt.rtlib.text_of(f'{room}/SUMS').encode()).hexdigest()}"
        for name, (_, _, proved) in sums["crates"].items():
            step = steps[name]
            shutil.rmtree(step.kept, ignore_errors=True)
            os.makedirs(step.kept)
            os.replace(f"{room}/{os.path.relpath(step.made, f'{TOP}/crates')}", step.made)
            step.proved, step.origin = proved, origin
            step.keep()
    finally:
        shutil.rmtree(room, ignore_errors=True)
    print(f"bson: {build.counted(len(sums['crates']), 'crate')} {origin}", file=sys.stderr)


def main():
    if len(sys.argv) != 3 or sys.argv[1] not in ("write", "read"):
        print("usage: tools/proofs.py write|read ARCHIVE", file=sys.stderr)
        return 2
    rt = kit.rt()
    try:
        if not rt:
            raise Refused("the Rattle kit is not here: no command 'rt'")
        (write if sys.argv[1] == "write" else read)(rt, os.path.abspath(sys.argv[2]))
    except Refused as why:
        print(f"bson: {why}", file=sys.stderr)
        return 1
    return 0


if __name__ == "__main__":
    sys.exit(main())
