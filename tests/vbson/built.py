"""Builds crates/vbson/out/libvbson.a over the libraries that an `rt ci` of these very files has left.

    tests/vbson/built.py                     by LLVM
    tests/vbson/built.py rattle ARCHIVE      by Rattle's own compiler, with the kit's object that allocates, to ARCHIVE

`rt ci` proves a static library and builds none, and its libraries are no other command's; a build over them spares
proving all of them again.
"""
import os
import shutil
import sys
from pathlib import Path

sys.dont_write_bytecode = True
ROOT = Path(__file__).resolve().parents[2]
sys.path.append(str(ROOT / "tools"))

import kit
import library

# What a check has proved, in the folder of the crate: both compilers start from it.
CHECKED = "out/checked"


def main():
    os.chdir(ROOT)
    rt = kit.rt()
    rt.rtlib.guarded()
    crate = next(it for it in rt.rtlib.crates_below(os.getcwd()) if it.name == "vbson")
    kit.share(crate.below())
    rt.rtlib.lock([crate])
    jobs = ["--jobs", str(len(os.sched_getaffinity(0)))]
    for it in crate.below():
        is_of_ci = os.path.isdir(it.rlib) and not os.path.exists(f"{os.path.dirname(it.rlib)}/stamp")
        if not is_of_ci and it.build_rlib(jobs, anew=False):
            return 1
    os.makedirs(f"{crate.folder}/out", exist_ok=True)
    if sys.argv[1:]:
        status = compiled(rt, crate, jobs, sys.argv[1], "out/libvbson_by_rattle.a")
        status = status or library.join(sys.argv[2], f"{crate.folder}/out/libvbson_by_rattle.a", f"{rt.rtlib.KIT}/c/liblibc_c.a")
    else:
        shutil.rmtree(f"{crate.folder}/{CHECKED}", ignore_errors=True)
        status = compiled(rt, crate, jobs, "llvm", "out/libvbson.a")
    return status


def compiled(rt, crate, jobs, backend, made):
    """Compiles the crate, which is proved before, unless that is done."""
    words = crate.words(jobs, keeps=False)
    if not os.path.isdir(f"{crate.folder}/{CHECKED}") and crate.call(rt.rtlib.RATTLE, "check", *words, "-o", CHECKED):
        return 1
    # (a build that takes the verdict of a check takes no logic and no jobs)
    for flag in ("--logic-built", "--jobs"):
        del words[words.index(flag):words.index(flag) + 2]
    words += ["--crate-checked", CHECKED, "--toolchain", f"{rt.rtlib.KIT}/toolchain", "--backend", backend, "-o", made]
    return crate.call(rt.rtlib.RATTLE, "build", *words)


if __name__ == "__main__":
    sys.exit(main())
