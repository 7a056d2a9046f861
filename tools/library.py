"""usage: ./vbson build | link | install PREFIX

  build            proves and builds the library, and makes languages/out:
                     lib/libvbson.a    the whole library in one archive
                     lib/libvbson.so   the same as a shared library, which exports only the names vbson_*
                     lib/_vbson.abi3.so    a faster extension module for Python, if the headers of a CPython are installed
                     include/vbson.h   the header, for C11 and C++, with what a caller must guarantee
                     lib/pkgconfig, lib/cmake    packages for pkg-config and CMake; the folder can be moved
  link             makes the same from crates/vbson/out/libvbson.a, without a build
  install PREFIX   builds, and copies these to PREFIX (below DESTDIR, if that is set), with the module for Python, the
                   package for Rust and the manual page vbson(3)

languages/rust is a Cargo package over the archive, languages/python a package over the shared library, and
languages/c has examples. The library runs on x86-64 Linux with glibc and a processor with SSE4.2 and POPCNT.

It needs the Rattle kit (rt) with python3, and cc and ar.
"""
# Status 0: done; 1: it could not be linked or installed; 2: wrong arguments; 3: it can't be proved and built here.
import os
import shutil
import subprocess
import sys
import tempfile
from pathlib import Path

sys.dont_write_bytecode = True
import kit
import sources

TOP = sources.TOP
OUT = f"{TOP}/languages/out"
BUILT = f"{TOP}/crates/vbson/out/libvbson.a"
VERSION = subprocess.run([f"{TOP}/bson", "--version"], check=True, stdout=subprocess.PIPE, encoding="utf-8").stdout.split()[1]
SHARED = f"libvbson.so.{VERSION.split('.')[0]}"
# What each shared library is linked with: all calls are found when it is loaded, and it has the names of its exports alone.
LINKED = ("-shared", "-Wl,-z,noexecstack", "-Wl,-z,now", "-Wl,-s")
# The files of languages/c that go to folders of languages/out: how each name goes on after vbson, and the folder.
PACKAGES = {".h": "include", ".pc": "lib/pkgconfig", "Config.cmake": "lib/cmake/vbson", "ConfigVersion.cmake": "lib/cmake/vbson"}


def done(*words, **how):
    """What the command prints, which has to do well."""
    return subprocess.run(words, check=True, stdout=subprocess.PIPE, encoding="utf-8", **how).stdout


def pythons(code):
    """Each Python here that runs the code without a fault, with what that prints."""
    for python in filter(shutil.which, ("python3", "/usr/bin/python3")):
        ran = subprocess.run([python, "-c", code], check=False, capture_output=True, encoding="utf-8")
        if ran.returncode == 0:
            yield python, ran.stdout.strip()


def join(to, *archives):
    """Makes one archive of the objects of several."""
    with tempfile.TemporaryDirectory() as room:
        for it in archives:
            done("ar", "x", os.path.abspath(it), cwd=room)
        Path(to).unlink(missing_ok=True)
        done("ar", "qcDs", to, *sorted(f"{room}/{it}" for it in os.listdir(room)))


def link():
    """Makes the archive, the shared library, the module for Python and the packages. (rt ci rejects a link inside the repository.)"""
    to = f"{OUT}/lib"
    # (the object that allocates from the C library is in the kit)
    join(f"{to}/libvbson.a", BUILT, f"{kit.rt().rtlib.KIT}/c/liblibc_c.a")
    words = (*LINKED, "-Wl,-z,defs", f"-Wl,-soname,{SHARED}", f"-Wl,--version-script={TOP}/languages/c/vbson.map")
    done("cc", "-o", f"{to}/{SHARED}", *words, "-Wl,--whole-archive", f"{to}/libvbson.a", "-Wl,--no-whole-archive")
    shutil.copy(f"{to}/{SHARED}", f"{to}/libvbson.so")
    # The module is compiled where the headers of a CPython are; it serves each from 3.9 on.
    Path(f"{to}/_vbson.abi3.so").unlink(missing_ok=True)
    folders = (it for _, it in pythons("import sysconfig; print(sysconfig.get_path('include'))"))
    if headers := next((it for it in folders if os.path.exists(f"{it}/Python.h")), None):
        words = (*LINKED, "-std=c11", "-O2", "-Wall", "-Wextra", "-Wno-unused-parameter", "-fPIC", f"-I{headers}")
        done("cc", "-o", f"{to}/_vbson.abi3.so", *words, f"{TOP}/languages/python/_vbson.c")
    for end, folder in PACKAGES.items():
        os.makedirs(f"{OUT}/{folder}", exist_ok=True)
        Path(f"{OUT}/{folder}/vbson{end}").write_text(sources.read(f"languages/c/vbson{end}").replace("@VERSION@", VERSION), "utf-8")
    os.replace(f"{OUT}/built_from.new", f"{OUT}/built_from")


def is_current():
    """Whether nothing that the library is made from is newer than what was built last."""
    made_from = ["HANDLES", "crates.txt", "bson", "vbson", "tools/library.py", "languages/python/_vbson.c", "languages/c"]
    made_from += sources.files_in("languages/c", "") + sources.files_in("crates", ".rt", ".antt")
    try:
        last = os.stat(f"{OUT}/built_from").st_mtime_ns
        return os.path.exists(f"{OUT}/lib/{SHARED}") and all(os.stat(f"{TOP}/{it}").st_mtime_ns <= last for it in made_from)
    except OSError:
        return False


def make(word):
    """Makes the library: with 'build' proved and built first, and with 'link' of the archive as it is."""
    for it in ("rt", "cc", "ar"):
        if not shutil.which(it):
            print(f"vbson: no command '{it}', which making the library needs", file=sys.stderr)
            return 3
    why = f"{OUT} can't be written"
    try:
        # (it is as old as what it is made from: as this moment, or as the archive)
        os.makedirs(f"{OUT}/lib", exist_ok=True)
        done("touch", *(["-r", BUILT] if word == "link" else []), f"{OUT}/built_from.new")
        if word == "build" and subprocess.call([sys.executable, f"{TOP}/tools/build.py", "vbson"], stdin=subprocess.DEVNULL):
            return 3
        why = f"the library could not be linked in {OUT}"
        link()
    except (OSError, subprocess.CalledProcessError):
        print(f"vbson: {why}", file=sys.stderr)
        return 1
    return 0


def main():
    match sys.argv[1:]:
        case ["--help" | "-h"]:
            print(__doc__, end="")
        case ["--version" | "-v"]:
            print("vbson", VERSION)
        case ["build" | "link" as word]:
            return 0 if word == "build" and is_current() else make(word)
        case ["install", prefix]:
            os.execv(f"{TOP}/tools/install", ["install", "library", prefix])
        case _:
            print("usage: ./vbson build | link | install PREFIX; see ./vbson --help", file=sys.stderr)
            return 2
    return 0


if __name__ == "__main__":
    try:
        sys.exit(main())
    except KeyboardInterrupt:
        sys.exit(130)
