"""The tests of the Python package, each with the extension module and without it, and under the sanitizers; and its examples."""
import os
import sys
from pathlib import Path

from tally import LANGUAGES, differs, example, printed_by, run, wants_status_0

HERE = Path(__file__).resolve().parent
LIBRARY = LANGUAGES / "out/lib"
EXTENSION = LIBRARY / "_vbson.abi3.so"
EXAMPLES = LANGUAGES / "python/examples"
DEBIAN = "/usr/bin/python3"
MOST_LINES = 30
TESTS = ("python_calls.py", "python_errors.py", "python_objects.py", "python_values.py")


def where(extension=None):
    """The variables of a run: the library, the package, and the extension module or none."""
    return {**os.environ, "VBSON_LIBRARY": str(LIBRARY / "libvbson.so"), "PYTHONPATH": f"{LANGUAGES}/python:{HERE}",
            "VBSON_EXTENSION": str(extension or "")}


def try_python(tally):
    if not EXTENSION.exists():
        print("not tried, since there is no Python.h: calls and values of Python by the module _vbson")
    for extension in (None, EXTENSION) if EXTENSION.exists() else (None,):
        try_python_by(tally, where(extension), f" by {extension.name}" if extension else "")


def try_extension(tally, room, sanitized):
    """The compiled module under the sanitizers, which are loaded before Python."""
    headers = run([DEBIAN, "-c", "import sysconfig; print(sysconfig.get_path('include'))"]).stdout.strip()
    if not Path(headers, "Python.h").exists():
        return
    made = f"{room}/_vbson.abi3.so"
    words = ["cc", "-std=c11", "-O1", "-g", "-Wall", "-Wextra", "-Werror", "-Wno-unused-parameter", *sanitized, "-shared", "-fPIC", f"-I{headers}"]
    if wants_status_0(tally, "cc _vbson.c", [*words, LANGUAGES / "python/_vbson.c", "-o", made]):
        libraries = [run(["cc", f"-print-file-name={it}.so"]).stdout.strip() for it in ("libasan", "libubsan")]
        how = {**where(made), "LD_PRELOAD": " ".join(libraries), "ASAN_OPTIONS": "detect_leaks=0", "PYTHONMALLOC": "malloc"}
        for test in ("python_values.py", "python_objects.py"):
            tally.counted(f"{test} under the sanitizers", run([DEBIAN, "-B", HERE / test], env=how))


def has_bson():
    return run([DEBIAN, "-c", "import bson.codec_options"]).returncode == 0


def try_python_by(tally, how, name):
    for test in TESTS:
        tally.counted(f"{test}{name}", run([sys.executable, "-B", HERE / test], env=how))
    # (its package bson is that of Debian's Python)
    if has_bson():
        for test in ("python_objects.py", "python_values.py"):
            tally.counted(f"{test} with bson{name}", run([DEBIAN, "-B", HERE / test], env=how))
    else:
        print("not tried, since there is no python3-bson: values by the types of bson")
    block = example("python")
    ran = run([sys.executable, "-B", "-c", block], env=how)
    tally.told(f"the example in Python{name}", differs(ran, printed_by(block, "#")))


def try_python_examples(tally, room):
    """The examples of languages/python/examples, whose output and bytes are those of the same work by PyMongo."""
    for path in sorted(EXAMPLES.glob("*.py")):
        lines = len(path.read_text().splitlines())
        tally.told(f"the length of {path.name}", None if lines <= MOST_LINES else f"{lines} lines of at most {MOST_LINES}")
    if has_bson():
        tally.counted("python_examples.py", run([DEBIAN, "-B", HERE / "python_examples.py", EXAMPLES, room], env=where()))
    else:
        print("not tried, since there is no python3-bson: the examples of languages/python/examples")
