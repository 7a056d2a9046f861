"""Runs the commands of PAGES, and by messages.py the rows of docs/errors.md. The commands of a page run in one folder, in their
order, and their output must be what is below them. Blocks of Python must print what their comments say. What is not built or
installed is not tried, and that is reported. A command that ends in a backslash goes on in the next line.

Who runs the commands of the other pages is in pages.py. Blocks of programs are run by tests/vbson (docs/c.md, docs/rust.md and
docs/python.md) and tests/examples (crates/NAME/README.md). A program for Spark or Ray runs with the substitutes of engines.py.
A command of any page must name scripts and options that exist (commands.py).
"""
import os
import re
import shutil
import subprocess
import sys
import tempfile

import messages
import sources

PAGES = ("docs/guide.md", "docs/SCALE.md")
PROGRAMS = ("bson_cli", "bson_program")
LIBRARY = f"{sources.TOP}/languages/out/lib/libvbson.so"
# The commands that a recipe may need beside those that each test needs, and the module of Python.
TOOLS, MODULES = ("jq", "sqlite3"), ("pandas", "distributed")
COMMAND = "    $ "
ENGINES = ("sc", "ray")
# The first that has the modules of a block runs it. Debian's packages are modules of the second.
PYTHONS = (sys.executable, "/usr/bin/python3")


def is_built(name):
    """Whether the program is built, and ./bson builds nothing before it runs."""
    out = f"{sources.TOP}/crates/{name}/out"
    if not (os.access(f"{out}/{name}", os.X_OK) and os.path.exists(f"{out}/built_from")):
        return False
    changed = (os.path.getmtime(f"{sources.TOP}/{it}") for it in sources.files_in("crates", ".rt", ".antt"))
    return max(changed) <= os.path.getmtime(f"{out}/built_from")


def parts(text):
    """Each command with its output, and each block of Python, in the order of the page: its section, kind, code, output."""
    heading, lines = "", iter(text.split("\n"))
    made = []
    for line in lines:
        if line.startswith("## "):
            heading = line[3:]
        elif line == "```Python":
            block = "".join(f"{it}\n" for it in iter(lambda: next(lines), "```"))
            printed = "".join(f"{it}\n" for it in re.findall(r"(?m)^print\(.*\)  # (.*)$", block))
            made.append([heading, "Python", block, printed])
        elif line.startswith(COMMAND):
            code = line[len(COMMAND) :]
            while code.endswith("\\"):
                code += "\n" + next(lines)
            made.append([heading, "command", code, ""])
        elif line.startswith("    ") and made and made[-1][1] == "command":
            made[-1][3] += f"{line[4:]}\n"
    return made


def python_for(code):
    """The interpreter for a block, and the module that none has."""
    needed = [it for it in MODULES if re.search(rf"\b(?:import|from) {it}\b", code)]
    for python in filter(os.path.exists, PYTHONS):
        missing = [it for it in needed if subprocess.run([python, "-c", f"import {it}"], capture_output=True).returncode]
        if not missing:
            return python, ""
    return "", missing[0]


def lacks(heading, kind, code, of_section):
    """What this part needs that is not here."""
    if kind == "Python":
        if not os.path.exists(LIBRARY):
            return "the library for Python is not built"
        missing = python_for(code)[1]
        return f"there is no module {missing}" if missing else ""
    missing = [it for it in TOOLS if re.search(rf"\b{it}\b", of_section) and not shutil.which(it)]
    return f"there is no command {missing[0]}" if missing else ""


def ran(kind, code, room):
    environment = {**os.environ, "PATH": f"{room}/bin:{os.environ['PATH']}", "VBSON_LIBRARY": LIBRARY, "LC_ALL": "C.UTF-8",
                   "PYTHONPATH": f"{sources.TOP}/languages/python:{os.path.dirname(os.path.realpath(__file__))}"}
    words = ["bash", "-c", code]
    if kind == "Python":
        engines = "".join(f"from engines import {it}\n" for it in ENGINES if re.search(rf"\b{it}\.", code))
        words = [python_for(code)[0], "-B", "-c", engines + code]
    return subprocess.run(words, cwd=room, env=environment, stdin=subprocess.DEVNULL, capture_output=True, text=True, timeout=60)


def checks(program=f"{sources.TOP}/bson"):
    """What is wrong with each part that was tried."""
    found = {page: parts(sources.read(page)) for page in PAGES}
    for page, made in found.items():
        yield [] if any(kind == "command" for _, kind, *_ in made) else [f"{page} has no commands"]
    if program == f"{sources.TOP}/bson" and not all(map(is_built, PROGRAMS)):
        print(f"not tried: the commands of {', '.join(PAGES)} and the rows of {messages.ERRORS}, since the programs are not built")
        return
    yield from messages.checks(program)
    for page, made in found.items():
        yield from page_checks(page, made, program)


def page_checks(page, found, program):
    """What is wrong with each part of a page that was tried."""
    with tempfile.TemporaryDirectory() as room:
        os.mkdir(f"{room}/bin")
        os.symlink(program, f"{room}/bin/bson")
        for heading, kind, code, wanted in found:
            of_section = "\n".join(it[2] for it in found if it[0] == heading and it[1] == "command")
            if why := lacks(heading, kind, code, of_section):
                print(f"not tried: a part of {page}, '{heading}', since {why}")
                continue
            answer = ran(kind, code, room)
            is_right = (answer.returncode, answer.stdout) == (0, wanted)
            yield [] if is_right else [f"{page}, '{heading}': {code}\n{answer.stdout}{answer.stderr}"]
