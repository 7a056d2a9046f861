"""Compares the tables of the pages that say what a source says too, and no other test compares.

Other tests compare docs/PROMISES.md and docs/reading-the-specs.md (tests/promises), docs/API.md (tests/api), the crates of
docs/DESIGN.md (tests/layers), docs/errors.md and the options of docs/PROGRAMS.md (here), the manual pages and the completions
(tests/install), vbson.h and the wrappers (tests/vbson), and docs/DIFFERENCES.md (tests/peers).
"""
import re

import sources

CODE = re.compile(r"`([^`]+)`")


def table(page, head):
    """The cells of each row of the table with this head."""
    lines = iter(sources.read(page).partition(f"\n| {head} |\n")[2].split("\n")[1:])
    rows = []
    for line in lines:
        if not line.startswith("|"):
            break
        rows.append([it.strip() for it in re.split(r"(?<!\\)\|", line.strip("|"))])
    return rows


def codes(rows, column):
    return {it for row in rows for it in CODE.findall(row[column])}


def strings(path, form):
    return set(re.findall(form, sources.without_comments(sources.read(path))))


def messages():
    """The messages of both programs."""
    rows = table("docs/PROGRAMS.md", "Status | Line on standard error | When")
    yield "the lines of docs/PROGRAMS.md", {it for it in codes(rows, 1) if it.startswith("bson_cli: ")}, \
        strings("crates/bson_convert/src/fault.rt", r'=> "(bson_cli: [^"]+)"')
    yield "the messages of docs/PROGRAMS.md", codes(table("docs/PROGRAMS.md", "Message | When"), 0), \
        strings("crates/bson_convert/src/encode_error.rt", r'NoBytes::\w+ => "([^"]+)"')
    usage, text = re.findall(r'(?s)pub const (?:USAGE|HELP): &str =\s*"(.*?)";', sources.read("crates/bson_program/src/help_text.rt"))
    yield "the usage of bson_program and its help", usage, text.partition("\n\n")[0]
    yield "the help of bson_program", text.replace('\\"', '"') + "\n", sources.read("tests/lines/help.txt")


def of_python():
    """The options and the errors of the package."""
    rows = table("docs/python.md", "Option | Default | Use")
    options = r"(?ms)^    (\w+)  .*?\((True|False) by default\)"
    yield "the options of docs/python.md", [(*CODE.findall(row[0]), *CODE.findall(row[1])) for row in rows], \
        re.findall(options, sources.read("languages/python/vbson/_options.py"))
    yield "the errors of docs/python.md", codes(table("docs/python.md", "What is rejected | Error"), 1) - {"TypeError", "OverflowError"}, \
        set(re.findall(r"(?m)^class (\w+)\((?!ValueError)", sources.read("languages/python/vbson/errors.py")))


def calls():
    """The calls of the library, but those that are named by their form."""
    exported = {name for file in sources.files_in("crates/vbson/src", ".rt")
                for name in re.findall(r'extern "C" fn (vbson_\w+)', sources.read(file))}
    listed = codes(table("languages/README.md", "Call | What its contract says"), 0)
    yield "the calls of languages/README.md", {it for it in listed if it.startswith("vbson_")}, \
        {it.removesuffix("_nonnull") for it in exported if not re.search(r"_(?:print|free|version)$", it)}


def memory():
    """The figures of docs/PROGRAMS.md, which are at least those that bench/README.md has."""
    said = [row[1] for row in table("docs/PROGRAMS.md", "What | Times the input")]
    measured = [row[1].split("; ") for row in table("bench/README.md", "Call or command, and input | Times the input")]
    yield "the memory of docs/PROGRAMS.md", [max(map(float, [it, *row])) for it, row in zip(said, measured, strict=True)], \
        list(map(float, said))


def parts():
    """The parts of ./test."""
    listed = {" ".join(it.split()[:2]) if it.startswith("rt ") else it.split()[0]
              for it in codes(table("tests/README.md", "Part | What it shows"), 0)}
    run = {it[0] if it[0].startswith("tests/") else " ".join(it[:2])
           for it in map(str.split, re.findall(r"(?m)^ *part '[^']*' (.*)$", sources.read("test")))}
    yield "the parts of ./test in tests/README.md", listed, run


def checks():
    for found in (messages, of_python, calls, memory, parts):
        for what, said, meant in found():
            if said == meant and said:
                yield []
            elif isinstance(said, set):
                yield [f"{what}: {sorted(said - meant)} are not in the source, and {sorted(meant - said)} are not in the page"]
            else:
                yield [f"{what}: {said} and {meant}"]
