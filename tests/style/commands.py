"""Checks that each command of a document that is a script of the repository names one that exists, with options that it has.

A command is an indented line, after '$ ' or alone, and each of its parts after '|', ';', '&&' or '(', and code of several
words in the text. The options of the installed `bson` are those of `./bson --help`, which builds nothing. Those of another script
are in its text, and those of `./bson` in both. The page of the program has each form of the command, and each option, that
`./bson --help` has.
"""
import functools
import os
import re
import subprocess

import sources

LINE = re.compile(r"(?m)^    (?:\$ )?(.+)$")
IN_TEXT = re.compile(r"`([\w./]+ [^`\n]+)`")
PART = re.compile(r"\s\|\s|;|&&|\(|\bthen\b|<")
PAGE = "docs/PROGRAMS.md"
SCRIPT = re.compile(r"(?:\.\./)*(?:\./(?:bson|vbson|test)|(?:tests|tools|bench)/[\w/.]+|bson)")
OPTION = re.compile(r"(?<=[\s\[|,])--[a-z][a-z0-9-]*")
# An option that is named in the text.
NAMED = re.compile(r"`(--[a-z][a-z0-9-]*)")


@functools.cache
def words_of(script):
    """The text that has the options of a script, or None if there is no script of this name."""
    if script in ("bson", "./bson"):
        text = subprocess.run([f"{sources.TOP}/bson", "--help"], capture_output=True, text=True, timeout=60).stdout
        return text if script == "bson" else text + sources.read("bson")
    path = f"{sources.TOP}/{re.sub(r'^[./]+', '', script)}"
    if not os.access(path, os.X_OK) or os.path.isdir(path):
        return None
    with open(path, encoding="utf-8") as file:
        return file.read()


def commands(text):
    """Each command of a document: its script and the rest of it. (Blocks of code between fences are programs.)"""
    text = re.sub(r"(?ms)^```.*?^```$", "", text)
    for line in LINE.findall(text) + IN_TEXT.findall(text):
        for part in PART.split(re.sub(r"'[^']*'|\"[^\"]*\"|\s#.*", " ", line)):
            words = part.split()
            if words and SCRIPT.fullmatch(words[0]):
                yield words[0], part


def faults(path, script, part):
    text = words_of(script)
    if text is None:
        yield f"{path} has the command '{part.strip()}', and there is no script {script}"
        return
    for option in OPTION.findall(part):
        if not re.search(rf"{option}\b", text):
            yield f"{path} has the command '{part.strip()}', and {script} has no option {option}"


def usage():
    """Each form of the command in the first paragraph of `./bson --help`."""
    first = words_of("bson").partition("\n\n")[0].removeprefix("usage:")
    return [f"./bson {' '.join(it.split())}" for it in re.split(r" bson ", first)[1:]]


def page_checks():
    """Whether the page of the program has each form of the command, and each option."""
    page = sources.read(PAGE)
    for form in usage():
        yield [] if form in page else [f"{PAGE} lacks '{form}', which ./bson --help has"]
    for option in sorted(set(OPTION.findall(words_of("bson")))):
        yield [] if option in page else [f"{PAGE} lacks {option}, which ./bson --help has"]
    for path in (PAGE, "docs/guide.md", "docs/errors.md"):
        for option in sorted(set(NAMED.findall(sources.read(path)))):
            has_it = re.search(rf"(?<![\w-]){option}(?![\w-])", words_of("bson"))
            yield [] if has_it else [f"{path} names the option {option}, which ./bson --help does not have"]


def checks(documents):
    """What is wrong with each command, and with the page of the program."""
    yield from page_checks()
    found = [(path, *it) for path in documents for it in commands(sources.read(path))]
    yield [] if len(found) > 50 else [f"only {len(found)} commands were found in the documents"]
    for it in found:
        yield list(faults(*it))
