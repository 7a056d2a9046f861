"""Each command of each page is run by a test.

RUNNERS has the script that runs a command of a page. A script that is not this one is a part of ./test. `./test` itself, and
the commands that are parts of it, are run by the gate. The others are run here, in a cheaper form if one exists:

- a measurement of bench/README.md on inputs of 100 KB, each timed once (BENCH_BYTES),
- the trial of the wrong bodies of a crate over libraries that are built, for a whole crate on one with few of them,
- `rt try` in crates/bson_rows as the program that is built.

What is not built or installed is not tried, and that is reported.
"""
import fnmatch
import functools
import os
import re
import shutil
import subprocess
import tempfile

import commands
import recipes
import sources

HERE = "tests/style/run"
GATE = "./test"
# A page, the form of its commands, and who runs them. The first that fits counts.
RUNNERS = (
    ("README.md", r"(?:echo|printf) .*", "tests/program/run"),
    ("README.md", r"\./bson package FOLDER|cd FOLDER && apt-get install \./\*\.deb", "tests/install/run"),
    ("docs/PROGRAMS.md", r"(?:echo|printf) .*", "tests/program/run"),
    ("docs/c.md", r".*", "tests/vbson/run"),
    ("docs/guide.md", r".*", HERE),
    ("docs/SCALE.md", r".*", HERE),
    ("docs/CONTRIBUTING.md", r"cd crates/\w+|rt .*|\./test --quick .*", "tests/proofs/run"),
    ("docs/CONTRIBUTING.md", r"tools/version .*|git .*|\./bson package FOLDER", "tests/install/run"),
    ("*", r"\./test|tests/wrong_bodies/run --first|tests/memory/run|tests/install/run", GATE),
    ("docs/CONTRIBUTING.md", r"tools/\w+ .*|rows=.*|sed .*", HERE),
    ("*", r"tests/wrong_bodies/run (?:--all )?\w+(?:/\w+)?", HERE),
    ("bench/README.md", r"bench/\w+\.py.*", HERE),
)
BENCH = re.compile(r"(?m)(?<=`)(?:bench/\w+\.py|tests/memory/run)[^`\n]*(?=`.*\|$)")
# A crate with few wrong bodies, for a command that tries all of a crate.
FEW = "bson_double"
# The measurements that load the library for other languages.
OF_LIBRARY = ("bench/bytes.py", "bench/values.py", "bench/library.py", "bench/scale.py")
SECONDS = 1800


def command_lines(page):
    """The commands of a page: its lines after '$ ' or '# ', all indented lines if it has none, and those of a table of bench."""
    text = re.sub(r"(?ms)^```.*?^```$", "", sources.read(page))
    if page == "bench/README.md":
        return list(dict.fromkeys(BENCH.findall(text)))
    lines = [re.sub(r"\s+#.*$", "", it).strip() for it in re.findall(r"(?m)^    (?:[$#] )(.*)$", text) or commands.LINE.findall(text)]
    return list(dict.fromkeys(lines))


@functools.cache
def runner(page, command):
    """The rule by which a command is run, or None."""
    return next((rule for rule in RUNNERS if fnmatch.fnmatch(page, rule[0]) and re.fullmatch(rule[1], command)), None)


def parts_of_gate():
    """The words of each part of ./test."""
    return [it.split() for it in re.findall(r"(?m)^ *part '[^']*' (.*)$", sources.read("test"))]


def has_words(part, command):
    """Whether the part is the command, perhaps with more options."""
    words = iter(part)
    return all(it in words for it in command.split())


def rule_checks(found):
    """Whether each command has a runner, and each runner is a part of ./test."""
    gate = parts_of_gate()
    for page, command in found:
        rule = runner(page, command)
        yield [] if rule else [f"{page} has the command '{command}', which no test runs"]
        if rule and rule[2] == GATE and command != GATE:
            yield [] if any(has_words(part, command) for part in gate) else [f"./test does not run '{command}' of {page}"]
    used = {runner(*it) for it in found}
    for rule in RUNNERS:
        yield [] if rule in used else [f"tests/style/pages.py has a rule that fits no command: {rule}"]
    for script in sorted({it[2] for it in RUNNERS} - {GATE}):
        yield [] if [script] in [part[:1] for part in gate] else [f"{script} is not a part of ./test"]


def ran(words, at=sources.TOP, **environment):
    words = ["timeout", str(SECONDS), *words]
    return subprocess.run(words, cwd=at, env={**os.environ, **environment}, stdin=subprocess.DEVNULL, capture_output=True, text=True)


def is_built(path):
    """Whether this is there, and the programs are built and not older than a source."""
    return os.path.exists(f"{sources.TOP}/{path}") and all(map(recipes.is_built, recipes.PROGRAMS))


def untried(command, why):
    print(f"not tried: {command}, since {why}")
    return []


def wrong_body_faults(command):
    """Tries wrong bodies over libraries that are built: one, or all of a crate that has few."""
    crate = command.split()[-1].partition("/")[0]
    if not is_built(f"crates/{crate}/out/rlib/{crate}.rlib"):
        return untried(command, f"the library of {crate} is not built")
    answer = ran([*command.split(), "--built"])
    is_right = answer.returncode == 0 and re.search(r"(?m)^[1-9]\d* passed, 0 failed\Z", answer.stdout.rstrip())
    return [] if is_right else [f"{command}: {answer.stdout[-500:]}{answer.stderr[-500:]}"]


def tool_faults(command):
    answer = ran(command.split())
    return [] if answer.returncode == 0 and answer.stdout else [f"{command}: {answer.stdout[-500:]}{answer.stderr[-500:]}"]


def row_faults(page):
    """Runs the two lines that compare rows with their answers, by the program that is built."""
    lines = [it for it in command_lines(page) if re.match(r"rows=|sed ", it)]
    at, program = f"{sources.TOP}/crates/bson_rows", "out/bson_rows"
    if not is_built(f"crates/bson_rows/{program}"):
        return untried(lines[-1], "bson_rows is not built")
    script = "\n".join(lines).replace("rt try 2>/dev/null", program)
    answer = ran(["bash", "-c", f"{script} && wc -l <<<\"$rows\""], at)
    is_right = answer.returncode == 0 and re.fullmatch(r"[1-9]\d*\n", answer.stdout)
    return [] if is_right and program in script else [f"{page}: {script}\n{answer.stdout[-500:]}{answer.stderr[-500:]}"]


def picture_faults(command):
    """Draws the picture in a copy of bench, and compares it with that of the repository."""
    with tempfile.TemporaryDirectory() as room:
        shutil.copytree(f"{sources.TOP}/bench", f"{room}/bench", ignore=shutil.ignore_patterns("*.svg", "__pycache__"))
        answer = ran([f"{room}/{command}"], room)
        with open(f"{sources.TOP}/bench/libbson.svg", "rb") as one:
            picture = one.read()
        drawn = f"{room}/bench/libbson.svg"
        is_right = answer.returncode == 0 and os.path.exists(drawn) and open(drawn, "rb").read() == picture
        return [] if is_right else [f"{command}: {answer.stderr[-500:] or 'another picture'}"]


def bench_faults(command):
    """Runs a measurement on small inputs: it must print a row of a table."""
    if command.startswith("bench/plot.py"):
        return picture_faults(command)
    if not is_built("bench"):
        return untried(command, "the programs are not built")
    if command.split()[0] in OF_LIBRARY and not os.path.exists(recipes.LIBRARY):
        return untried(command, "the library for Python is not built")
    answer = ran(command.split(), BENCH_BYTES="100000")
    if lacks := re.match(r"bench/\w+\.py: (?:there is )?(no .*)", answer.stderr):
        return untried(command, f"there is {lacks[1]}")
    rows = re.findall(r"(?m)^\|(?:[^|\n]+\|)+$", answer.stdout)
    return [] if answer.returncode == 0 and len(rows) > 2 else [f"{command}: {answer.stdout[-300:]}{answer.stderr[-500:]}"]


def run_here(found):
    """What is wrong with each command that is run here. (recipes.py runs those of the guide and of SCALE.)"""
    own = [(page, it) for page, it in found if page not in recipes.PAGES and (runner(page, it) or "   ")[2] == HERE]
    trials = [it for _, it in own if it.startswith("tests/wrong_bodies/")]
    for command in dict.fromkeys(re.sub(r"(?<=--all )\w+", FEW, it) for it in trials):
        yield wrong_body_faults(command)
    for page, command in own:
        if command.startswith("rows="):
            yield row_faults(page)
        elif command.startswith("tools/"):
            yield tool_faults(command)
        elif command.startswith("bench/"):
            yield bench_faults(command)


def checks(documents):
    pages = [it for it in documents if it.endswith(".md")]
    found = [(page, command) for page in pages for command in command_lines(page)]
    yield from rule_checks(found)
    yield from run_here(found)
