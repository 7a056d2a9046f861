"""The rows of lines.txt, and what each input means line by line."""
import subprocess
import sys
from functools import lru_cache
from pathlib import Path

HERE = Path(__file__).resolve().parent
sys.path.insert(0, str(HERE.parent / "rows"))

from rows import CLI, ROOT, spelled

LINES = ROOT / "crates/bson_program/out/bson_program"

BYTE_ORDER_MARK = b"\xef\xbb\xbf"


class Outcome:
    """What a run answers, writes and reports."""

    def __init__(self, answer, written, reported):
        self.answer, self.written, self.reported = answer, written, reported

    def __eq__(self, other):
        return (self.answer, self.written, self.reported) == (other.answer, other.written, other.reported)

    def __repr__(self):
        return f"{self.answer[:80]} | {self.written[:80]} | {self.reported[:80]}"


class LineRow:
    def __init__(self, place, task, on_refusal, text, outcome):
        self.place, self.task, self.on_refusal, self.text, self.outcome = place, task, on_refusal, text, outcome
        self.name = f"{place} {task} {on_refusal}"


def with_newlines(text):
    return spelled(text).replace("↵".encode(), b"\n")


def rows_of(place, line):
    head, arrow, wanted = line.partition(" => ")
    parts = [part.removeprefix(" ") for part in wanted.split(" |")]
    if not arrow or len(parts) != 3:
        raise SystemExit(f"{place}: no row: {line}")
    task, on_refusal, text = head.split(" ", 2)
    outcome = Outcome(*map(with_newlines, parts))
    ways = ("stop", "keep-going") if on_refusal == "either" else (on_refusal,)
    return [LineRow(place, task, way, with_newlines(text), outcome) for way in ways]


def line_rows():
    found = []
    for number, line in enumerate((HERE / "lines.txt").read_text().split("\n"), 1):
        if line and not line.startswith("#"):
            found += rows_of(f"lines.txt:{number}", line)
    return found


@lru_cache(None)
def of_text(form, text):
    """What bson_cli writes of a text, and the words for its fault or none."""
    done = subprocess.run([CLI, form], input=text, capture_output=True, timeout=120)
    return done.stdout, done.stderr.removeprefix(b"bson_cli: ").removesuffix(b"\n")


@lru_cache(None)
def place_of(text):
    """What bson_program adds to the message of the fault of a rejected text, given alone, without a hint."""
    done = subprocess.run([LINES, "lines", "check", "--strict"], input=b"\n" + text, capture_output=True, timeout=120)
    return done.stderr.partition(b"\n")[0].removeprefix(b"bson: line 2: " + of_text("relaxed", text)[1])


def expected(task, on_refusal, text, at_end):
    """What a run over the lines of the text gives, each by bson_cli, and the places of faults by bson_program; and over
    those that a newline ends, if the reader fails after the text."""
    lines = text.removeprefix(BYTE_ORDER_MARK).split(b"\n")
    last = lines.pop()
    at_start = text and not lines and last == b""
    if at_end and (last or at_start):
        lines.append(last)
    written = reported = b""
    refused = 0
    for number, line in enumerate(lines, 1):
        if not line.strip(b" \t\r"):
            continue
        output, fault = of_text("relaxed" if task == "check" else task, line)
        if fault and on_refusal == "stop":
            return Outcome(b"line %d: %s" % (number, fault), written, reported)
        if fault:
            refused += 1
            reported += b"bson: line %d: %s%s\n" % (number, fault, place_of(line))
        elif task != "check":
            written += output
    if at_end:
        return Outcome(b"%d %d" % (len(lines), refused), written, reported)
    return Outcome(b"line %d: cannot read" % (len(lines) + 1), written, reported)
