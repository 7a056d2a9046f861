"""Runs the rows of docs/errors.md: the input must be rejected with the message, and what is in the last column must work:
an input of its own, or an option for the first input. If it is "without" an option, the input is rejected only with this
option. (A last column without code is not tried.)
"""
import re
import subprocess

import sources

ERRORS = "docs/errors.md"
CODE = r"(?:``(.*?)``|`([^`]*)`)"
ROW = re.compile(rf"(?m)^\| {CODE} \| {CODE} \| (.*) \|$")


def rows():
    """The message, the input, the option that rejects it, and what works of each row."""
    for found in ROW.finditer(sources.read(ERRORS)):
        works = re.fullmatch(rf"(without )?{CODE}", found[5])
        option = works[3] if works and works[1] else ""
        yield found[1] or found[2], found[3] or found[4], option, (works[2] or works[3]) if works else ""


def checked(program, text, *words):
    """The status and the message of a check of one line."""
    ran = subprocess.run([program, "lines", "check", *words], input=text, capture_output=True, text=True, timeout=60)
    return ran.returncode, ran.stderr


def checks(program):
    """What is wrong with each row."""
    found = list(rows())
    yield [] if found else [f"{ERRORS} has no rows"]
    for message, text, option, works in found:
        status, said = checked(program, text, *([option] if option else []))
        # (after the message a hint may say what reads the input)
        line, _, hint = said.partition("\n")
        is_right = (status, line) == (1, f"bson: line 1: {message}") and (not hint or hint.startswith("bson: standard input "))
        yield [] if is_right else [f"{ERRORS}: {text} is answered by {said}"]
        if works:
            by_option = checked(program, text, *([] if option else [works]))
            status, said = by_option if works.startswith("--") else checked(program, works)
            yield [] if (status, said) == (0, "") else [f"{ERRORS}: {works} does not work: {said}"]
