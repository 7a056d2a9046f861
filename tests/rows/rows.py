"""The rows of this folder: a line `CALL ARGS => ANSWER` each, and comments after '#'.

A value is written by Display and a refusal by Debug, unless the row begins with `{}`, `{:?}` or `{:#?}`, which then
stands for both. Of a DeserializationError only its name is written, unless the row begins so.

In a row `{x*3}` stands for xxx, `{byte:ff}` for that byte, `↵` in an answer for the end of a line, and
`{fnv:BYTES}` for FNV-1a of 64 bits over the bytes of these hexadecimal digits.
"""
import re
from pathlib import Path

ROOT = Path(__file__).resolve().parents[2]
PROGRAM = ROOT / "crates/bson_rows/out/bson_rows"
CLI = ROOT / "crates/bson_cli/out/bson_cli"
FORMS = ("canonical", "relaxed", "show")


def fnv(digits):
    state = 0xCBF29CE484222325
    for byte in bytes.fromhex(digits):
        state = ((state ^ byte) * 0x100000001B3) % 2**64
    return f"{state:016x}"


def spelled(text):
    """The bytes that a part of a row stands for."""
    text = re.sub(r"\{([^{}*]*)\*(\d+)\}", lambda m: m[1] * int(m[2]), text)
    text = re.sub(r"\{fnv:([0-9a-f]*)\}", lambda m: fnv(m[1]), text)
    parts = re.split(r"\{byte:(..)\}", text)
    return b"".join(bytes.fromhex(p) if i % 2 else p.encode() for i, p in enumerate(parts))


class Row:
    def __init__(self, place, line):
        call, arrow, wanted = line.partition(" =>")
        if not arrow:
            raise SystemExit(f"{place}: no ' =>' in {line}")
        self.place = place
        self.line = line
        self.name = call
        self.call = spelled(call)
        self.wanted = spelled(wanted.removeprefix(" "))

    def is_of_program(self):
        """Whether bson_rows answers it: a `run` is bson_cli's alone."""
        return not self.call.startswith(b"run ")

    def on_cli(self):
        """The form and the text for bson_cli, and what it writes with which status, where the row has a text."""
        words = self.call.removeprefix(b"run ").split(b" ", 1)
        form, text = words[0].decode(), words[1] if len(words) > 1 else b""
        if form not in FORMS or text.startswith(b"made "):
            return None
        wanted = self.wanted.replace("↵".encode(), b"\n")
        if wanted == b"DeserializationError":
            wanted = b"bson_cli: not Extended JSON"
        elif wanted.startswith(b"InvalidObjectId("):
            wanted = b"bson_cli: bad object id"
        refused = wanted.startswith(b"bson_cli: ")
        return form, text, (1, b"", wanted + b"\n") if refused else (0, wanted + b"\n", b"")

    def json_text(self):
        """The text of a row on JSON that bson_cli reads too, or None."""
        word, _, text = self.call.partition(b" ")
        return text if word == b"json" and not text.startswith(b"wide ") else None


def rows():
    """Every row of this folder, in the order of the files' names."""
    found = []
    for file in sorted(Path(__file__).parent.glob("*.txt")):
        for number, line in enumerate(file.read_text().split("\n"), 1):
            if line.strip() and not line.startswith("#"):
                found.append(Row(f"{file.name}:{number}", line))
    return found
