#!/usr/bin/env python3
"""Times bson_program on documents, one a line, beside bson_cli on the same documents as one list, and `jq -c .`.

    bench/lines.py [--lines-only] [--rounds=5] [LINES ..]        (1000000 where none is given)

For each number of lines of 250 bytes it prints the wall time and the peak memory of `bson_program` in both forms, of
`bson_cli` in the same form on the list, and of `jq -c .` on the lines, where it is installed. A time is the best of five
runs; the programs run in turns, so that what else the machine does slows all of them alike. A peak is `VmHWM`, looked
at each 10 ms. `--lines-only` leaves the other two out, which take memory in proportion to the input, or long.
Documents come from a seeded generator, so that every run times the same bytes.
"""
import os
import random
import shutil
import subprocess
import sys
import tempfile
import time

sys.dont_write_bytecode = True

from run import BYTES, ROUNDS, TOP

LENGTH = 250


def document(rng):
    """A document as mongoexport writes it, of LENGTH bytes with its newline."""
    head = '{"_id":{"$oid":"%024x"},"at":{"$date":"2024-%02d-%02dT%02d:%02d:%02d.%03dZ"},"n":%d,"ok":%s,"tags":["a","b"],"sub":{"k":%d},"s":"' % (
        rng.getrandbits(96), rng.randrange(1, 13), rng.randrange(1, 29), rng.randrange(24), rng.randrange(60),
        rng.randrange(60), rng.randrange(1000), rng.randrange(10**9), rng.choice(["true", "false"]), rng.randrange(1000))
    return head + "x" * (LENGTH - len(head) - 3) + '"}'


def generate(lines_path, list_path, count):
    rng = random.Random(20260101)
    with open(lines_path, "w") as lines, open(list_path or os.devnull, "w") as whole:
        whole.write("[")
        for number in range(count):
            it = document(rng)
            lines.write(it + "\n")
            whole.write(("," if number else "") + it)
        whole.write("]")


def high_water(pid):
    """The greatest memory of a process so far, in kilobytes."""
    try:
        with open(f"/proc/{pid}/status") as status:
            return next((int(line.split()[1]) for line in status if line.startswith("VmHWM")), 0)
    except OSError:
        return 0


def timed(words, path):
    """Seconds of one run, and its greatest memory in megabytes."""
    with open(path, "rb") as given, open(os.devnull, "wb") as taken:
        start = time.monotonic()
        run = subprocess.Popen(words, stdin=given, stdout=taken)
        most = 0
        while True:
            try:
                status = run.wait(0.01)
                break
            except subprocess.TimeoutExpired:
                most = max(most, high_water(run.pid))
        seconds = time.monotonic() - start
    if status != 0:
        raise SystemExit(f"{words} ended with {status}")
    return seconds, most / 1024


def best_of(rounds, commands):
    """The least seconds and the greatest memory of each command, all run in turns."""
    runs = [[timed(*it) for it in commands] for _ in range(rounds)]
    return [(min(seconds for seconds, _ in own), max(memory for _, memory in own)) for own in zip(*runs)]


def main():
    alone = "--lines-only" in sys.argv[1:]
    rounds = next((int(word[9:]) for word in sys.argv[1:] if word.startswith("--rounds=")), 5)
    counts = [int(word) for word in sys.argv[1:] if word.isdigit()] or [1_000_000]
    if BYTES:
        rounds, counts = ROUNDS, [BYTES // LENGTH]
    subprocess.run([f"{TOP}/bson", "build"], check=True, stdout=subprocess.DEVNULL)
    bson_program, bson_cli = (f"{TOP}/crates/{name}/out/{name}" for name in ("bson_program", "bson_cli"))
    print("| lines | MB | form | bson_program s | MB | bson_cli as one list s | MB | ratio | jq -c . s | MB |")
    print("|---|---|---|---|---|---|---|---|---|---|")
    with tempfile.TemporaryDirectory() as room:
        for count in counts:
            lines, whole = f"{room}/lines.jsonl", f"{room}/list.json"
            generate(lines, None if alone else whole, count)
            for form in ("canonical", "relaxed"):
                commands = [([bson_program, "lines", form, "--strict"], lines)]
                if not alone:
                    commands.append(([bson_cli, form], whole))
                    if shutil.which("jq"):
                        commands.append((["jq", "-c", "."], lines))
                cells = best_of(rounds, commands)
                ratio = [] if alone else ["%.2f" % (cells[0][0] / cells[1][0])]
                words = ["%.2f | %.1f" % cell for cell in cells]
                print("| %d | %d | %s | %s |" % (count, os.path.getsize(lines) // 1_000_000, form,
                                                " | ".join(words[:2] + ratio + words[2:])))
                sys.stdout.flush()


if __name__ == "__main__":
    main()
