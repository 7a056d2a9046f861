"""Tests of vbson_dask on a local cluster of four workers, for tests/scale/run: its words are the program bson_program and a
folder, VBSON_LIBRARY and PYTHONPATH name the library and the modules. The last line is 'N passed, M failed'.
"""
import csv
import os
import re
import signal
import struct
import subprocess
import sys
import threading
import time

from distributed import Client, LocalCluster

import vbson
import vbson_dask

LINES = [b'{"n":5}', b'{"k":[1,2,{"$numberLong":"6"}],"a":"' + b"x" * 200 + b'"}', b"!", b"", b" \t\r", b"[7]\r",
         b"\xef\xbb\xbf8", b'{"$oid":"53e3"}', b"1.5e", b'{"z":1,"price":0.5,"a":2}']
# The options of a run, as words of the program and as those of the call.
OPTIONS = [(("--strict",), vbson.SPECIFIED), (("--sort-keys",), {"keep_order": False}), ((), {})]


def want(found, wanted, what):
    if found != wanted:
        raise AssertionError(f"{what}: {str(found)[:500]} and not {str(wanted)[:500]}")


def files(folder):
    """Files of many lines, among them an empty one, one without an end, and one that begins with a mark."""
    paths = []
    for name, begins, count, ends in (("a", b"\xef\xbb\xbf", 30_000, b"\n"), ("b", b"", 0, b""), ("c", b"", 40_000, b"\n9")):
        paths.append(f"{folder}/{name}.jsonl")
        lines = [LINES[1 if at % 50 else (at // 50) % len(LINES)] for at in range(count)]
        with open(paths[-1], "wb") as it:
            it.write(begins + b"\n".join(lines) + ends)
    return paths


def document(*elements):
    """The bytes of a document of BSON 1.1 (bsonspec.org)."""
    inside = b"".join(elements) + b"\0"
    return struct.pack("<I", len(inside) + 4) + inside


PRICE = b"\x01price\0" + struct.pack("<d", 12.5)
NUMBER = b"\x10n\0\5\0\0\0"
# (of the rejected ones, the first is passed over by its length)
DOCUMENTS = [document(), document(PRICE, NUMBER), document(b"\x02s\0" + struct.pack("<I", 301) + b"x" * 300 + b"\0"),
             document(b"\x08a\0\2"), document(b"\x0az\0", b"\x0aa\0")]


def dumps(folder):
    """Dumps of many documents, among them an empty one, one with a large document, and one whose end is cut off."""
    large = document(b"\x02s\0" + struct.pack("<I", 300_001) + b"x" * 300_000 + b"\0")
    paths = [f"{folder}/{name}.bson" for name in "abcd"]
    many = [DOCUMENTS[1 if at % 20 else at // 20 % len(DOCUMENTS)] for at in range(30_000)]
    for path, documents in zip(paths, (many, [], [NUMBER_ALONE, large, *many[:40]], [*many[:9_000], DOCUMENTS[2][:40]])):
        with open(path, "wb") as it:
            it.write(b"".join(documents))
    return paths


NUMBER_ALONE = document(NUMBER)


def by_program(program, paths, words=()):
    """The output of the program, its counts, and the file and line of each refused one."""
    ran = subprocess.run([program, "lines", "relaxed", *words, "--keep-going", *paths], capture_output=True, timeout=120)
    counts = re.search(rb"(?m)^bson: (\d+) lines, (\d+) refused$", ran.stderr)
    places = re.findall(rb"(?m)^(/[^:]*):(\d+): ", ran.stderr)
    return ran.stdout, tuple(map(int, counts.groups())), [(path.decode(), line.decode()) for path, line in places]


def is_there(folder, wanted, head=("file", "line", "fault")):
    """The parts are the output, in their order, and the table has the refused lines; nothing else is there."""
    output, _, places = wanted
    names = sorted(os.listdir(folder))
    want((names[-1], {name[:5] for name in names[:-1]}), ("refused.csv", {"part-"}), "the folder")
    parts = b"".join(open(f"{folder}/{name}", "rb").read() for name in names[:-1])
    want(parts == output, True, "the parts are the output of the program")
    with open(f"{folder}/refused.csv", newline="") as it:
        rows = list(csv.reader(it))
    want(rows[0], [*head], "the head of the table")
    want([tuple(row[:-1]) for row in rows[1:]], places, "the refused lines")
    return rows[1:]


def test_parts_are_the_output_of_the_program(client, room, paths, wanted):
    for size in (100_000, 1 << 25):
        for at, (words, options) in enumerate(OPTIONS):
            folder, by_words = f"{room}/whole-{size}-{at}", by_program(room.program, paths, words)
            want(vbson_dask.convert_files(client, paths, folder, "relaxed", size, **options), by_words[1], "the counts")
            is_there(folder, by_words)


def test_a_price_is_converted(client, room, paths, wanted):
    with open(f"{room}/price.jsonl", "wb") as it:
        it.write(b'{"price":12.5}\n')
    for doubles, counts, places in ((True, (1, 0), []), (False, (1, 1), [(f"{room}/price.jsonl", "1")])):
        folder = f"{room}/price-{doubles}"
        want(vbson_dask.convert_files(client, f"{room}/price.jsonl", folder, "relaxed", doubles=doubles), counts, "the counts")
        rows = is_there(folder, (b'{"price":12.5}\n' if doubles else b"", counts, places))
        want([row[-1] for row in rows],
             ["not Extended JSON at price (not a 64-bit integer; found 12.5)"] * (not doubles), "the fault")


def test_a_block_that_begins_with_a_mark(client, room, paths, wanted):
    """A byte order mark is passed over at the start of a file, and not at the start of another block."""
    path, folder = f"{room}/mark.jsonl", f"{room}/mark"
    with open(path, "wb") as it:
        it.write(b"\xef\xbb\xbf[1]\n\xef\xbb\xbf[2]\n[3]\n")
    by_words = by_program(room.program, [path])
    want(by_words, (b"[1]\n[3]\n", (3, 1), [(path, "2")]), "the program")
    want(vbson_dask.convert_files(client, path, folder, "relaxed", 7), by_words[1], "the counts")
    is_there(folder, by_words)


def dump_by_parts(paths, options):
    """The lines of dumps by one call for each file, the counts, and the file, number and place of each rejected document."""
    texts, places, count = [], [], 0
    for path in paths:
        with open(path, "rb") as it:
            block = it.read()
        text, refused = vbson.decode_documents(block, "relaxed", **options)
        texts.append(text)
        places += [(path, str(number), str(start)) for number, start, _ in refused]
        count += text.count(b"\n") + len(refused)
    return b"".join(texts), (count, len(places)), places


def test_dumps_are_decoded(client, room, paths, wanted):
    names = dumps(room)
    for size in (70_000, 1 << 25):
        for at, (words, options) in enumerate(OPTIONS):
            folder, at_once = f"{room}/dumps-{size}-{at}", dump_by_parts(names, options)
            want(vbson_dask.decode_files(client, names, folder, "relaxed", size, **options), at_once[1], "the counts")
            is_there(folder, at_once, ("file", "document", "byte", "fault"))
            for name in names[:3]:
                ran = subprocess.run([room.program, "decode", "relaxed", "--keep-going", *words, name],
                                     capture_output=True, timeout=120)
                want(ran.stdout, dump_by_parts([name], options)[0], f"bson_program of {name}")
    want(len(os.listdir(f"{room}/dumps-70000-1")) > 10, True, "several parts")


def test_a_worker_that_is_killed(client, room, paths, wanted):
    folder, answer = f"{room}/killed", []
    parts = sum(-(-os.path.getsize(path) // 100_000) for path in paths)
    pids = client.run(os.getpid)
    how = ("relaxed", 100_000)
    run = threading.Thread(target=lambda: answer.append(vbson_dask.convert_files(client, paths, folder, *how)))
    run.start()
    while not os.path.isdir(folder) or len(os.listdir(folder)) < 5:
        time.sleep(0.001)
    busy = next(address for address, works in client.processing().items() if works)
    os.kill(pids[busy], signal.SIGKILL)
    want(len(os.listdir(folder)) < parts, True, "it was killed before the end")
    run.join(120)
    want(answer, [wanted[1]], "the counts")
    is_there(folder, wanted)
    want(pids[busy] in client.run(os.getpid).values(), False, "the worker that was killed is gone")


def test_what_is_refused(client, room, paths, wanted):
    for error, folder, mode, doubles in ((FileExistsError, f"{room}/killed", "relaxed", True), (ValueError, f"{room}/none", "x", True),
                                         (TypeError, f"{room}/none", "relaxed", 1)):
        for call in (vbson_dask.convert_files, vbson_dask.decode_files):
            try:
                call(client, paths[:1], folder, mode, doubles=doubles)
                raise AssertionError(f"no {error.__name__}")
            except error:
                pass
    want(os.path.exists(f"{room}/none"), False, "a folder for what is refused")


class Room(str):
    """The folder, which knows the program."""


def main():
    room = Room(sys.argv[2])
    program = room.program = sys.argv[1]
    paths = files(room)
    wanted = by_program(program, paths)
    tests = [it for name, it in globals().items() if name.startswith("test_")]
    failed = 0
    with LocalCluster(n_workers=4, threads_per_worker=1, dashboard_address=None, silence_logs=50) as cluster, \
            Client(cluster) as client:
        for test in tests:
            try:
                test(client, room, paths, wanted)
            except Exception as error:
                failed += 1
                print(f"FAILED: {test.__name__}: {type(error).__name__}: {error}"[:2000])
    print(f"{len(tests) - failed} passed, {failed} failed")
    return 1 if failed else 0


if __name__ == "__main__":
    sys.exit(main())
