#!/usr/bin/env python3
"""Measures a run over lines of one job, of several, and by a local Dask cluster of four workers; and a run over a dump
of BSON documents of one job and of several.

    bench/scale.py [MB]      (1000 where no number is given; in a folder of $TMPDIR, which needs four times as much)

The programs and the library are those that are built. Prints a table for each, a row a way: seconds by the clock,
processor seconds, and how many times faster than one job it is by the clock.
"""
import os
import resource
import shutil
import struct
import subprocess
import sys
import tempfile
import time

sys.dont_write_bytecode = True

from run import BYTES, TOP

LINE = b'{"_id":{"$oid":"53e37d08776f724e42000000"},"at":{"$date":{"$numberLong":"1590972160000"}},"n":{"$numberLong":"%d"},' \
       b'"name":"%s","tags":["a","b",{"$numberInt":"5"}]}\n'
# A document of the same (bsonspec.org), except for its length and what it has instead of the places.
DOCUMENT = b"\x07_id\0\x53\xe3\x7d\x08\x77\x6f\x72\x4e\x42\0\0\0\x09at\0" + struct.pack("<q", 1590972160000) + \
           b"\x12n\0%b\x02name\0%b%b\0\x04tags\0\x1e\0\0\0\x020\0\2\0\0\0a\0\x021\0\2\0\0\0b\0\x102\0\5\0\0\0\0\0"
# (the time of the cluster's start is not the conversion's)
BY_DASK = """
import sys, time
from distributed import Client, LocalCluster
import vbson_dask
if __name__ == "__main__":
    with LocalCluster(n_workers=int(sys.argv[1]), threads_per_worker=1, dashboard_address=None, silence_logs=50) as cluster:
        with Client(cluster) as client:
            client.run(lambda: __import__("vbson_dask"))
            start = time.monotonic()
            vbson_dask.convert_files(client, sys.argv[2], sys.argv[3], "relaxed")
            print(time.monotonic() - start)
"""


def processor_seconds():
    used = resource.getrusage(resource.RUSAGE_CHILDREN)
    return used.ru_utime + used.ru_stime


def timed(words, **how):
    """The seconds of a run by the clock, its processor seconds, and its output."""
    before, start = processor_seconds(), time.monotonic()
    ran = subprocess.run(words, stdin=subprocess.DEVNULL, stdout=subprocess.PIPE, check=True, **how)
    return time.monotonic() - start, processor_seconds() - before, ran.stdout


def line(number):
    return LINE % (number, b"x" * (number % 150))


def document(number):
    name = b"x" * (number % 150)
    inside = DOCUMENT % (struct.pack("<q", number), struct.pack("<i", len(name) + 1), name)
    return struct.pack("<i", len(inside) + 4) + inside


def write(path, size, what):
    """A file of at least so many bytes."""
    with open(path, "wb") as it:
        at = 0
        while it.tell() < size:
            it.write(b"".join(what(number) for number in range(at, at + 1000)))
            at += 1000


def by_jobs(words):
    return [(f"{jobs} job{'s' * (jobs > 1)}", *timed([f"{TOP}/bson", *words, "--jobs", str(jobs)])[:2]) for jobs in (1, 2, 4)]


def by_dask(workers, path, room):
    script, folder = f"{room}/by_dask.py", f"{room}/parts"
    with open(script, "w") as it:
        it.write(BY_DASK)
    where = {**os.environ, "VBSON_LIBRARY": f"{TOP}/languages/out/lib/libvbson.so", "PYTHONPATH": f"{TOP}/languages/python"}
    words = ["/usr/bin/python3", "-B", script, str(workers), path, folder]
    _, work, said = timed(words, env=where, stderr=subprocess.DEVNULL)
    shutil.rmtree(folder)
    return float(said), work


def print_table(of, size, *groups):
    """Rows of ways, in groups in which the first is the measure."""
    print(f"{of}: load {os.getloadavg()[0]:.1f}, {os.cpu_count()} processors, {size} MB")
    print("| Way | seconds | processor seconds | times one |\n|---|---|---|---|")
    for rows in groups:
        for name, clock, work in rows:
            print(f"| {name} | {clock:.1f} | {work:.1f} | {rows[0][1] / clock:.2f} |")


def main():
    if subprocess.run(["/usr/bin/python3", "-c", "import distributed"], check=False, capture_output=True).returncode:
        sys.exit("bench/scale.py: no module distributed (python3-distributed of Debian)")
    size = BYTES / 1e6 if BYTES else int(sys.argv[1]) if sys.argv[1:] else 1000
    with tempfile.TemporaryDirectory() as room:
        path, out = f"{room}/input", f"{room}/out"
        write(path, int(size * 1e6), line)
        by_workers = [(f"Dask, {workers} worker{'s' * (workers > 1)}", *by_dask(workers, path, room)) for workers in (1, 4)]
        print_table("lines", size, by_jobs(["lines", "relaxed", path, "-o", out]), by_workers)
        write(path, int(size * 1e6), document)
        print_table("a dump", size, by_jobs(["decode", "relaxed", "--sort-keys", path, "-o", out]))


if __name__ == "__main__":
    main()
