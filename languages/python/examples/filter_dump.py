"""Copies the large orders of a dump, and reads one value of each: filter_dump.py LEAST <IN.bson >OUT.bson"""
import sys

import vbson

least, read, write = float(sys.argv[1]), sys.stdin.buffer.read, sys.stdout.buffer.write
while length := read(4):
    order = length + read(int.from_bytes(length, "little") - 4)
    if vbson.RawDocument(order)["total"] >= least:
        write(order)
