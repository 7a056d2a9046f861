"""Finds the lines of a file whose value an earlier line has, in whatever order of keys: duplicates.py FILE.jsonl"""
import sys

import vbson

lines_of = {}
with open(sys.argv[1], "rb") as file:
    for number, line in enumerate(file, 1):
        # (few lines have one hash, and `same` compares those)
        lines = lines_of.setdefault(vbson.hash_of(line), [])
        first = next((earlier for earlier, it in lines if vbson.same(it, line)), None)
        if first is None:
            lines.append((number, line))
        else:
            print(f"line {number} has the value of line {first}")
