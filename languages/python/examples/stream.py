"""Writes the large orders of a dump as lines of Extended JSON, in the memory of a block: stream.py LEAST <IN.bson"""
import sys

import vbson

least = float(sys.argv[1])
try:
    for order in vbson.iter_documents(sys.stdin.buffer):
        if order["total"] >= least:
            print(vbson.dumps(order, "relaxed"))
except vbson.NotADocument as error:
    sys.exit(f"document {error.path[0] + 1}: {error.reason} at byte {error.offset}")
