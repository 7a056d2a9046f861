"""Checks each line of standard input, and writes what is wrong with it as JSON: validate.py <FILE.jsonl"""
import json
import sys

import vbson


def checked(upload):
    """Returns an answer for the sender of a document."""
    try:
        return {"ok": True, "bytes": len(vbson.encode(upload, reject_duplicate_keys=True))}
    except vbson.Error as error:
        return {"ok": False, "code": error.code, "reason": error.reason, "path": error.path, "column": error.column}


for line in sys.stdin.buffer:
    print(json.dumps(checked(line)))
