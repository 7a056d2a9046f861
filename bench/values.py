#!/usr/bin/env python3
"""Times vbson.loads and vbson.dumps beside json_util of PyMongo (Debian's python3-pymongo) on the same texts.

    bench/values.py [MEGABYTES]            (1 where none is given)
    bench/values.py --ways [MEGABYTES]     each way to the values that was tried, milliseconds

For each kind of input, canonical text by text to values of Python and back: by json_util, by the library with the types
of bson, and with plain ones. A time is the processor time of one call, the least of five in turns; which package bson it is,
and whether it has its part in C (python3-bson-ext), is the last line. Documents are read one by one, as `loads` is called
on lines, and as one list. VBSON_EXTENSION= leaves the compiled module _vbson.

The ways: json_util; json.loads alone, and with a hook that finds an object's type by one look-up of its only key (neither
refuses what is no Extended JSON); the library's bytes alone; PyMongo's reader of bytes alone, and documents that it reads only
when they are asked for; the library's canonical text by json.loads with that hook; vbson.loads by ctypes with the text read
twice, as before, and once; by _vbson, and over lines in one call; with plain types by ctypes and by _vbson.
"""
import base64
import datetime
import json
import os
import random
import sys
import time

sys.dont_write_bytecode = True
TOP = os.path.dirname(os.path.dirname(os.path.abspath(__file__)))
DEBIAN = "/usr/bin/python3"
try:
    from bson import json_util
except ImportError:
    if os.path.realpath(sys.executable) == os.path.realpath(DEBIAN):
        sys.exit("bench/values.py: there is no json_util: install Debian's python3-pymongo")
    os.execv(DEBIAN, [DEBIAN, *sys.argv])

sys.path[:0] = [f"{TOP}/languages/python", f"{TOP}/bench"]
os.environ.setdefault("VBSON_LIBRARY", f"{TOP}/languages/out/lib/libvbson.so")

import bson
import vbson
from vbson import _calls, _options, _types, objects
from bson import raw_bson
from run import BYTES, ROUNDS, binary, decimal, small_document

OPTIONS = json_util.JSONOptions(json_mode=json_util.JSONMode.CANONICAL, tz_aware=True)


def order(rng, i):
    """A document as exports have them: prices, dates, words."""
    return ('{"_id":{"$oid":"%024x"},"customer":"%s","at":{"$date":{"$numberLong":"%d"}},"total":{"$numberDouble":"%.2f"},'
            '"lines":[{"sku":"%08x","count":{"$numberInt":"%d"},"price":{"$numberDouble":"%.2f"}},{"sku":"%08x","count":'
            '{"$numberInt":"1"},"price":{"$numberDouble":"9.99"}}],"paid":true,"tags":["a","bb","ccc"]}' % (
                rng.getrandbits(96), "x" * rng.randrange(4, 20), rng.randrange(10**12, 2 * 10**12), rng.uniform(1, 1000),
                rng.getrandbits(32), rng.randrange(1, 9), rng.uniform(1, 100), rng.getrandbits(32)))


def date(rng, i):
    return '{"$date":"%04d-%02d-%02dT%02d:%02d:%02d.%03dZ"}' % (
        rng.randrange(1970, 2100), rng.randrange(1, 13), rng.randrange(1, 29), rng.randrange(24), rng.randrange(60),
        rng.randrange(60), rng.randrange(1000))


KINDS = (("orders", order), ("small documents", small_document), ("decimals", decimal), ("dates as texts", date),
         ("binaries", binary))


def pieces(make, size):
    rng, found, written = random.Random(20260101), [], 0
    while written < size:
        found.append(make(rng, len(found)))
        written += len(found[-1]) + 1
    return found


def least_times(calls):
    runs = []
    for _ in range(ROUNDS):
        runs.append([])
        for call in calls:
            start = time.process_time()
            call()
            runs[-1].append(time.process_time() - start)
    return [min(it) for it in zip(*runs)]


def row(name, texts):
    values = [json_util.loads(it, json_options=OPTIONS) for it in texts]
    plain = [vbson.loads(it, types="plain") for it in texts]
    for it, value in zip(texts, values):
        if vbson.loads(it, types="bson") != value:
            raise SystemExit(f"bench/values.py: two values of {it[:200]}")
    times = least_times((
        lambda: [json_util.loads(it, json_options=OPTIONS) for it in texts], lambda: [vbson.loads(it, types="bson") for it in texts],
        lambda: [vbson.loads(it, types="plain") for it in texts], lambda: [json_util.dumps(it, json_options=OPTIONS) for it in values],
        lambda: [vbson.dumps(it, types="bson") for it in values], lambda: [vbson.dumps(it, types="plain") for it in plain]))
    cells = [*(f"{it:.3f}" for it in times[:3]), f"{times[1] / times[0]:.2f}", *(f"{it:.3f}" for it in times[3:]),
             f"{times[4] / times[3]:.2f}"]
    print(f"| {name} | {' | '.join(cells)} |", flush=True)


EPOCH, MILLISECOND = datetime.datetime(1970, 1, 1, tzinfo=datetime.timezone.utc), datetime.timedelta(milliseconds=1)
MADE = {"$oid": bson.ObjectId, "$numberInt": int, "$numberLong": bson.Int64, "$numberDouble": float, "$numberDecimal": bson.Decimal128,
        "$date": lambda it: EPOCH + it * MILLISECOND if isinstance(it, int) else vbson.datetime_of(vbson.date_time(it)),
        "$binary": lambda it: base64.b64decode(it["base64"])}


def hook(found):
    if len(found) == 1:
        for key in found:
            made = MADE.get(key)
            return found if made is None else made(found[key])
    return found


def without_extension(call):
    def called():
        extension, _calls.extension = _calls.extension, None
        try:
            return call()
        finally:
            _calls.extension = extension
    return called


def ways(texts, block):
    types, flags = _types.types_of("bson"), 3
    given = [it.encode() for it in texts]
    under = [objects.under_a_key(flags, it) for it in given]
    found = {
        "`json_util`": lambda: [json_util.loads(it, json_options=OPTIONS) for it in texts],
        "`json.loads` alone": lambda: [json.loads(it) for it in texts],
        "`json.loads`, hook": lambda: [json.loads(it, object_hook=hook) for it in texts],
        "the library's bytes": lambda: [_calls.encoded(flags, b'{"~":' + it + b"}") for it in given],
        "bytes by PyMongo": lambda: [types._only(it)[0] for it in under],
        "text read twice, PyMongo": without_extension(lambda: [types._only(objects.under_a_key(flags, _options.text_bytes(it)))[0] for it in texts]),
        "raw documents": lambda: [raw_bson.RawBSONDocument(objects.under_a_key(flags, it)) for it in given],
        "raw, each read": lambda: [raw_bson.RawBSONDocument(objects.under_a_key(flags, it), types._reading.with_options(
            document_class=raw_bson.RawBSONDocument)).items() for it in given],
        "canonical text, hook": lambda: [json.loads(vbson.convert(it), object_hook=hook) for it in texts],
        "`loads`, ctypes": without_extension(lambda: [vbson.loads(it, types="bson") for it in texts]),
        "`loads`, plain, ctypes": without_extension(lambda: [vbson.loads(it, types="plain") for it in texts]),
        "`loads`, `_vbson`": lambda: [vbson.loads(it, types="bson") for it in texts],
        "`loads`, plain, `_vbson`": lambda: [vbson.loads(it, types="plain") for it in texts],
    }
    if block:
        found["`loads_lines`, ctypes"] = without_extension(lambda: vbson.loads_lines(block, types="bson"))
        found["`loads_lines`, `_vbson`"] = lambda: vbson.loads_lines(block, types="bson")
    return found


def ways_table(size):
    columns, names = [], []
    for name, make in KINDS:
        texts = pieces(make, size)
        for words, given, block in (("one list", [f"[{','.join(texts)}]"], ""), ("one by one", texts, "\n".join(texts) if texts[0][:3] != '{"$' else "")):
            tried = ways(given, block)
            times = dict(zip(tried, least_times([*tried.values()])))
            names.append(f"{name}, {words}")
            columns.append(times)
            print(names[-1], *(f"{way} {1000 * it:.1f}" for way, it in times.items()), file=sys.stderr, flush=True)
    rows = {way: None for column in columns for way in column}
    print(f"| ms | {' | '.join(names)} |\n|---|{'---|' * len(names)}")
    for way in rows:
        print(f"| {way} | {' | '.join(f'{1000 * it[way]:.1f}' if way in it else '' for it in columns)} |")


def main():
    words = [it for it in sys.argv[1:] if it != "--ways"]
    size = BYTES or int(1_000_000 * float(words[0] if words else 1))
    if len(words) < len(sys.argv) - 1:
        ways_table(size)
        return
    print("| input | json_util loads, s | vbson loads, s | plain, s | ratio | json_util dumps, s | vbson dumps, s | plain, s | ratio |")
    print("|---|---|---|---|---|---|---|---|---|")
    for name, make in KINDS:
        texts = pieces(make, size)
        row(f"{name}, as one list", [f"[{','.join(texts)}]"])
        row(f"{name}, one by one", texts)
    import pymongo
    print(f"PyMongo {pymongo.version}, {'with' if bson.has_c() else 'without'} its part in C; Python {sys.version.split()[0]}")


main()
