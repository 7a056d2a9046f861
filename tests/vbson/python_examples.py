"""The examples of languages/python/examples beside the same work by PyMongo: python_examples.py EXAMPLES FOLDER. The last line
is 'N passed, M failed'."""
import datetime
import decimal
import json
import random
import subprocess
import sys

import bson
from bson import json_util

import vbson
from python_check import end, want

EXAMPLES, ROOM = sys.argv[1:]
CANONICAL = json_util.JSONOptions(json_mode=json_util.JSONMode.CANONICAL, tz_aware=True)
READING = bson.CodecOptions(tz_aware=True)


def orders():
    """Orders as PyMongo makes them, with each type that exports have."""
    generator, found = random.Random(3), []
    for number in range(500):
        order = {"_id": bson.ObjectId(generator.getrandbits(96).to_bytes(12, "big")), "total": generator.randrange(10, 10_000) / 4,
                 "at": datetime.datetime(2020, 1, 1, tzinfo=datetime.timezone.utc) + datetime.timedelta(seconds=generator.randrange(10**8)),
                 "lines": [{"sku": f"{generator.getrandbits(32):08x}", "count": bson.Int64(generator.randrange(9))}],
                 "price": bson.Decimal128(decimal.Decimal(generator.randrange(10**6)) / 100), "raw": bytes([number % 256])}
        if number % 3 == 0:
            order["coupon"] = "\u00e9\u2028"
        if number % 5 == 0:
            order["paid"] = None
        found.append(order)
    return found


def run(name, *words, given=b""):
    ran = subprocess.run([sys.executable, "-B", f"{EXAMPLES}/{name}.py", *words], input=given, capture_output=True, timeout=120)
    return ran.returncode, ran.stdout.decode(), ran.stderr.decode()


def written(name, content):
    with open(f"{ROOM}/{name}", "wb") as file:
        file.write(content)
    return f"{ROOM}/{name}"


def try_change(given):
    source, made = written("orders.bson", b"".join(map(bson.encode, given))), f"{ROOM}/changed.bson"
    want("change_field", run("change_field", source, made), (0, "500 orders\n", ""))
    wanted = [{**it, "paid": True} for it in given]
    for it in wanted:
        it.pop("coupon", None)
    with open(made, "rb") as file:
        want("the changed bytes", file.read(), b"".join(map(bson.encode, wanted)))


def try_duplicates(given):
    lines = [json_util.dumps(it, json_options=CANONICAL) for it in given]
    for number in range(7, 500, 70):
        # (in the relaxed form the 64-bit int is a 32-bit one, which is another value)
        for form in (CANONICAL, json_util.RELAXED_JSON_OPTIONS):
            lines.append(json_util.dumps(dict(reversed(given[number].items())), json_options=form))
    path = written("orders.jsonl", "".join(f"{it}\n" for it in lines).encode())
    seen, wanted = {}, ""
    for number, it in enumerate(lines, 1):
        key = json_util.dumps(json_util.loads(it, json_options=CANONICAL), json_options=CANONICAL, sort_keys=True)
        first = seen.setdefault(key, number)
        if first < number:
            wanted += f"line {number} has the value of line {first}\n"
    want("the number of duplicates", wanted.count("\n"), 8)
    want("duplicates", run("duplicates", path), (0, wanted, ""))


def try_validate(given):
    lines = [json_util.dumps(it, json_options=CANONICAL) for it in given[:20]]
    damaged = ['{"a": }', '{"a":[{"_id":{"$oid":"5"}}]}', '{"a":1,"a":2}', "[1]", "5", '{"a":{"$date":"2020"}}']
    answers = [json.loads(it) for it in run("validate", given="".join(f"{it}\n" for it in lines + damaged).encode())[1].splitlines()]
    want("valid lines", answers[:20], [{"ok": True, "bytes": len(bson.encode(it))} for it in given[:20]])
    found = [(it["ok"], it["code"], it["path"], it["column"]) for it in answers[20:]]
    want("other lines", found, [(False, vbson.NOT_JSON, [], 7), (False, vbson.BAD_OBJECT_ID, ["a", 0, "_id", "$oid"], 22),
                                (False, vbson.NOT_EXTENDED_JSON, ["a"], 12), (False, vbson.NOT_A_DOCUMENT, [], None),
                                (False, vbson.NOT_A_DOCUMENT, [], None), (False, vbson.NOT_EXTENDED_JSON, ["a", "$date"], 15)])


def try_stream(given):
    dump = b"".join(map(bson.encode, given))
    status, text, said = run("stream", "1000", given=dump)
    found = [json_util.loads(it, json_options=CANONICAL) for it in text.split("\n")[:-1]]
    want("stream", (status, found, said), (0, [it for it in bson.decode_all(dump, READING) if it["total"] >= 1000], ""))
    status, _, said = run("stream", "1000", given=dump[:-1])
    want("a dump that is cut off", (status, said), (1, f"document 500: ends too early at byte {len(dump) - 1}\n"))


def try_filter(given):
    path = written("filtered.bson", b"".join(map(bson.encode, given)))
    with open(path, "rb") as dump:
        ran = subprocess.run([sys.executable, "-B", f"{EXAMPLES}/filter_dump.py", "1000"], stdin=dump, capture_output=True, timeout=120)
    want("filter_dump", (ran.returncode, ran.stdout), (0, b"".join(bson.encode(it) for it in given if it["total"] >= 1000)))


if __name__ == "__main__":
    try_change(orders())
    try_filter(orders())
    try_duplicates(orders())
    try_validate(orders())
    try_stream(orders())
    end()
