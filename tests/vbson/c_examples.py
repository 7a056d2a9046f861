"""The short programs of languages/c beside the same work by PyMongo: c_examples.py FOLDER, in which they are compiled. The last
line is 'N passed, M failed'."""
import datetime
import decimal
import json
import random
import subprocess
import sys

import bson
from bson import json_util

from python_check import end, want

ROOM = sys.argv[1]
CANONICAL = json_util.JSONOptions(json_mode=json_util.JSONMode.CANONICAL, tz_aware=True)
READING = bson.CodecOptions(tz_aware=True)


def orders():
    """Orders as PyMongo makes them, with some types that exports have."""
    generator, found = random.Random(5), []
    for number in range(500):
        order = {"_id": bson.ObjectId(generator.getrandbits(96).to_bytes(12, "big")), "total": generator.randrange(10, 10_000) / 4,
                 "at": datetime.datetime(2020, 1, 1, tzinfo=datetime.timezone.utc) + datetime.timedelta(seconds=generator.randrange(10**8)),
                 "lines": [{"sku": f"{generator.getrandbits(32):08x}", "count": bson.Int64(generator.randrange(2**40))}], "empty": {}}
        if number % 3 == 0:
            order["coupon"] = "\u00e9\u2028"
        if number % 5 == 0:
            order["paid"] = None
        order |= {"price": bson.Decimal128(decimal.Decimal(generator.randrange(10**6)) / 100), "raw": bytes([number % 256]), "who": bson.Regex("a.*", "i")}
        found.append(order)
    return found


def run(name, given):
    ran = subprocess.run([f"{ROOM}/{name}"], input=given, capture_output=True, timeout=120)
    return ran.returncode, ran.stdout, ran.stderr.decode()


def try_change(given):
    wanted = [{**it, "paid": True} for it in given]
    for it in wanted:
        it.pop("coupon", None)
    dump, changed = b"".join(map(bson.encode, given)), b"".join(map(bson.encode, wanted))
    want("change_field", run("change_field", dump), (0, changed, ""))
    status, written, _ = run("change_field", dump[:-1])
    want("change_field of a dump that is cut off", (status, written), (1, changed[:len(changed) - len(bson.encode(wanted[-1]))]))
    want("change_field of a document that is malformed", run("change_field", dump[:7] + b"\x80" + dump[8:])[0], 1)
    want("change_field of nothing", run("change_field", b""), (0, b"", ""))


def try_duplicates(given):
    lines = [json_util.dumps(it, json_options=CANONICAL) for it in given]
    for number in range(7, 500, 70):
        # (in the relaxed form a small 64-bit int is a 32-bit one, which is another value)
        for form in (CANONICAL, json_util.RELAXED_JSON_OPTIONS):
            lines.append(json_util.dumps(dict(reversed(given[number].items())), json_options=form))
    seen, wanted = {}, ""
    for number, it in enumerate(lines, 1):
        key = json_util.dumps(json_util.loads(it, json_options=CANONICAL), json_options=CANONICAL, sort_keys=True)
        first = seen.setdefault(key, number)
        if first < number:
            wanted += f"line {number} has the value of line {first}\n"
    want("the number of duplicates", wanted.count("\n") >= 8, True)
    want("duplicates", run("duplicates", "\n".join(lines).encode()), (0, wanted.encode(), ""))
    want("duplicates of a line that is not JSON", run("duplicates", b"{}\n{\n{ }\n"), (0, b"line 3 has the value of line 1\n", "line 2: not JSON\n"))


def is_read(line):
    """Whether PyMongo reads the line."""
    try:
        json_util.loads(line, json_options=CANONICAL)
    except Exception:
        return False
    return True


def column_of(line):
    """Where Python's reader of JSON stops."""
    try:
        json.loads(line)
    except json.JSONDecodeError as error:
        return error.colno
    return None


def try_validate(given):
    lines = [json_util.dumps(it, json_options=form) for it in given[:20] for form in (CANONICAL, json_util.RELAXED_JSON_OPTIONS)]
    want("validate valid lines", run("validate", "".join(f"{it}\n" for it in lines).encode()), (0, b"", ""))
    lines[3], lines[5], lines[8], lines[9] = "[1 2]", '{"a":[{"_id":{"$oid":"5"}}]}', '{"a":{"$date":"2020"}}', '{"a":1'
    status, said, _ = run("validate", "\n".join(lines).encode())
    starts = [it.partition(" (")[0] for it in said.decode().splitlines()]
    want("validate", (status, starts), (1, [f"line 4: not JSON at column {column_of(lines[3])}", "line 6: bad object id at a.0._id.$oid",
                                            "line 9: not Extended JSON at a.$date", f"line 10: not JSON at column {column_of(lines[9])}"]))
    want("the lines that PyMongo does not read", [number for number, it in enumerate(lines, 1) if not is_read(it)], [4, 6, 9, 10])


def try_stream(given):
    given = given * 20 + [{"long": "x" * 3_000_000}] + given
    dump = b"".join(map(bson.encode, given))
    status, text, said = run("stream", dump)
    found = [json_util.loads(it, json_options=CANONICAL) for it in text.decode().split("\n")[:-1]]
    want("stream", (status, found == bson.decode_all(dump, READING), said), (0, True, ""))
    status, cut, _ = run("stream", dump[:-1])
    want("stream of a dump that is cut off", (status, text.startswith(cut), text[len(cut):].count(b"\n")), (1, True, 1))
    want("stream of nothing", run("stream", b""), (0, b"", ""))


try_change(orders())
try_duplicates(orders())
try_validate(orders())
try_stream(orders())
end()
