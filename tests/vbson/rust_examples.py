"""The examples of languages/rust/examples beside the same work by PyMongo: rust_examples.py PROGRAMS FOLDER. The last line is
'N passed, M failed'."""
import subprocess

import bson
from bson import json_util

from python_check import end, want
from python_examples import CANONICAL, EXAMPLES, READING, ROOM, orders, written


def run(name, *words, given=b""):
    ran = subprocess.run([f"{EXAMPLES}/{name}", *words], input=given, capture_output=True, timeout=120)
    return ran.returncode, ran.stdout.decode(), ran.stderr.decode()


def lines_of(given):
    """The lines of orders, with eight that have the value of another: in another form, and in another order of keys."""
    lines = [json_util.dumps(it, json_options=CANONICAL) for it in given]
    for number in range(7, 500, 70):
        # (in the relaxed form the 64-bit int is a 32-bit one, which is another value)
        for form in (CANONICAL, json_util.RELAXED_JSON_OPTIONS):
            lines.append(json_util.dumps(dict(reversed(given[number].items())), json_options=form))
    return lines


def try_change(given):
    source, made = written("orders.bson", b"".join(map(bson.encode, given))), f"{ROOM}/changed.bson"
    want("change_field", run("change_field", source, made), (0, "500 orders\n", ""))
    wanted = [{**it, "paid": True} for it in given]
    for it in wanted:
        it.pop("coupon", None)
    with open(made, "rb") as file:
        want("the changed bytes", file.read(), b"".join(map(bson.encode, wanted)))


def try_duplicates(given):
    lines, seen, wanted = lines_of(given), {}, ""
    for number, it in enumerate(lines, 1):
        key = json_util.dumps(json_util.loads(it, json_options=CANONICAL), json_options=CANONICAL, sort_keys=True)
        first = seen.setdefault(key, number)
        if first < number:
            wanted += f"line {number} has the value of line {first}\n"
    want("the number of duplicates", wanted.count("\n"), 8)
    want("duplicates", run("duplicates", written("orders.jsonl", "".join(f"{it}\n" for it in lines).encode())), (0, wanted, ""))


def try_validate(given):
    lines = [json_util.dumps(it, json_options=CANONICAL) for it in given[:20]]
    damaged = ['{"a": }', '{"a":[{"_id":{"$oid":"5"}}]}', '{"a":1,"a":2}', "[1]", "5", '{"a":{"$date":"2020"}}']
    text = "".join(f"{it}\n" for it in ["", *lines, *damaged])
    answers = [it.split("\t") for it in run("validate", given=text.encode())[1].splitlines()]
    wanted = [[str(number), "ok", str(len(bson.encode(it)))] for number, it in enumerate(given[:20], 2)]
    want("valid lines", answers[:20], wanted)
    found = [(number, code, path, column) for number, _, code, path, column, _ in answers[20:]]
    want("other lines", found, [("22", "2", "", "7"), ("23", "3", "a.0._id.$oid", "22"), ("24", "4", "a", "12"), ("25", "10", "", "0"),
                                ("26", "10", "", "0"), ("27", "4", "a.$date", "15")])


def try_stream(given):
    dump = b"".join(map(bson.encode, given))
    status, text, said = run("stream", "1000", given=dump)
    found = [json_util.loads(it, json_options=CANONICAL) for it in text.split("\n")[:-1]]
    # (in the relaxed form a 64-bit int is a 32-bit one, which Python compares as equal)
    want("stream", (status, found, said), (0, [it for it in bson.decode_all(dump, READING) if it["total"] >= 1000], ""))
    status, _, said = run("stream", "1000", given=dump[:-1])
    want("a dump that is cut off", (status, said), (1, f"document 500: ends too early at byte {len(dump) - 1}\n"))


if __name__ == "__main__":
    for it in (try_change, try_duplicates, try_validate, try_stream):
        it(orders())
    end()
