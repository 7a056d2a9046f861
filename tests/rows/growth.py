"""Texts and documents whose keys occur twice, in orders that could send a reader far for each key, and a bound on the time
that they need.

A step that looks at every key so far for each key would need 64 times as long for a text that is eight times as large.
"""
import math
import time

from many_keys import encoded

# The commands of bson_program that read texts, and those that read BSON, from standard input, which is a file.
COMMANDS = (
    "canonical --strict", "relaxed --strict", "show --strict", "check --strict",
    "canonical", "relaxed", "show", "check", "canonical --sort-keys",
    "canonical --strict --no-double-keys", "canonical --strict --v1", "canonical --strict --indent 1",
    "canonical --no-double-keys", "canonical --v1", "canonical --indent 1",
    "check --canonical", "hash", "same /dev/stdin /dev/stdin",
    "lines canonical --strict", "lines canonical", "lines hash", "encode", "encode --sort-keys", "encode --strict",
)
COMMANDS_OF_BSON = (
    "decode canonical", "decode canonical --sort-keys", "decode canonical --strict", "decode show", "decode check",
    "decode hash", "decode same /dev/stdin /dev/stdin", "decode canonical --no-double-keys", "decode check --no-double-keys",
)

LARGE = 1_000_000
PARTS = 8
# The most times as long for PARTS times the text, and the seconds that any run may need beyond that.
BOUND = 8.5
ALLOWED = 0.1
RUNS = 3
ATTEMPTS = 5
# The seconds between two attempts.
PAUSE = 2
MEMBER = len('"000000":0,')
# As many keys make an object whose members are put in order at its end.
CYCLE = 40


def keys(count):
    """Distinct keys in ascending order."""
    return ["%06d" % number for number in range(count)]


def members(names):
    return "{" + ",".join(f'"{name}":0' for name in names) + "}"


def twice(count):
    return keys(count // 2) * 2


def descending_twice(count):
    return keys(count // 2)[::-1] * 2


def there_and_back(count):
    names = keys(count // 2)
    return names + names[::-1]


def lowest_again(count):
    names = keys(count // 2)
    return names + names[:1] * len(names)


def each_twice(count):
    return [name for name in keys(count // 2) for _ in range(2)]


def shuffled_twice(count):
    """Each key twice, by an odd step through all of them."""
    names = keys(1 << (count // 2).bit_length() - 1)
    return [names[number * 0x9E3779B1 % len(names)] for number in range(2 * len(names))]


def cycles(count):
    return keys(CYCLE) * (count // CYCLE)


def long_cycles(count):
    return keys(1000) * (count // 1000)


def in_scope(count):
    return '{"$code":"","$scope":%s}' % members(twice(count))


def in_scope_first(count):
    return '{"$scope":%s,"$code":""}' % members(twice(count))


def in_each_other(count):
    """Objects in each other, each with its keys twice, and the next under its last key."""
    levels = 60
    own = members(twice(count // levels)).removesuffix("}")
    return (own + ',"z":') * levels + "0" + "}" * levels


def of_small(count):
    return "[" + ",".join([members(twice(2 * CYCLE))] * (count // (2 * CYCLE))) + "]"


def texts(size):
    """The texts of about so many bytes, by what they are."""
    count = size // MEMBER
    made = {
        "ascending keys, then the same again": members(twice(count)),
        "descending keys, then the same again": members(descending_twice(count)),
        "ascending keys, then the same descending": members(there_and_back(count)),
        "ascending keys, then the lowest again and again": members(lowest_again(count)),
        "each key twice in turn": members(each_twice(count)),
        "shuffled keys, then the same again": members(shuffled_twice(count)),
        "a few keys again and again": members(cycles(count)),
        "a thousand keys again and again": members(long_cycles(count)),
        "a scope of ascending keys, then the same again": in_scope(count),
        "the same with the scope before its code": in_scope_first(count),
        "objects in each other, each of keys twice": in_each_other(count),
        "small objects, each of keys twice": of_small(count),
    }
    return {name: text.encode() for name, text in made.items()}


def documents(size):
    """Documents of BSON of about so many bytes, by what their keys are."""
    count = size // len("\x10" "000000" "\0" "0000")
    made = {
        "ascending keys, then the same again": twice(count),
        "ascending keys, then the lowest again and again": lowest_again(count),
        "shuffled keys, then the same again": shuffled_twice(count),
        "a thousand keys again and again": long_cycles(count),
    }
    return {name: encoded([(key.encode(), 0) for key in names]) for name, names in made.items()}


def fault(seconds_of, part, whole):
    """What is wrong with the time of the whole text compared with that of the part; None if it is within the bound.

    `seconds_of` returns the processor seconds of one run over a text. The least of several runs counts. If that is over the
    bound, both texts are run again after a pause, since other work on the machine slows down some runs, and not all.
    """
    least, found = math.inf, math.inf
    for attempt in range(ATTEMPTS):
        time.sleep(PAUSE if attempt else 0)
        least = min(least, *(seconds_of(part) for _ in range(RUNS)))
        found = min(found, *(seconds_of(whole) for _ in range(RUNS)))
        if found <= BOUND * least + ALLOWED:
            return None
    return f"{found:.2f} s for {len(whole)} bytes, and not {BOUND * least + ALLOWED:.2f} s"
