"""Extended JSON v2: tree to value, or the first fault (MongoDB Extended JSON v2, relaxed and canonical forms mixed).

A value is a pair of its kind and its content:
  Null, Undefined, MinKey, MaxKey: None         Boolean: bool              Int32, Int64, DateTime: int
  String, Symbol, JavaScriptCode: str           Double: its text           Decimal128: as decimal128.py has it
  Array: list of values                         Document: list of (key, value), the keys ascending by their bytes, or
                                                          where order is kept (TAKEN) in the order of the tree
  RegularExpression: (pattern, options)         Binary: (subtype, bytes)   ObjectId: lower-case text
  JavaScriptCodeWithScope: (code, pairs)        Timestamp: (time, increment)
  DbPointer: (namespace, lower-case text)

An object with one of the 16 wrapper keys has exactly the keys and shapes of one wrapper; any other is a document.
The own keys of a scope are free. The first fault is reported: of a list's elements in order, of a document's or scope's
values by ascending key; a wrapper is judged as a whole. Where finite doubles are taken (TAKEN), a number that is no i64,
and a decimal number under `$numberDouble`, is the double nearest to it, where that is finite. The fault is BadObjectId where a `$oid` or `$dbPointer` is right but
for the text of its id, and NotExtendedJson everywhere else.
"""
import base64
import binascii
import re

import dates
import decimal128
import doubles
from json_text import I64, OtherNumber

I32 = range(-2**31, 2**31)
U32 = range(2**32)
WRAPPER_KEYS = frozenset(
    '$oid $symbol $regularExpression $numberInt $numberLong $numberDouble $numberDecimal $binary $uuid $code'
    ' $timestamp $date $minKey $maxKey $dbPointer $undefined'.split())
KINDS = frozenset(
    'Double String Array Document Boolean Null RegularExpression JavaScriptCode JavaScriptCodeWithScope Int32 Int64'
    ' Timestamp Binary ObjectId DateTime Symbol Decimal128 Undefined MaxKey MinKey DbPointer'.split())
# What is taken beside the grammar of the default.
TAKEN = set()
DOUBLES = frozenset('0.0 -0.0 Infinity -Infinity NaN -NaN'.split())

INT_TEXT = re.compile(r'([+-]?)([0-9]+)')
OBJECT_ID = re.compile(r'[0-9a-fA-F]{24}')
SUBTYPE = re.compile(r'[0-9a-fA-F]{2}')
UUID = re.compile(r'[0-9a-fA-F]{8}(?:-[0-9a-fA-F]{4}){3}-[0-9a-fA-F]{12}')


class NotExtendedJson(Exception):
    """The tree has no meaning."""


class BadObjectId(Exception):
    """The tree has no meaning, and its first fault is the text of an object id."""


def meaning(tree):
    """The value that a tree means."""
    kind = type(tree)
    if tree is None:
        return 'Null', None
    if kind is bool:
        return 'Boolean', tree
    if kind is int:
        return ('Int32' if tree in I32 else 'Int64'), tree
    if kind is str:
        return 'String', tree
    if kind is list:
        return 'Array', [meaning(item) for item in tree]
    if kind is OtherNumber:
        return finite(tree)
    if kind is not dict:
        raise NotExtendedJson
    if WRAPPER_KEYS.isdisjoint(tree):
        return 'Document', pairs(tree)
    wrapper = WRAPPERS.get(frozenset(tree))
    if not wrapper:
        raise NotExtendedJson
    return wrapper(tree)


def pairs(tree):
    """The pairs of an object whose own keys are free."""
    # Texts by code points are in the order of their UTF-8 bytes. (A dict has a key at its first place.)
    return [(key, meaning(tree[key])) for key in (tree if 'order' in TAKEN else sorted(tree))]


def demand(holds):
    """A wrapper's shape."""
    if not holds:
        raise NotExtendedJson


def text(tree):
    """A text."""
    demand(type(tree) is str)
    return tree


def fields(tree, *keys):
    """The texts of an object with exactly these keys."""
    demand(type(tree) is dict and tree.keys() == set(keys))
    return [text(tree[key]) for key in keys]


def int_text(tree, numbers):
    """The number of a text with at most one sign, leading zeros allowed, in this range."""
    found = INT_TEXT.fullmatch(text(tree))
    demand(found)
    # (no range has a number of more than 20 digits)
    digits = found.group(2).lstrip('0') or '0'
    demand(len(digits) <= 20)
    number = int(found.group(1) + digits)
    demand(number in numbers)
    return number


def object_id(written):
    """An object id's text: 24 hexadecimal digits of either case."""
    if not OBJECT_ID.fullmatch(written):
        raise BadObjectId
    return written.lower()


def db_pointer(tree):
    pointer = tree['$dbPointer']
    demand(type(pointer) is dict and pointer.keys() == {'$ref', '$id'})
    namespace = text(pointer['$ref'])
    written, = fields(pointer['$id'], '$oid')
    return 'DbPointer', (namespace, object_id(written))


def regular_expression(tree):
    pattern, options = fields(tree['$regularExpression'], 'pattern', 'options')
    return 'RegularExpression', (pattern, ''.join(sorted(options)))


def double(tree):
    written = text(tree['$numberDouble'])
    return ('Double', written) if written in DOUBLES else finite(written)


def finite(written):
    """The double nearest to a decimal number (IEEE 754-2008 section 4.3.1), as its shortest text."""
    demand('doubles' in TAKEN)
    found = doubles.answer_to(written)
    demand(found not in ('NotANumber', 'OutOfRange'))
    return 'Double', doubles.text_of(int(found, 16))


def decimal(tree):
    parsed = decimal128.parse(text(tree['$numberDecimal']))
    demand(parsed)
    return 'Decimal128', parsed


def binary(tree):
    """Base64 as RFC 4648 section 4 has it, one text for each byte string; the subtype in two hexadecimal digits."""
    written, subtype = fields(tree['$binary'], 'base64', 'subType')
    demand(SUBTYPE.fullmatch(subtype))
    try:
        decoded = base64.b64decode(written.encode(), validate=True)
    except binascii.Error:
        raise NotExtendedJson from None
    demand(base64.b64encode(decoded).decode() == written)
    return 'Binary', (int(subtype, 16), decoded)


def uuid(tree):
    """A UUID's text, hyphenated 8-4-4-4-12 alone (RFC 9562), which is a binary of subtype 4."""
    written = text(tree['$uuid'])
    demand(UUID.fullmatch(written))
    return 'Binary', (4, bytes.fromhex(written.replace('-', '')))


def code(tree):
    return 'JavaScriptCode', text(tree['$code'])


def code_with_scope(tree):
    """A scope of null stands for none."""
    written, scope = text(tree['$code']), tree['$scope']
    if scope is None:
        return 'JavaScriptCode', written
    demand(type(scope) is dict)
    return 'JavaScriptCodeWithScope', (written, pairs(scope))


def timestamp(tree):
    stamp = tree['$timestamp']
    demand(type(stamp) is dict and stamp.keys() == {'t', 'i'})
    demand(all(type(number) is int and number in U32 for number in stamp.values()))
    return 'Timestamp', (stamp['t'], stamp['i'])


def date(tree):
    """A number of milliseconds, a text of RFC 3339, or `$numberLong` with an int text."""
    written = tree['$date']
    if type(written) is int:
        return 'DateTime', written
    if type(written) is str:
        ms = dates.parse_rfc3339(written)
        demand(ms is not None)
        return 'DateTime', ms
    return 'DateTime', int_text(*fields(written, '$numberLong'), I64)


def constant(kind, key, wanted):
    """A wrapper that holds this one number or boolean."""
    def read(tree):
        demand(type(tree[key]) is type(wanted) and tree[key] == wanted)
        return kind, None
    return read


# By their keys.
WRAPPERS = {frozenset(keys.split()): wrapper for keys, wrapper in {
    '$oid': lambda tree: ('ObjectId', object_id(text(tree['$oid']))),
    '$symbol': lambda tree: ('Symbol', text(tree['$symbol'])),
    '$regularExpression': regular_expression,
    '$numberInt': lambda tree: ('Int32', int_text(tree['$numberInt'], I32)),
    '$numberLong': lambda tree: ('Int64', int_text(tree['$numberLong'], I64)),
    '$numberDouble': double,
    '$numberDecimal': decimal,
    '$binary': binary,
    '$uuid': uuid,
    '$code': code,
    '$code $scope': code_with_scope,
    '$timestamp': timestamp,
    '$date': date,
    '$minKey': constant('MinKey', '$minKey', 1),
    '$maxKey': constant('MaxKey', '$maxKey', 1),
    '$dbPointer': db_pointer,
    '$undefined': constant('Undefined', '$undefined', True),
}.items()}
