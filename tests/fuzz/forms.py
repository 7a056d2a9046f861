"""What the program writes of a value: the canonical and the relaxed form of Extended JSON v2, and the shown text.

Both forms are compact JSON text, the keys of documents ascending by their bytes or in their order. The relaxed form
differs in four kinds: Int32 and Int64 are plain numbers, a date of the years 1970 to 9999 is a text of RFC 3339, and where
finite doubles are taken (TAKEN) a finite double is its shortest decimal as a JSON number, a zero too.

Each form has two layouts. In the specified one the keys of a wrapper ascend, except that `$code` is before `$scope`, and a
fraction of a second has no zeros at its end. MongoDB's layout is that of libbson and of PyMongo's json_util, with which
tests/peers compares it: a fraction of a second that is not zero has three digits, and if the keys of documents are in
their order, `t` is before `i`, `pattern` before `options`, and `$ref` before `$id`.
"""
import base64
import json

import dates
import decimal128
import doubles
from grammar import TAKEN

LAST_RELAXED_DATE = 253402300799999
WITHOUT_SPACES = json.JSONEncoder(ensure_ascii=False, separators=(',', ':')).encode


class Number(str):
    """A number of JSON as it is written."""


def ascending(value, is_relaxed, is_mongodb):
    """The compact text of a form in a layout, in which the keys of each object ascend."""
    return compact(tree(value, is_relaxed, is_mongodb), sorted)


def in_order(value, is_relaxed, is_mongodb):
    """The compact text of a form in a layout, in which the pairs of each document keep their order."""
    return compact(tree(value, is_relaxed, is_mongodb), list)


def compact(written, arranged):
    """JSON text without spaces; only quotes, backslashes and characters below U+0020 are escaped."""
    kind = type(written)
    if kind is dict:
        return '{' + ','.join([f'{WITHOUT_SPACES(key)}:{compact(written[key], arranged)}' for key in arranged(written)]) + '}'
    if kind is list:
        return '[' + ','.join([compact(item, arranged) for item in written]) + ']'
    return written if kind is Number else WITHOUT_SPACES(written)


def tree(value, is_relaxed, is_mongodb):
    """The tree of a value: null, truth, text, list and document as JSON's own, each other kind in its wrapper."""
    kind, content = value
    if kind in ('Null', 'Boolean', 'String'):
        return content
    if kind == 'Array':
        return [tree(item, is_relaxed, is_mongodb) for item in content]
    if kind == 'Document':
        return object_of(content, is_relaxed, is_mongodb)
    if kind == 'JavaScriptCodeWithScope':
        code, scope = content
        return {'$code': code, '$scope': object_of(scope, is_relaxed, is_mongodb)}
    if is_relaxed and kind in ('Int32', 'Int64'):
        return content
    if is_relaxed and kind == 'Double' and 'doubles' in TAKEN and content not in NOT_FINITE:
        return Number(content)
    if is_relaxed and kind == 'DateTime' and 0 <= content <= LAST_RELAXED_DATE:
        return {'$date': dates.rfc3339(content, is_mongodb)}
    key, inner = (MONGODB_WRAPPERS if is_mongodb else WRAPPERS)[kind]
    return {key: inner(content)}


def object_of(pairs, is_relaxed, is_mongodb):
    return {key: tree(value, is_relaxed, is_mongodb) for key, value in pairs}


def has_zeros(value):
    """Whether the relaxed texts of a date differ in the two layouts: its fraction of a second ends in 0, and is not 0."""
    kind, content = value
    return kind == 'DateTime' and 0 <= content <= LAST_RELAXED_DATE and content % 1000 > 0 and content % 10 == 0


def base64_of(data):
    return base64.b64encode(data).decode()


# Of each kind that has one: its key, and what that holds.
WRAPPERS = {
    'Int32': ('$numberInt', str),
    'Int64': ('$numberLong', str),
    'Double': ('$numberDouble', str),
    'Decimal128': ('$numberDecimal', decimal128.printed),
    'ObjectId': ('$oid', str),
    'Symbol': ('$symbol', str),
    'RegularExpression': ('$regularExpression', lambda regex: {'options': ''.join(sorted(regex[1])), 'pattern': regex[0]}),
    'Binary': ('$binary', lambda binary: {'base64': base64_of(binary[1]), 'subType': f'{binary[0]:02x}'}),
    'JavaScriptCode': ('$code', str),
    'Timestamp': ('$timestamp', lambda stamp: {'i': stamp[1], 't': stamp[0]}),
    'DateTime': ('$date', lambda ms: {'$numberLong': str(ms)}),
    'MinKey': ('$minKey', lambda _: 1),
    'MaxKey': ('$maxKey', lambda _: 1),
    'Undefined': ('$undefined', lambda _: True),
    'DbPointer': ('$dbPointer', lambda pointer: {'$id': {'$oid': pointer[1]}, '$ref': pointer[0]}),
}


def turned(wrapper):
    """A wrapper whose two keys are the other way round."""
    key, inner = wrapper
    return key, lambda content: dict(reversed(inner(content).items()))


MONGODB_WRAPPERS = {**WRAPPERS, **{kind: turned(WRAPPERS[kind]) for kind in ('RegularExpression', 'Timestamp', 'DbPointer')}}


def shown(value):
    """The text that a user is shown; texts and keys are not escaped."""
    kind, content = value
    if kind == 'Array':
        return '[' + ', '.join(map(shown, content)) + ']'
    if kind == 'Document':
        inside = ', '.join(f'"{key}": {shown(inner)}' for key, inner in content)
        return f'{{ {inside} }}' if content else '{}'
    return SHOWN[kind](content)


SHOWN = {
    'Null': lambda _: 'null',
    'Undefined': lambda _: 'undefined',
    'MinKey': lambda _: 'MinKey',
    'MaxKey': lambda _: 'MaxKey',
    'Boolean': lambda truth: 'true' if truth else 'false',
    'String': lambda text: f'"{text}"',
    'Double': lambda text: f'Double(0x{pattern_of(text):016x})',
    'RegularExpression': lambda regex: f'/{regex[0]}/{regex[1]}',
    'JavaScriptCode': str,
    'JavaScriptCodeWithScope': lambda code: code[0],
    'Int32': str,
    'Int64': str,
    'Timestamp': lambda stamp: f'Timestamp({stamp[0]}, {stamp[1]})',
    'Binary': lambda binary: f'Binary(0x{binary[0]:x}, {base64_of(binary[1])})',
    'ObjectId': lambda text: f'ObjectId("{text}")',
    'DateTime': lambda ms: f'DateTime("{dates.display(ms)}")',
    'Symbol': lambda text: f'Symbol("{text}")',
    'Decimal128': decimal128.printed,
    'DbPointer': lambda pointer: f'DbPointer({pointer[0]}, {pointer[1]})',
}


def pattern_of(text):
    return DOUBLES[text] if text in DOUBLES else doubles.pattern_of(float(text))


# The patterns of the doubles that have a text by default (IEEE 754 binary64; the quiet NaN of each sign).
DOUBLES = {
    '0.0': 0x0000000000000000,
    '-0.0': 0x8000000000000000,
    'Infinity': 0x7FF0000000000000,
    '-Infinity': 0xFFF0000000000000,
    'NaN': 0x7FF8000000000000,
    '-NaN': 0xFFF8000000000000,
}
NOT_FINITE = DOUBLES.keys() - {'0.0', '-0.0'}
