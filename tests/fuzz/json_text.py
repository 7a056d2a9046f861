"""JSON text to tree (RFC 8259), as the Rust crate `serde_json` reads it without features.

A tree is None, a boolean, an int (a number that is an i64), an OtherNumber (any other number), a str, a list,
or a dict from str to tree.

  - The bytes are strict UTF-8. A byte order mark is no white space.
  - Lists and objects nest at most 127 deep.
  - Of a key that an object has twice, the last value counts.
  - An integer is whole where it fits 64 bits; beyond them it is a float, and so is `-0`. A number that as a float
    is infinite has no tree.
  - A string holds no character below U+0020, and `\\u` spells no lone surrogate.
"""
import re

DEEPEST = 127
I64 = range(-2**63, 2**63)


class NotJson(Exception):
    """The bytes are no JSON text."""


class OtherNumber(str):
    """The text of a number that is no i64."""


SPACE = re.compile(r'[ \t\n\r]*')
PLAIN = re.compile(r'[^"\\\x00-\x1f]*')
NUMBER = re.compile(r'-?(?:0|[1-9][0-9]*)((?:\.[0-9]+)?(?:[eE][+-]?[0-9]+)?)')
UNIT = re.compile(r'[0-9a-fA-F]{4}')
ESCAPES = {'"': '"', '\\': '\\', '/': '/', 'b': '\b', 'f': '\f', 'n': '\n', 'r': '\r', 't': '\t'}
WORDS = {'n': ('null', None), 't': ('true', True), 'f': ('false', False)}


def read(data):
    """The tree of these bytes, or NotJson."""
    try:
        text = data.decode('utf-8')
    except UnicodeDecodeError:
        raise NotJson from None
    # (so that each place that is asked for has a character)
    text += '\0'
    tree, at = value(text, space(text, 0), DEEPEST)
    if space(text, at) != len(text) - 1:
        raise NotJson
    return tree


def space(text, at):
    """The place after the white space."""
    return at if text[at] > ' ' else SPACE.match(text, at).end()


def value(text, at, levels):
    """The tree that begins here, with so many levels left, and the place after it."""
    first = text[at]
    if first == '"':
        return string(text, at + 1)
    if first == '{':
        return members(text, at + 1, levels - 1)
    if first == '[':
        return items(text, at + 1, levels - 1)
    if first in WORDS:
        word, tree = WORDS[first]
        if not text.startswith(word, at):
            raise NotJson
        return tree, at + len(word)
    return number(text, at)


def items(text, at, levels):
    """A list, after its bracket."""
    if levels < 0:
        raise NotJson
    found = []
    at = space(text, at)
    if text[at] == ']':
        return found, at + 1
    while True:
        tree, at = value(text, at, levels)
        found.append(tree)
        at = space(text, at)
        if text[at] == ']':
            return found, at + 1
        if text[at] != ',':
            raise NotJson
        at = space(text, at + 1)


def members(text, at, levels):
    """An object, after its brace."""
    if levels < 0:
        raise NotJson
    found = {}
    at = space(text, at)
    if text[at] == '}':
        return found, at + 1
    while True:
        if text[at] != '"':
            raise NotJson
        key, at = string(text, at + 1)
        at = space(text, at)
        if text[at] != ':':
            raise NotJson
        found[key], at = value(text, space(text, at + 1), levels)
        at = space(text, at)
        if text[at] == '}':
            return found, at + 1
        if text[at] != ',':
            raise NotJson
        at = space(text, at + 1)


def string(text, at):
    """A string, after its first quote."""
    end = PLAIN.match(text, at).end()
    if text[end] == '"':
        return text[at:end], end + 1
    parts = []
    while True:
        parts.append(text[at:end])
        if text[end] == '"':
            return ''.join(parts), end + 1
        if text[end] != '\\':
            raise NotJson
        character, at = escape(text, end + 1)
        parts.append(character)
        end = PLAIN.match(text, at).end()


def escape(text, at):
    """The character of an escape, after its backslash."""
    if text[at] in ESCAPES:
        return ESCAPES[text[at]], at + 1
    high, at = unit(text, at)
    if not 0xD800 <= high < 0xE000:
        return chr(high), at
    if high >= 0xDC00 or text[at] != '\\':
        raise NotJson
    low, at = unit(text, at + 1)
    if not 0xDC00 <= low < 0xE000:
        raise NotJson
    return chr(0x10000 + (high - 0xD800) * 0x400 + low - 0xDC00), at


def unit(text, at):
    """The number of `u` and four hexadecimal digits."""
    digits = UNIT.match(text, at + 1)
    if text[at] != 'u' or not digits:
        raise NotJson
    return int(digits.group(), 16), at + 5


def number(text, at):
    """A number."""
    found = NUMBER.match(text, at)
    if not found:
        raise NotJson
    written = found.group()
    if not found.group(1) and len(written) <= 20 and written != '-0' and int(written) in I64:
        return int(written), found.end()
    if float(written) in (float('inf'), float('-inf')):
        raise NotJson
    return OtherNumber(written), found.end()
