"""Where bytes stop to be a JSON text (RFC 8259), and which rule they break there, as docs/PROGRAMS.md says it.

A token is a bracket, a comma, a colon, a string, or a word: other characters up to a blank, a bracket, a comma or a
colon. An error is at the first token that is not a token of JSON, or not allowed there. Inside of brackets a number or
a literal ends before the first character that is not a letter, a digit, or one of `._+-`.
"""
import re

from json_text import DEEPEST, NUMBER, NotJson, string

BLANKS, MARKS = ' \t\n\r', '{}[],:'
OPENING, CLOSING = ('{', '['), ('}', ']')
LITERALS = ('null', 'true', 'false')
WORD = re.compile('[A-Za-z0-9._+-]*')


class Broken(Exception):
    """The place of the error among the characters, and the name of the rule."""

    def __init__(self, place, rule):
        super().__init__(place, rule)
        self.place, self.rule = place, rule


def error_of(data):
    """The number of bytes before the error and the name of the rule, or None for a JSON text."""
    try:
        text = data.decode('utf-8')
    except UnicodeDecodeError as error:
        return error.start, 'Utf8'
    try:
        reader = Reader(text)
        reader.whole()
    except Broken as broken:
        return len(text[:broken.place].encode()), broken.rule
    if reader.large is not None:
        return len(text[:reader.large].encode()), 'OutOfRange'
    return None


def string_end(text, at):
    """The place after the string that begins here, or None if it is not a string."""
    try:
        # (a character after the text ends each string that has no quote)
        return string(text + '\0', at + 1)[1]
    except NotJson:
        return None


def string_rule(text, at):
    """The rule that a string breaks which begins here."""
    escaped = False
    for letter in text[at + 1:]:
        if letter < ' ':
            return 'ControlCharacter'
        if letter == '"' and not escaped:
            return 'Escape'
        escaped = letter == '\\' and not escaped
    return 'UnexpectedEnd'


class Reader:
    """One pass over a text, which it leaves at the first error; `large` is the first number that is no finite double."""

    def __init__(self, text):
        self.text, self.large = text, None

    def start(self, at):
        """The place of the next token."""
        while at < len(self.text) and self.text[at] in BLANKS:
            at += 1
        return at

    def mark(self, at):
        return self.text[at] if at < len(self.text) else ''

    def comma(self, at):
        """The place after a comma that follows a value, and whether there is one."""
        at = self.start(at)
        return (self.start(at + 1), True) if self.mark(at) == ',' else (at, False)

    def no_token(self, at, is_key, may_begin=True):
        """The error of what is not a token here: a value or a key, unless one comes before it without a comma."""
        first = self.mark(at)
        if not first:
            raise Broken(at, 'UnexpectedEnd')
        before = self.text[:at].rstrip(BLANKS)[-1:]
        if before == ',' and first in ',:]}':
            raise Broken(at, 'ExpectedElement')
        if not may_begin or before not in ('', *',:[{'):
            raise Broken(at, 'Separator')
        if first == '"':
            raise Broken(at, string_rule(self.text, at))
        if is_key or first in "'`":
            raise Broken(at, 'Quotes')
        word = WORD.match(self.text, at)
        if before and (NUMBER.fullmatch(word[0]) or word[0] in LITERALS):
            raise Broken(word.end(), 'Separator')
        raise Broken(at, 'Number' if first in '0123456789-+.' else 'ExpectedValue')

    def word_end(self, at):
        """The place after the literal or the number that begins here, or None if there is none."""
        end = at
        while end < len(self.text) and self.text[end] not in BLANKS + MARKS:
            end += 1
        word = self.text[at:end]
        number = NUMBER.fullmatch(word)
        if number and self.large is None and float(word) in (float('inf'), float('-inf')):
            self.large = at
        return end if number or word in LITERALS else None

    def scalar_end(self, at, is_key):
        """The place after a string, a literal or a number."""
        if self.mark(at) in ('', *',:\\}]'):
            self.no_token(at, is_key)
        end = string_end(self.text, at) if self.mark(at) == '"' else self.word_end(at)
        if end is None:
            self.no_token(at, is_key)
        return end

    def key_end(self, at):
        """The place of the colon after a string, or None if none follows."""
        end = self.start(string_end(self.text, at))
        return end if self.mark(end) == ':' else None

    def whole(self):
        """Reads the text's value, after which nothing may follow."""
        end = self.start(self.value(self.start(0), DEEPEST, ''))
        if self.mark(end):
            raise Broken(end, 'TrailingData')

    def value(self, at, levels, before):
        """The place after a value that begins here, in an array, in an object after its key, or at the top."""
        first = self.mark(at)
        if first in CLOSING:
            self.closing(at, before)
        if first in OPENING:
            if levels == 0:
                raise Broken(at, 'Depth')
            return self.members(at, levels - 1) if first == '{' else self.items(at, levels - 1)
        end = self.scalar_end(at, False)
        if first == '"' and self.key_end(at) is not None:
            raise Broken(self.key_end(at), 'Separator')
        return end

    def closing(self, at, before):
        """The error of a closing bracket where a value may begin."""
        if self.text[:at].rstrip(BLANKS)[-1:] == ',':
            raise Broken(at, 'ExpectedElement')
        raise Broken(at, 'ExpectedColonAndValue' if before == ':' else 'Separator')

    def items(self, at, levels):
        """The place after the array whose bracket is here."""
        at, may_close, may_begin = self.start(at + 1), True, True
        while True:
            if self.mark(at) == ']' and may_close:
                return at + 1
            if not may_begin and self.mark(at) != '}':
                self.no_token(at, False, False)
            at, has_comma = self.comma(self.value(at, levels, '['))
            may_close, may_begin = not has_comma, has_comma

    def members(self, at, levels):
        """The place after the object whose brace is here."""
        at, may_close, may_begin = self.start(at + 1), True, True
        while True:
            first = self.mark(at)
            if first == '}' and may_close:
                return at + 1
            if first in CLOSING:
                self.closing(at, '{')
            if not may_begin:
                self.no_token(at, True, False)
            at, has_comma = self.comma(self.value(self.key(at), levels, ':'))
            may_close, may_begin = not has_comma, has_comma

    def key(self, at):
        """The place of the value of the key that is here."""
        first = self.mark(at)
        end = self.start(at if first in OPENING else self.scalar_end(at, True))
        if first != '"':
            raise Broken(at, 'Quotes')
        if self.mark(end) != ':':
            raise Broken(end, 'ExpectedColonAndValue' if self.mark(end) else 'UnexpectedEnd')
        return self.start(end + 1)
