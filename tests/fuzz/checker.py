"""What the program must answer to an input, and the rows that the checker itself must get right."""
import pathlib
from dataclasses import dataclass

import forms
from grammar import TAKEN, WRAPPER_KEYS, BadObjectId, NotExtendedJson, meaning
from json_text import DEEPEST, NotJson, read

MODES = ('canonical', 'relaxed', 'show')
OK = 'accepted'
LINES = {
    NotJson: 'bson_cli: not JSON',
    BadObjectId: 'bson_cli: bad object id',
    NotExtendedJson: 'bson_cli: not Extended JSON',
}
ANSWERS = (OK, *LINES.values())


@dataclass(frozen=True)
class Judgement:
    """The value of an input, or the line of its fault."""
    value: tuple | None
    line: str | None

    def answer(self, mode):
        """The output before its newline, or the line of the fault."""
        return self.line or written(mode, self.value)


def written(mode, value):
    """The output of a value before its newline: in MongoDB's layout where finite doubles are taken, by bson_program."""
    return forms.shown(value) if mode == 'show' else forms.ascending(value, mode == 'relaxed', 'doubles' in TAKEN)


def judge(data):
    """Judges an input."""
    try:
        return Judgement(meaning(read(data)), None)
    except tuple(LINES) as fault:
        return Judgement(None, LINES[type(fault)])


def rows():
    """The rows (mode, input, answer): those of rows.txt, and those too long to write down."""
    with_doubles = list(rows_in('rows_with_doubles.txt')) if TAKEN else []
    others = {(mode, text) for mode, text, _ in with_doubles}
    yield from with_doubles
    yield from (row for row in rows_in('rows.txt') if row[:2] not in others)
    yield from key_rows()
    yield from nesting_rows()
    yield from decimal_rows()


def rows_in(name):
    """The rows of a file, four lines each, the last one empty."""
    lines = (pathlib.Path(__file__).parent / name).read_text('utf-8').split('\n')
    return zip(lines[0::4], lines[1::4], lines[2::4])


def key_rows():
    """Each wrapper key alone, with null: refused as a wrapper, free as a scope's own key."""
    refused = LINES[NotExtendedJson]
    for key in sorted(WRAPPER_KEYS):
        wrapper = f'{{"{key}":null}}'
        for text in (wrapper, f'[{wrapper}]', f'{{"a":{{"b":{{"c":{wrapper}}}}}}}',
                     f'{{"$code":"f","$scope":{{"a":{wrapper}}}}}'):
            yield 'canonical', text, refused
        scope = f'{{"$code":"f","$scope":{wrapper}}}'
        yield 'canonical', scope, scope


def nesting_rows():
    """Lists and objects at the border of nesting, and a wide list."""
    refused = LINES[NotJson]
    lists = '[' * DEEPEST + ']' * DEEPEST
    yield 'canonical', lists, lists
    yield 'canonical', f'[{lists}]', refused
    objects = '{"a":' * (DEEPEST - 1) + '{}' + '}' * (DEEPEST - 1)
    yield 'relaxed', objects, objects
    yield 'relaxed', f'{{"a":{objects}}}', refused
    wide = '[' + ','.join(['null'] * 100000) + ']'
    yield 'canonical', wide, wide


def decimal_rows():
    """Decimals at the borders of their spelling."""
    refused = LINES[NotExtendedJson]
    for text, printed in (
            ('0.' + '0' * 32767, '0E-6176'),
            ('0.' + '0' * 32768, None),
            ('1' + '0' * 32800 + 'E-32767', '1' + '0' * 33),
            ('1' + '0' * 32801 + 'E-32767', None),
            ('1' + '0' * 33000 + 'E-32000', None)):
        answer = printed and f'{{"$numberDecimal":"{printed}"}}'
        yield 'canonical', f'{{"$numberDecimal":"{text}"}}', answer or refused
