"""Random texts that are hardly JSON: its tokens with one of them changed, and bytes that are not UTF-8."""

GOOD = ('{', '}', '[', ']', ',', ':', '"a"', '"b\\n"', '"\\\\"', '7', '-1.5e3', 'null', 'true')
BAD = ('01', '+1', '.5', '1.', '1_0', '-', 'nul', 'Null', 'd', '!', "'c'", '`c`', '\\', '/*', '"\\x"', '"\t"', '"\\ud800"', '\x00',
       '\u201ca\u201d')
# Numbers whose nearest double is not finite.
LARGE = ('1e400', '-1e400', '1' + '0' * 309)
# What a string is made of that may have a wrong escape.
PIECES = ('a', '\u00e9', '\\\\', '\\"', '\\n', '\\u00e9', '\\x', '\\u00g', '\t', "'")
LONGEST = 70_000


def text_of(generator, newline):
    """A text in bytes."""
    tokens = value(generator, generator.randrange(6))
    if generator.random() < 0.03:
        tokens = [generator.choice(LARGE) if it == '7' else it for it in tokens]
    else:
        for _ in range(1 + (generator.random() < 0.1)):
            change(generator, tokens)
    blanks = ('', ' ', '\n', '\r\n', '\n\n') if newline else ('', '', '', '', '', ' ', '\t', '\r', '  ')
    text = ''.join(token + generator.choice(blanks) for token in tokens)
    if generator.random() < 0.02:
        text = deep(generator, text)
    if generator.random() < 0.03:
        text = long(generator, text)
    data = text.encode()
    if generator.random() < 0.03:
        at = generator.randrange(len(data) + 1)
        data = data[:at] + generator.choice((b'\xff', b'\xc3', b'\xed\xa0\x80')) + data[at:]
    return data if data.strip(b' \t\r\n') else b'!'


def value(generator, levels):
    """The tokens of a JSON value."""
    kind = generator.random()
    if levels == 0 or kind < 0.15:
        return [generator.choice(GOOD[6:])] if kind < 0.9 else [string(generator)]
    members = [value(generator, levels - 1) for _ in range(generator.choice((0, 1, 1, 2, 2, 3)))]
    if kind < 0.5:
        return ['[', *joined(members), ']']
    return ['{', *joined([[generator.choice(('"a"', '"b"', '"\\u0041"')), ':', *it] for it in members]), '}']


def joined(members):
    """The tokens of members, commas between them."""
    return [token for member in members for token in (',', *member)][1:]


def string(generator):
    return '"' + ''.join(generator.choices(PIECES, k=generator.randrange(1, 6))) + '"'


def change(generator, tokens):
    """Changes one token."""
    at, kind = generator.randrange(len(tokens)), generator.random()
    other = generator.choice((generator.choice(GOOD), generator.choice(BAD + LARGE), string(generator)))
    if kind < 0.25 and len(tokens) > 1:
        del tokens[at]
    elif kind < 0.4:
        tokens[at] = tokens[at].replace('"', generator.choice(('', "'")))
    elif kind < 0.5:
        del tokens[at + 1:]
    elif kind < 0.6:
        tokens[at] = tokens[at][:-1]
    elif kind < 0.8:
        tokens.insert(at + generator.randrange(2), other)
    else:
        tokens[at] = other


def deep(generator, text):
    """The text within brackets, which are too many or nearly so."""
    for _ in range(generator.randrange(122, 132)):
        text = generator.choice(('[%s]', '{"":%s}')) % text.replace('%', '')
    return text


def long(generator, text):
    """The text after many bytes."""
    filling = generator.choice((' ', '0,', '"\u00e9",', '{"a":0},'))
    count = generator.randrange(generator.choice((0, 55_000)), LONGEST) // len(filling.encode())
    return f'[{filling * count}{text}]'
