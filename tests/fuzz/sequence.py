"""The texts of a sequence of JSON texts (RFC 8259), which has white space between them."""


def texts_of(data):
    """The parts between white space outside of brackets and strings, which need not be JSON."""
    texts, start, depth, is_string, is_escaped = [], 0, 0, False, False
    for at, byte in enumerate(data):
        if is_string:
            is_string = is_escaped or byte != 0x22
            is_escaped = not is_escaped and byte == 0x5c
        elif byte == 0x22:
            is_string = True
        elif byte in b'[{':
            depth += 1
        elif byte in b']}':
            depth = max(0, depth - 1)
        elif depth == 0 and byte in b' \t\r\n':
            texts.append(data[start:at])
            start = at + 1
    return [it for it in (*texts, data[start:]) if it]
