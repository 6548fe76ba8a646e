"""JSON texts written by hand: every place of refusal 3, and every byte in every state."""

from gen.damage import BAD_ESCAPES, BAD_LITERALS, BAD_NUMBERS, BAD_SHAPES, BAD_UTF8, CONTROLS

# Open point 9, each place it names.
PLACES = (
    b'"\\uDC00"', b'"\\uDC00', b'"\\udfff"', b'"\\uD800"', b'"\\uD800x"', b'"\\uD800\\n"',
    b'"\\uD800\\u0041"', b'"\\uD800\\uD800"', b'"\\uD800\\uDC00"', b'"\\uD800\\uDC0"',
    b'"\\x"', b'"\\u00g0"', b'"\x80"', b'"\xc0\x80"', b'"\xc1\xbf"', b'"\xf5\x80\x80\x80"',
    b'"\xff"', b'"\xe0\x9f\xbf"', b'"\xed\xa0\x80"', b'"\xf0\x8f\xbf\xbf"',
    b'"\xf4\x90\x80\x80"', b'"\xc3"', b'"\xe2\x82"', b'"\xf0\x9f\x98"', b'"\xf0\x9f"',
    b'"\n"', b'"\x00"', b'"\x1f"', b'"\x7f"', b'\xef\xbb\xbf1', b'-', b'1.', b'1e', b'nul',
    b'', b' ', b' \t\n\r', b'01', b'-01', b'nulx', b'nullx', b'[1,]', b'[1,', b'{"a":1,}',
    b'{"a":1,"a":1}', b'"', b'"\\', b'"\\u', b'"\\u0', b'"\\u00', b'"\\u004', b'"\\u0041')

# Together these prefixes bring a reader into every state that a byte can meet it in.
PREFIXES = (
    b'', b'1 ', b'[', b'[1', b'[1 ', b'[1,', b'{', b'{"a"', b'{"a":', b'{"a":1 ', b'{"a":1,',
    b'"', b'"\\', b'"\\u', b'"\\u0', b'"\\ud', b'"\\uDB', b'"\\uD83', b'"\\uD83D', b'"\\uD83D\\',
    b'"\\uD83D\\u', b'"\\uD83D\\uD', b'"\\uD83D\\uDE', b'"\xc3', b'"\xe0', b'"\xe1', b'"\xed',
    b'"\xf0', b'"\xf1', b'"\xf4', b'"\xf0\x9f', b'-', b'0', b'1', b'1.', b'1.0', b'1e', b'1e+',
    b'1e1', b'nul', b'tr', b'f')

# Past ASCII, both sides of every bound that RFC 3629 draws between bytes.
ODD_BYTES = tuple(range(0x80)) + (
    0x80, 0x8F, 0x90, 0x9F, 0xA0, 0xBF, 0xC0, 0xC1, 0xC2, 0xDF, 0xE0, 0xE1, 0xEC, 0xED, 0xEE,
    0xEF, 0xF0, 0xF1, 0xF3, 0xF4, 0xF5, 0xF7, 0xF8, 0xFF)

# Each kind of token and of nesting; it is cut after every byte.
CUT = (b' {"a":[1,-2.5e+3,true],"\\u00e9\\uD83D\\ude00\xf0\x9f\x98\x80":{"b":null,"":false}'
       b' , "\\n\xc3\xa9\xe2\x82\xac":"\\"" , "c":[ ] , "d":{ } }\r\n')


def deep(depth):
    yield b'[' * depth + b']' * depth
    yield b'{"a":' * depth + b'1' + b'}' * depth
    yield b'[{"":' * (depth // 2) + b'[' * (depth % 2) + b']' * (depth % 2) + (
        b'' if depth % 2 else b'0') + b'}]' * (depth // 2)
    yield b'[' * depth
    yield b'[' * (depth - 1) + b'1,2,{"a":0}' + b']' * (depth - 1)
    yield b'[[],' * (depth - 1) + b'[]' + b']' * (depth - 1)
    yield b'[' * depth + b'x'
    yield b'[' * (depth - 1) + b'1' + b'['
    yield b'"[[[' + b'[' * depth + b'"'


def cases():
    yield from PLACES
    for bad in BAD_NUMBERS + BAD_LITERALS + BAD_SHAPES:
        yield bad
        yield b'[' + bad + b']'
    for bad in BAD_UTF8 + BAD_ESCAPES + CONTROLS:
        yield b'"' + bad + b'"'
        yield b'"' + bad
        yield b'{"' + bad + b'":1}'
        yield bad
    for at in range(len(CUT) + 1):
        yield CUT[:at]
    for depth in (1, 31, 32, 33, 34, 60):
        yield from deep(depth)
    for prefix in PREFIXES:
        for byte in range(256) if prefix in (b'', b'"') else ODD_BYTES:
            yield prefix + bytes((byte,))
