"""Damage to the bytes of a text: what is then no JSON, or JSON of another shape."""

# Each class of bytes that RFC 3629 shuts out, and characters cut short.
BAD_UTF8 = (
    b'\x80', b'\xbf', b'\xc0\x80', b'\xc1\xbf', b'\xc2', b'\xc3A', b'\xdf\x7f', b'\xdf\xc0',
    b'\xe0\x80\x80', b'\xe0\x9f\xbf', b'\xe0\xa0', b'\xe1\x80', b'\xe2\x82A', b'\xed\xa0\x80',
    b'\xed\xbf\xbf', b'\xef\xbb\xbf', b'\xf0\x80\x80\x80', b'\xf0\x8f\xbf\xbf',
    b'\xf0\x9f\x98', b'\xf1\x80\x80A', b'\xf4\x90\x80\x80', b'\xf5\x80\x80\x80', b'\xf8',
    b'\xfe', b'\xff')
BAD_ESCAPES = (
    b'\\', b'\\x', b'\\a', b'\\U0041', b'\\u', b'\\u0', b'\\u00', b'\\u004', b'\\u004g',
    b'\\uG', b'\\uDC00', b'\\udfff', b'\\uD800', b'\\uDBFFx', b'\\uD800\\', b'\\uD800\\n',
    b'\\uD800\\u', b'\\uD800\\u0041', b'\\uD800\\uD800', b'\\uD800\\uDB00',
    b'\\ud83d\\uDG00', b'\\uD800\\uDC0', b"\\'", b'\\0', b'\\v')
CONTROLS = (b'\x00', b'\n', b'\t', b'\x1f', b'\x0b')
BAD_NUMBERS = (b'01', b'-', b'-01', b'1.', b'.5', b'1e', b'1e+', b'+1', b'1.e5', b'0x10',
               b'--1', b'1.5.5', b'1ee5', b'NaN', b'Infinity', b'-Infinity', b'1_000', b'00')
BAD_LITERALS = (b'nul', b'nulx', b'nullx', b'True', b'tru', b'truee', b'fals', b'falsE',
                b'none', b'undefined', b'n')
BAD_SHAPES = (b'[1,]', b'[,1]', b'[1 2]', b'[', b']', b'{', b'}', b'{]', b'[}', b'{"a"}',
              b'{"a":}', b'{"a":1,}', b'{,}', b'{a:1}', b'{1:1}', b'{"a" 1}', b'{"a"::1}',
              b'{"a":1 "b":2}', b"{'a':1}", b'[1}', b'{"a":1]', b'"a', b'"a" "b"', b'1 2',
              b'[]]', b'{}}', b'//x', b'/**/1', b',', b':', b'[[]', b'{"a":{}')


def damaged(draw, text):
    """The text with one or two wounds."""
    for _ in range(draw.weighted(((1, 80), (2, 20)))):
        wound = draw.pick((cut, cut, drop, put, change, repeat, append, into_string,
                           into_string, swap_token))
        text = wound(draw, text)
    return text


def cut(draw, text):
    return text[:draw.below(len(text) + 1)]


def drop(draw, text):
    at = draw.below(len(text) + 1)
    return text[:at] + text[at + 1:]


def odd_byte(draw):
    return draw.pick((draw.bytes(1), bytes((draw.pick(b'[]{}",:\\0-1.eEntfu \n'),))))


def put(draw, text):
    at = draw.below(len(text) + 1)
    return text[:at] + odd_byte(draw) + text[at:]


def change(draw, text):
    at = draw.below(len(text) + 1)
    return text[:at] + odd_byte(draw) + text[at + 1:]


def repeat(draw, text):
    at = draw.below(len(text) + 1)
    end = draw.between(at, min(len(text), at + 12))
    return text[:end] + text[at:end] + text[end:]


def append(draw, text):
    return text + draw.pick((b' ', b'x', b',', b'}', b']', b'null', b'\x00', b'\n1', b'"'))


def into_string(draw, text):
    """Something bad inside a string, if there is one."""
    quotes = [at for at in range(len(text)) if text[at] == 0x22]
    at = draw.pick(quotes) + 1 if quotes else draw.below(len(text) + 1)
    bad = draw.pick(draw.pick((BAD_UTF8, BAD_ESCAPES, CONTROLS)))
    return text[:at] + bad + text[at:]


def swap_token(draw, text):
    """A bad number, literal or shape in the place of a value."""
    starts = [at for at in range(len(text)) if at == 0 or text[at - 1] in b':,[']
    at = draw.pick(starts) if starts else 0
    end = at
    while end < len(text) and text[end] not in b',]}':
        end += 1
    return text[:at] + draw.pick(draw.pick((BAD_NUMBERS, BAD_LITERALS, BAD_SHAPES))) + text[end:]
