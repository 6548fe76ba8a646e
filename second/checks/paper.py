"""The answers that document 01 and the open points print, against this program."""

import io

from gen.drafts import integer, octets, utf8
from gen.hand_lines import READ_LINES, joined
from gen.layout import plain
from gen.types_by_hand import of_itself, sample_array, sample_enumerated, sample_t
from jer import calls
from jer.lines import jerread
from jer.refusal import Refusal

T_FIVE = [(6, 1, 0, 3), (1, 5, 0, 1), (15, 0, 0, 1)]
ONE_AND_NULL = [(6, 2, 0, 3), (1, 1, 0, 1), (3, 0, 0, 1)]

# 01, "Sample texts on both sides": a list is the rows read, a tuple number and place.
SAMPLES = (
    (sample_t(), b'{"a":5}', T_FIVE),
    (sample_t(), b'{"b":null,"a":5}', T_FIVE),
    (sample_t(), b'{"\\u0061":5}', T_FIVE),
    (sample_t(), b'{"b":true}', (10, 0)),
    (sample_t(), b'{"a":1,"a":1}', (9, 7)),
    (sample_t(), b'{"a":null}', (5, 5)),
    (sample_t(), b'{"a":5.0}', (6, 5)),
    (sample_t(), b'{"a":-0}', [(6, 1, 0, 3), (1, 0, 0, 1), (15, 0, 0, 1)]),
    (sample_array(), b'[1]', ONE_AND_NULL),
    (sample_array(), b'[1,null]', ONE_AND_NULL),
    (sample_array(), b'[1,null,null]', (10, 8)),
    (sample_array(), b'[1,2]', (5, 3)),
    (sample_enumerated(True), b'"blue"', (11, 0)),
    (sample_enumerated(False), b'"blue"', (7, 0)),
    (integer(), b'9223372036854775807', [(1, 0xFFFFFFFF, 0x7FFFFFFF, 1)]),
    (integer(), b'9223372036854775808', (6, 0)),
    (integer(), b'-9223372036854775808', [(1, 0, 0x80000000, 1)]),
    (integer(), b'01', (3, 1)),
    (integer(), b'', (3, 0)),
    (utf8(), b'"\\uDC00"', (3, 4)),
    (octets(), b'"0aFF"', [(4, 0, 2, 1)]),
    (octets(), b'"0"', (7, 0)),
    (of_itself(), b'[' * 32 + b']' * 32,
     [(7, int(at < 31), 0, 32 - at) for at in range(32)]),
    (of_itself(), b'[' * 33 + b']' * 33, (4, 32)),
)

WRITTEN = (
    (sample_t(), b'{"a":-0}', b'{"a":0}'),
    (sample_array(), b'[1,null]', b'[1]'),
    (octets(), b'"0aFF"', b'"0AFF"'),
)

# Open point 9, each text whose place it gives.
PLACES = (
    (b'"\\uDC00"', 4), (b'"\\uD800"', 7), (b'"\\uD800x"', 7), (b'"\\uD800\\n"', 8),
    (b'"\\uD800\\u0041"', 9), (b'"\\uD800\\uD800"', 10), (b'"\\x"', 2), (b'"\\u00g0"', 5),
    (b'"\x80"', 1), (b'"\xbf"', 1), (b'"\xc0\x80"', 1), (b'"\xc1\x80"', 1), (b'"\xf5\x80"', 1),
    (b'"\xff"', 1), (b'"\xe0\x9f\x80"', 2), (b'"\xed\xa0\x80"', 2), (b'"\xf0\x8f\x80\x80"', 2),
    (b'"\xf4\x90\x80\x80"', 2), (b'"\xc3"', 2), (b'"\xe2\x82"', 3), (b'"\xf0\x9f\x98"', 4),
    (b'"\n"', 1), (b'\xef\xbb\xbf1', 0), (b'-', 1), (b'1.', 2), (b'1e', 2), (b'nul', 3),
    (b' \n', 2), (b'01', 1), (b'-01', 2), (b'nulx', 3), (b'nullx', 4), (b'[1,]', 3),
)

EXAMPLE = ('00000006000000010000000000000003\n00000001000000050000000000000001\n'
           '0000000F000000000000000000000001\n\n')


def read_answer(draft, text):
    try:
        return calls.read(*plain(draft), text, 1 << 20, 1 << 20)[0]
    except Refusal as refusal:
        return refusal.number, refusal.first


def failures():
    """A line for each printed answer that this program does not give."""
    for draft, text, printed in SAMPLES:
        answer = read_answer(draft, text)
        if answer != printed:
            yield 'sample %r: %r, printed %r' % (text, answer, printed)
    for draft, text, printed in WRITTEN:
        numbers, names = plain(draft)
        rows, pool = calls.read(numbers, names, text, 1 << 20, 1 << 20)
        value = [number for row in rows for number in row]
        answer = calls.write(numbers, names, value, pool, 65536)
        if answer != printed:
            yield 'written %r: %r, printed %r' % (text, answer, printed)
    for text, place in PLACES:
        if calls.check_text(text) != (3, place):
            yield 'place of %r: %r, printed %d' % (text, calls.check_text(text), place)
    if plain(sample_t())[0][:24] != [6, 2, 1, 2, 2, 0, 0, 0, 9, 0, 3, 0, 1, 0, 0, 0,
                                     9, 1, 4, 1, 1, 0, 0, 0]:
        yield "T's rows differ from the printed ones"
    if jerread(io.BytesIO(joined(READ_LINES))) != EXAMPLE:
        yield 'the worked example of jerread differs'
