"""Standard inputs of jerread and jerwrite written by hand: refusal 15 and its neighbours."""

from gen.drafts import Member, octets, sequence, sequence_of, utf8
from gen.formats import byte_line, number_line
from gen.hand_read import widest
from gen.layout import plain
from gen.types_by_hand import sample_t

LIMIT = 16384

T_NUMBERS, T_NAMES = plain(sample_t())
READ_LINES = (number_line(T_NUMBERS).encode(), byte_line(T_NAMES).encode(),
              byte_line(b'{"b":null,"x":[],"a":5}').encode())
WRITE_LINES = (READ_LINES[0], READ_LINES[1],
               number_line([6, 1, 0, 3, 1, 5, 0, 1, 15, 0, 0, 1]).encode(), b'')


def joined(lines, end=b'\n'):
    return b''.join(line + end for line in lines)


def bad_lines(good, number_lines):
    """Each line missing, odd, not hexadecimal, not whole eights; ends of each kind."""
    yield joined(good)
    yield joined(good).lower()
    yield joined(good)[:-1]
    yield joined(good, b'\r\n')
    yield joined(good) + b'not read \xff'
    yield joined(good) + b'\n\n'
    yield b''
    for at in range(len(good)):
        before, line, after = joined(good[:at]), good[at], joined(good[at + 1:])
        yield before
        yield before + b'\n' + after
        yield before + b'\n'
        yield before + line
        yield b'\n' + before + line + b'\n' + after
        for bad in (line + b'0', line + b'0G', line + b' ', b' ' + line, line + b'\r', b'0x',
                    line + b'\x00\x00', line + b'\xc3\xa9', b'-0', b'+1', b'0_', line[:-1]):
            yield before + bad + b'\n' + after
            yield before + bad
        if at + 1 in number_lines:
            for digits in (2, 4, 6, 8, 12, 32, 56, 60):
                yield before + b'0' * digits + b'\n' + after


def whole_inputs():
    """Inputs whose lines are all good, for the library to judge."""
    for text in (b'', b' ', b'{"a":1}', b'[', b'{"a":1,"A":[[[]]]}', b'{"a":9223372036854775808}'):
        yield joined(READ_LINES[:2] + (byte_line(text).encode(),))
    yield joined((b'', b'', b'31'))
    yield joined((READ_LINES[0][:8], b'6162', b'31'))
    rows = plain(sequence_of(widest()))
    lines = (number_line(rows[0]).encode(), byte_line(rows[1]).encode())
    # 130 rows for each `[]`: 32 of them do not fit into 4,096 rows.
    for count in (3, 32):
        text = b'[' + b','.join([b'[]'] * count) + b']'
        yield joined(lines + (byte_line(text).encode(),))


def read_inputs():
    yield from bad_lines(READ_LINES, (1,))
    yield from whole_inputs()


def write_inputs():
    yield from bad_lines(WRITE_LINES, (1, 3))
    two = sequence(Member('a', utf8()), Member('b', octets(True)))
    numbers, names = plain(two)
    head = (number_line(numbers).encode(), byte_line(names).encode())
    for value, pool in (([6, 2, 0, 3, 5, 0, 1, 1, 4, 1, 2, 1], b'\x1f\x00\xff'),
                        ([6, 2, 0, 3, 5, 0, 1, 1, 4, 1, 2], b'abc'), ([], b'abc'),
                        ([6, 2, 0, 3, 5, 0, 1, 1, 4, 1, 1, 1], b'abc')):
        yield joined(head + (number_line(value).encode(), byte_line(pool).encode()))
    yield joined((b'', b'', b'', b''))


# --- lines at their limit, stored in files of their own ----------------------------------

def long_line(line, digits):
    """A line of the given length that stays as good as it was."""
    return line + b'0' * (digits - len(line))


def read_limits():
    """16,384 digits and 16,385, in each line."""
    for digits in (LIMIT, LIMIT + 1):
        yield joined((long_line(READ_LINES[0], digits),) + READ_LINES[1:])
        yield joined((READ_LINES[0], long_line(READ_LINES[1], digits), READ_LINES[2]))
        text = READ_LINES[2] + b'20' * (LIMIT // 2 - len(READ_LINES[2]) // 2)
        yield joined(READ_LINES[:2] + (text + b'2' * (digits - LIMIT),))


def write_limits():
    """The same of jerwrite, and a text past 65,536 bytes."""
    for digits in (LIMIT, LIMIT + 1):
        yield joined((long_line(WRITE_LINES[0], digits),) + WRITE_LINES[1:])
        yield joined((WRITE_LINES[0], long_line(WRITE_LINES[1], digits)) + WRITE_LINES[2:])
        yield joined(WRITE_LINES[:2] + (long_line(WRITE_LINES[2], digits), WRITE_LINES[3]))
        string = number_line([5, 0, LIMIT // 2, 1]).encode()
        yield joined((b'00000005' + b'0' * 56, b'', string, b'4' * digits))
    yield joined(wide_lines(2))


def wide_lines(count):
    """So many objects of 64 members whose names are control characters, each written
    sixfold: names of 65 to 128 bytes that share their bytes."""
    rows = [(7, 0, 1, 0, 0, 0, 0, 0), (6, 0, 2, 64, 64, 0, 0, 0)]
    rows += [(9, 0, 66, 0, 65 + at, 0, 0, 0) for at in range(64)]
    rows += [(3, 0, 0, 0, 0, 0, 0, 0)]
    value = [(7, count, 0, 1 + 65 * count)]
    value += ([(6, 64, 0, 65)] + [(3, 0, 0, 1)] * 64) * count
    return [number_line(number for row in table for number in row).encode()
            if table else b'01' * 128 for table in (rows, None, value)] + [b'']
