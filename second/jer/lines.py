"""The two programs: lines of hexadecimal in, rows or a text or a refusal line out."""

from jer import calls
from jer.refusal import LINE, Refusal

# 01: "each line at most 16,384 digits"; "It lends 4,096 rows and 16,384 pool bytes."
LINE_DIGITS = 16384
ROOM_NUMBERS = 4096 * 4
ROOM_POOL = 16384
ROOM_TEXT = 65536

HEX_DIGITS = frozenset(b'0123456789abcdefABCDEF')
NUMBER_DIGITS = 8


def take_line(source, number):
    """The digits of the next line, at most one byte past the limit being read."""
    # 01: "The first line that is missing (no byte left), odd, not hexadecimal or, for
    # line one, not whole eights is 15".
    line = source.readline(LINE_DIGITS + 1)
    if not line:
        raise Refusal(LINE, number)
    digits = line[:-1] if line.endswith(b'\n') else line
    if len(digits) > LINE_DIGITS or len(digits) % 2 != 0:
        raise Refusal(LINE, number)
    if not HEX_DIGITS.issuperset(digits):
        raise Refusal(LINE, number)
    return digits.decode('ascii')


def take_lines(source, number_lines, count):
    """All lines are judged before the library is called; 'input after line three is not
    read'. Lines of numbers come back as lists, the others as bytes."""
    taken = []
    for number in range(1, count + 1):
        digits = take_line(source, number)
        if number not in number_lines:
            taken.append(bytes.fromhex(digits))
        elif len(digits) % NUMBER_DIGITS != 0:
            raise Refusal(LINE, number)
        else:
            taken.append(numbers_of(digits))
    return taken


def numbers_of(digits):
    return [int(digits[at:at + NUMBER_DIGITS], 16)
            for at in range(0, len(digits), NUMBER_DIGITS)]


def refusal_line(answer):
    """01: "one line FFFFFFFF, refusal, first and second amount (0 if none)". An amount
    past 32 bits cannot come from lines of this length; its low half would be shown."""
    return 'FFFFFFFF' + ''.join('%08X' % (amount & 0xFFFFFFFF) for amount in answer) + '\n'


def value_lines(rows, pool):
    """01: "one value row a line (kind, a, b, size, eight upper-case digits each, nothing
    between), then the pool as one line"."""
    lines = ['%08X%08X%08X%08X\n' % row for row in rows]
    return ''.join(lines) + pool.hex().upper() + '\n'


def jerread(source):
    """What jerread prints for a binary stream."""
    try:
        numbers, names, text = take_lines(source, (1,), 3)
        return value_lines(*calls.read(numbers, names, text, ROOM_NUMBERS, ROOM_POOL))
    except Refusal as refusal:
        return refusal_line(refusal.answer())


def jerwrite(source):
    """What jerwrite prints for a binary stream."""
    try:
        numbers, names, value_numbers, pool = take_lines(source, (1, 3), 4)
        text = calls.write(numbers, names, value_numbers, pool, ROOM_TEXT)
        return text.hex().upper() + '\n'
    except Refusal as refusal:
        return refusal_line(refusal.answer())
