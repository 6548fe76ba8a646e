"""Cases at the house sizes, too long for the ordinary files."""

from gen.drafts import Member, optional, sequence, sequence_of, utf8
from gen.layout import plain
from gen.types_by_hand import sample_t
from jer import sizes


def tables():
    """4,096 rows and one more; 65,536 bytes of names and one more."""
    rows = [7, 0, 0, 0, 0, 0, 0, 0] * sizes.TABLE_ROWS
    yield rows, b''
    yield rows + [0] * 8, b''
    numbers, names = plain(sample_t())
    for length in (sizes.NAMES_BYTES, sizes.NAMES_BYTES + 1):
        yield numbers, names + b'\xff' * (length - len(names))


def texts():
    """A byte too many, which is not looked at; reads() has the text of 65,536 bytes."""
    yield b'x' * (sizes.TEXT_BYTES + 1)


def reads():
    numbers, names = plain(sample_t())
    start = b'{"x":"'
    end = b'","a":1}'
    for length in (sizes.TEXT_BYTES, sizes.TEXT_BYTES + 1):
        text = start + b'\\' * ((length - len(start) - len(end)) // 2 * 2)
        text += b'a' * (length - len(text) - len(end)) + end
        yield numbers, names, text, 0x4000, 0x4000
    # The table is judged before the text's length.
    yield numbers[:-1], names, b' ' * (sizes.TEXT_BYTES + 1), 0x4000, 0x4000
    # Far more rows than are lent: 65 for each object.
    wide = sequence(*(optional('m%d' % at, utf8()) for at in range(64)))
    yield plain(sequence_of(wide)) + (b'[' + b'{},' * 5000 + b'{}]', 0x4000, 0x4000)


def writes():
    """Texts of 65,536 bytes and one more, out of control characters that are written
    sixfold (6 * 10,922 + 2 quotation marks = 65,534)."""
    numbers, names = plain(utf8())
    control = b'\x01' * 10922
    for more, room in ((b'ab', 65536), (b'ab', 65535), (b'abc', 65537), (b'ab', 0)):
        pool = control + more
        yield numbers, names, [5, 0, len(pool), 1], pool, room
    # A bad value table comes before a text too long.
    yield numbers, names, [5, 0, len(control), 1, 0], control + b'\x01' * 100, 65536
    named = sequence(Member('\x00' * 128, utf8()))
    count = 100
    rows = [7, count, 0, 1 + 2 * count] + [6, 1, 0, 2, 5, 0, 0, 1] * count
    yield plain(sequence_of(named)) + (rows, b'', 65536)
