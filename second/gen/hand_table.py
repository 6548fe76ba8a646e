"""Type tables written by hand: each rule of refusal 1 kept and broken."""

from gen.drafts import (
    Member, boolean, choice, enumerated, integer, null, octets, optional, sequence,
    sequence_of, utf8)
from gen.layout import plain
from gen.types_by_hand import of_itself, sample_t

GREATEST = 0xFFFFFFFF

# A small table about one row of each kind: (rows, row whose fields are changed, names).
AROUND = (
    ([(0,)], 0, b''), ([(1,)], 0, b''), ([(3,)], 0, b''), ([(4,)], 0, b''), ([(5,)], 0, b''),
    ([(2, 0, 1, 2, 2), (9, 0, 0, 0, 1), (9, 0, 0, 1, 1)], 0, b'ab'),
    ([(2, 2, 1, 2, 1), (9, 0, 0, 0, 1), (9, 0, 0, 1, 1)], 0, b'ab'),
    ([(6, 0, 1, 2, 2), (9, 0, 3, 0, 1), (9, 1, 0, 1, 1), (1,)], 0, b'ab'),
    ([(6, 3, 1, 2, 1), (9, 0, 3, 0, 1), (9, 1, 0, 1, 1), (1,)], 0, b'ab'),
    ([(6, 0, 1, 2, 2), (9, 0, 3, 0, 1), (9, 1, 0, 1, 1), (1,)], 2, b'ab'),
    ([(7, 0, 1), (0,)], 0, b''),
    ([(8, 0, 1, 2, 2), (9, 0, 3, 0, 1), (9, 0, 0, 1, 1), (1,)], 0, b'ab'),
    ([(8, 3, 1, 2, 1), (9, 0, 3, 0, 1), (9, 0, 4, 1, 1), (1,), (4, 1)], 0, b'ab'),
    ([(8, 3, 1, 2, 1), (9, 0, 3, 0, 1), (9, 0, 4, 1, 1), (1,), (4, 1)], 1, b'ab'),
)


def numbers_of_rows(rows):
    return [number for row in rows for number in (tuple(row) + (0,) * 8)[:8]]


def every_field():
    """Each field of each kind of row at each bound."""
    for rows, changed, names in AROUND:
        count = len(rows)
        bounds = sorted({0, 1, 2, 3, 4, 8, 64, 65, count - 1, count, count + 1, GREATEST})
        for field in range(8):
            # Field 0 goes through every kind and past them; fields 5 to 7 are never used.
            for bound in range(12) if field == 0 else bounds if field < 5 else (1, GREATEST):
                row = list((tuple(rows[changed]) + (0,) * 8)[:8])
                row[field] = bound
                yield numbers_of_rows(rows[:changed] + [row] + rows[changed + 1:]), names


def sums_past_32_bits():
    """Sums near 2^32 are taken without wrapping."""
    for first in (GREATEST, GREATEST - 1, GREATEST - 63, 1 << 31):
        for count in (1, 2, 64):
            yield numbers_of_rows([(2, 0, first, count, count), (9, 0, 0, 0, 1)]), b'a'
            yield numbers_of_rows([(6, 2, first, count, 0), (9, 0, 0, 0, 1)]), b'a'
    for start in (GREATEST, GREATEST - 1, GREATEST - 127, 2, 3):
        for length in (1, 2, 128, GREATEST, 1 << 31):
            yield numbers_of_rows([(2, 0, 1, 1, 1), (9, 0, 0, start, length)]), b'abc'


def names_of(*names):
    """An enumeration whose one item has these bytes as its name."""
    for name in names:
        yield numbers_of_rows([(2, 0, 1, 1, 1), (9, 0, 0, 0, len(name))]), name


NAMES = (
    b'a', b'\x00', b'\xc3\xa9', b'\xf4\x8f\xbf\xbf', b'a' * 128, b'a' * 129, b'',
    b'\xe2\x82\xac' * 42, b'\xe2\x82\xac' * 43, b'\x80', b'\xc3', b'\xc0\x80',
    b'\xed\xa0\x80', b'\xf4\x90\x80\x80', b'\xff', b'a\xe2\x82', b'\xe0\x9f\xbf', b'\xef\xbb\xbf')


def shared_names():
    """Names that share bytes, unused bytes that are no UTF-8, names inside characters."""
    item = (9, 0, 0)
    yield numbers_of_rows([(2, 0, 1, 2, 2), item + (0, 1), item + (0, 2)]), b'ab'
    yield numbers_of_rows([(2, 0, 1, 2, 2), item + (0, 1), item + (1, 1)]), b'aa'
    yield numbers_of_rows([(2, 0, 1, 1, 1), item + (1, 1)]), b'\xffa\x80'
    yield numbers_of_rows([(2, 0, 1, 1, 1), item + (1, 1)]), b'\xc3\xa9'
    yield numbers_of_rows([(2, 0, 1, 1, 1), item + (0, 1)]), b'\xc3\xa9'
    yield plain(enumerated('\u00e9', 'e\u0301'))
    yield plain(enumerated('a', 'b', 'a'))
    yield plain(sequence(Member('a', integer()), Member('b', null()), Member('a', null())))
    yield plain(choice(Member('a', integer()), Member('a', null())))


def overlapping_rows():
    """Blocks shared, overlapping, pointing to row 0; rows that nobody points to."""
    block = [(9, 0, 0, 0, 1), (9, 0, 0, 1, 1), (9, 0, 0, 2, 1)]
    yield numbers_of_rows([(8, 0, 1, 3, 3)] + block + [(2, 0, 1, 2, 2), (2, 0, 2, 2, 2)]), b'abc'
    yield numbers_of_rows([(6, 0, 1, 2, 2)] + block + [(8, 0, 2, 2, 2), (2, 2, 3, 1, 1)]), b'abc'
    yield numbers_of_rows([(8, 1, 1, 3, 3)] + block), b'abc'
    yield numbers_of_rows([(0,), (9, 0, 0, 0, 1), (9, 1, 1, 0, 1)]), b'a'
    yield numbers_of_rows([(0,), (9, 1, 0, 0, 1), (7, 0, 1)]), b'a'
    yield numbers_of_rows([(0,), (2, 0, 2, 1, 1), (9, 1, 0, 0, 1)]), b'a'
    yield numbers_of_rows([(0,), (2, 0, 2, 1, 1), (9, 0, 1, 0, 1)]), b'a'
    yield numbers_of_rows([(9, 0, 0, 0, 1)]), b'a'
    # A bad first pass high up comes before a bad third pass low down, and so on.
    yield numbers_of_rows([(2, 0, 1, 1, 1), (9, 1, 0, 0, 1), (7, 0, 1), (0, 1)]), b'a'
    yield numbers_of_rows([(2, 0, 1, 1, 1), (9, 1, 0, 0, 1), (7, 0, 1), (0,)]), b'a'
    yield numbers_of_rows([(7, 0, 1), (9, 0, 2, 0, 1), (9, 0, 0, 0, 1)]), b'a'
    yield numbers_of_rows([(2, 0, 1, 2, 2), (9, 0, 0, 0, 1), (0,)]), b'a'
    yield plain(of_itself())
    endless = sequence(Member('m', None))
    endless.members[0].of_type = endless
    yield plain(endless)


def array_rules():
    """X.697 14.2: what no OPTIONAL member and no addition of an ARRAY may be."""
    types = (
        boolean(), null(), choice(Member('a', integer()), unwrapped=True),
        choice(Member('a', integer()), unwrapped=True, extensible=True),
        choice(Member('a', integer()), Member('b', null()), unwrapped=True),
        choice(Member('a', integer()), Member('b', null()), unwrapped=True, extensible=True,
               root=1),
        choice(Member('b', null()), extensible=True), sequence(array=True),
        sequence_of(null()))
    for of_type in types:
        for array in (True, False):
            yield plain(sequence(Member('m', of_type), array=array))
            yield plain(sequence(optional('m', of_type), array=array))
            yield plain(sequence(Member('m', of_type), array=array, extensible=True))
            yield plain(sequence(Member('m', of_type), array=array, extensible=True, root=0))


def unwrapped_rules():
    """X.697 19.2.2: each pair of alternatives of an UNWRAPPED choice."""
    types = (
        boolean, integer, lambda: enumerated('i'), null, octets, utf8, sequence,
        lambda: sequence(array=True), lambda: sequence_of(null()),
        lambda: choice(Member('c', null())),
        lambda: choice(Member('c', boolean()), unwrapped=True),
        lambda: choice(Member('c', boolean()), unwrapped=True, extensible=True))
    for at, first in enumerate(types):
        yield plain(choice(Member('a', first()), unwrapped=True))
        for second in types[at:]:
            yield plain(choice(Member('a', first()), Member('b', second()), unwrapped=True))
    all_six = (boolean(), integer(), utf8(), null(), sequence(), sequence_of(null()))
    for extensible in (False, True):
        yield plain(choice(*(Member('m%d' % at, of_type) for at, of_type in enumerate(all_six)),
                           unwrapped=True, extensible=extensible))


def member_counts():
    """64 and 65 members, one OPTIONAL among items and alternatives."""
    for count in (64, 65):
        members = [Member('m%d' % at, None) for at in range(count)]
        yield plain(enumerated(*(member.name for member in members)))
        for member in members:
            member.of_type = members[0].of_type or boolean()
        yield plain(sequence(*members))
        yield plain(choice(*members))
    yield plain(choice(optional('a', integer())))
    bad_item = enumerated('a', 'b')
    bad_item.members[1].optional = True
    yield plain(bad_item)


def whole_tables():
    """Empty tables and broken last rows."""
    numbers, names = plain(sample_t())
    yield [], b''
    yield [], names
    for length in (1, 4, 7, 8, 9, 15, 39, 40):
        yield numbers[:length], names
    for extra in (1, 7):
        yield numbers + [0] * extra, names
    yield numbers + [9] * 8, names
    yield numbers, names[:1]
    yield numbers, b''


def cases():
    """(numbers, names) of each."""
    yield from whole_tables()
    yield from every_field()
    yield from sums_past_32_bits()
    yield from names_of(*NAMES)
    yield from shared_names()
    yield from overlapping_rows()
    yield from array_rules()
    yield from unwrapped_rules()
    yield from member_counts()
