"""Value tables written by hand: each rule of refusal 12 kept and broken."""

from gen.drafts import (
    Member, boolean, choice, enumerated, integer, null, octets, optional, sequence,
    sequence_of, utf8)
from gen.layout import plain
from gen.types_by_hand import of_itself, sample_array, sample_t

GREATEST = 0xFFFFFFFF


def flat(rows):
    return [number for row in rows for number in row]


def every_field(draft, rows, pool=b'', bounds=(0, 1, 2, 3, 15, GREATEST)):
    """The rows as they are, then each field of each at each bound."""
    numbers, names = plain(draft)
    yield numbers, names, flat(rows), pool
    for at, row in enumerate(rows):
        for field in range(4):
            for bound in bounds:
                changed = list(row)
                if changed[field] != bound:
                    changed[field] = bound
                    yield numbers, names, flat(rows[:at] + [changed] + rows[at + 1:]), pool


def plain_types():
    yield from every_field(boolean(), [(0, 1, 0, 1)])
    yield from every_field(integer(), [(1, 5, 0, 1)], bounds=(0, 1 << 31, GREATEST))
    yield from every_field(enumerated('a', 'b', extensible=True, root=1), [(2, 1, 0, 1)])
    yield from every_field(null(), [(3, 0, 0, 1)])
    yield from every_field(octets(), [(4, 0, 2, 1)], b'\x0a\xff')
    yield from every_field(utf8(), [(5, 0, 2, 1)], b'\xc3\xa9')


def nested_types():
    yield from every_field(
        sample_t(), [(6, 1, 0, 3), (1, 5, 0, 1), (15, 0, 0, 1)])
    yield from every_field(
        sequence_of(utf8()), [(7, 2, 0, 3), (5, 0, 1, 1), (5, 1, 1, 1)], b'ab')
    yield from every_field(
        choice(Member('a', integer()), Member('b', null())), [(8, 1, 0, 2), (3, 0, 0, 1)])
    yield from every_field(
        choice(Member('a', integer()), Member('b', utf8()), unwrapped=True),
        [(8, 1, 0, 2), (5, 0, 1, 1)], b'x')
    yield from every_field(
        sequence(optional('a', integer()), Member('b', null()), array=True),
        [(6, 1, 0, 3), (15, 0, 0, 1), (3, 0, 0, 1)])


def lengths():
    """Rows short, rows and pool bytes left over, a broken last row."""
    for draft, rows, pool in (
            (sample_t(), [(6, 2, 0, 3), (1, 5, 0, 1), (0, 1, 0, 1)], b''),
            (sequence_of(octets()), [(7, 2, 0, 3), (4, 0, 1, 1), (4, 1, 2, 1)], b'abc')):
        numbers, names = plain(draft)
        value = flat(rows)
        for length in range(len(value)):
            yield numbers, names, value[:length], pool
        for extra in ([0], [15, 0, 0], [15, 0, 0, 1], [0, 0, 0, 1, 0], [0] * 8):
            yield numbers, names, value + extra, pool
            yield numbers, names, value + extra, pool + b'z'
        for other in (pool + b'z', pool[:-1], pool[:1], b''):
            yield numbers, names, value, other


def strings():
    """Pool ranges, gaps and UTF-8."""
    numbers, names = plain(sequence_of(utf8()))
    pool = b'a\xc3\xa9b'
    for spans in (((0, 1), (1, 2), (3, 1)), ((0, 1), (1, 1), (2, 2)), ((0, 0), (0, 4)),
                  ((0, 4), (4, 0)), ((0, 4), (0, 0)), ((1, 3), (0, 1)), ((0, 1), (3, 1)),
                  ((0, 4), (4, 1)), ((0, 5),), ((0, GREATEST),), ((GREATEST, 1),),
                  ((0, 1), (GREATEST, 2)), ((0, 3),), ((4, 0), (0, 4))):
        rows = [(7, len(spans), 0, len(spans) + 1)] + [(5,) + span + (1,) for span in spans]
        yield numbers, names, flat(rows), pool
    bad = (b'\x80', b'\xc0\x80', b'\xe0\x9f\xbf', b'\xed\xa0\x80', b'\xf4\x90\x80\x80', b'\xc3',
           b'\xe2\x82', b'\xf0\x9f\x98', b'a\xff', b'\xf0\x9f\x98\x80', b'\x00\x1f"\\/\x7f')
    for text in bad:
        for draft in (utf8(), octets(), octets(True)):
            yield plain(draft) + ([draft.kind, 0, len(text), 1], text)
    every = bytes(range(128))
    yield plain(utf8()) + ([5, 0, 128, 1], every)


def nest(kind, depth):
    """So many brackets by rows that each hold the next; the last one is empty."""
    return [(kind, 0 if at == depth - 1 else 1, 0, depth - at) for at in range(depth)]


def deep():
    """Refusal 12 for 33 brackets in each way they open; UNWRAPPED opens none."""
    boxed = sequence(optional('m', None))
    boxed.members[0].of_type = boxed
    wrapped = choice(Member('c', None), Member('e', null()))
    wrapped.members[0].of_type = wrapped
    free = choice(Member('n', null()), Member('s', sequence_of(None)), unwrapped=True)
    free.members[1].of_type.element = free
    for depth in (31, 32, 33, 34):
        yield plain(of_itself()) + (flat(nest(7, depth)), b'')
        rows = [(6, int(at < depth - 1), 0, depth - at + 1) for at in range(depth)]
        yield plain(boxed) + (flat(rows + [(15, 0, 0, 1)]), b'')
        rows = [(8, int(at == depth - 1), 0, depth - at + 1) for at in range(depth)]
        yield plain(wrapped) + (flat(rows + [(3, 0, 0, 1)]), b'')
        rows = []
        for at in range(depth):
            rows += [(8, 1, 0, 2 * (depth - at) + 2), (7, 1, 0, 2 * (depth - at) + 1)]
        yield plain(free) + (flat(rows + [(8, 0, 0, 2), (3, 0, 0, 1)]), b'')


def ends_of_arrays():
    """All nulls at the end are dropped, present NULL values among them."""
    null_or_number = choice(Member('n', integer()), Member('z', null()), unwrapped=True)
    draft = sequence(Member('a', integer()), Member('b', null()), Member('c', null_or_number),
                     optional('d', boolean()), array=True, extensible=True, root=3)
    chosen_null, chosen_number = [(8, 1, 0, 2), (3, 0, 0, 1)], [(8, 0, 0, 2), (1, 7, 0, 1)]
    for chosen in (chosen_null, chosen_number):
        for last, present in (((15, 0, 0, 1), 3), ((0, 1, 0, 1), 4)):
            rows = [(6, present, 0, 6), (1, 1, 0, 1), (3, 0, 0, 1)] + chosen + [last]
            yield plain(draft) + (flat(rows), b'')
    yield plain(sample_array()) + ([6, 2, 0, 3, 1, 1, 0, 1, 3, 0, 0, 1], b'')
    yield plain(sample_t()) + ([6, 1, 0, 3, 1, 0, 0, 1, 15, 0, 0, 1], b'')
    yield plain(sequence(array=True)) + ([6, 0, 0, 1], b'')
    yield plain(sequence()) + ([6, 0, 0, 1], b'')


def names_escaped():
    for name in ('"', '\\', '/', '\x00\x1f\n', '\x7f\u00e9\U0001f600', '\u2028'):
        yield plain(sequence(Member(name, null()))) + ([6, 1, 0, 2, 3, 0, 0, 1], b'')
        yield plain(choice(Member(name, null()))) + ([8, 0, 0, 2, 3, 0, 0, 1], b'')
        yield plain(enumerated(name)) + ([2, 0, 0, 1], b'')


def cases():
    """(numbers, names, value numbers, pool) of each."""
    for group in (plain_types, nested_types, lengths, strings, deep, ends_of_arrays,
                  names_escaped):
        yield from group()
    yield plain(octets()) + ([4, 0, 2, 1], b'\x0a\xff')
    yield [], b'', [4, 0, 2, 1], b''
    yield plain(octets())[0] + [0], b'', [], b''
