"""Random cases: each index of each file draws from a stream of its own."""

from gen import damage
from gen.any_json import any_json, deep_json
from gen.draw import Draw
from gen.draw_types import draw_any_type, draw_type
from gen.draw_values import draw_value
from gen.encode import Encoder
from gen.faults import FaultyEncoder
from gen.formats import byte_line, number_line
from gen.layout import plain, scattered
from jer import calls, values
from jer.refusal import Refusal
from jer.table import FIELDS, Table, split_rows

TYPE_SIZES = (3, 6, 12)
ALL_ROOM = 1 << 30
GREATEST = 0xFFFFFFFF
BOUNDS = (0, 1, 2, 3, 4, 6, 8, 9, 10, 15, 63, 64, 65, 127, 128, 129, 1 << 31, GREATEST - 1,
          GREATEST)


class Subject:
    """A drawn type with its table and a value of it."""

    def __init__(self, draw, sizes=TYPE_SIZES, budget=30):
        self.draft = draw_type(draw, draw.pick(sizes))
        layout = plain(self.draft) if draw.chance(25) else scattered(draw, self.draft)
        self.numbers, self.names = layout
        self.table = Table(split_rows(self.numbers, FIELDS), self.names)
        self.value = draw_value(draw, self.draft, budget)


def draw_text(draw, table, value):
    """A text of a value: good, faulty by type, or damaged."""
    which = draw.below(100)
    if which < 40:
        return Encoder(draw, table).text(value)
    if which < 80:
        # Half of the faults are in the outermost value, which has the most members.
        last = draw.pick((1, values.needed(value)[0]))
        return FaultyEncoder(draw, table, draw.between(1, last)).text(value)
    return damage.damaged(draw, Encoder(draw, table).text(value))


def text_cases(seed, count):
    for index in range(count):
        draw = Draw(seed, 'text', index)
        text = any_json(draw, 4) if draw.chance(80) else deep_json(draw, draw.between(28, 36))
        yield damage.damaged(draw, text) if draw.chance(75) else text


# --- type tables ---------------------------------------------------------------------------

def table_cases(seed, count):
    for index in range(count):
        draw = Draw(seed, 'table', index)
        draft = draw_any_type(draw, draw.pick(TYPE_SIZES))
        numbers, names = scattered(draw, draft)
        if draw.chance(70):
            numbers, names = broken_table(draw, numbers, names)
        yield numbers, names


def broken_table(draw, numbers, names):
    numbers = list(numbers)
    rows = len(numbers) // FIELDS
    for _ in range(draw.weighted(((1, 70), (2, 30)))):
        which = draw.below(100)
        at = draw.below(len(numbers)) if numbers else 0
        if which < 8:
            return numbers[:at], names
        if which < 16 and names:
            at = draw.below(len(names))
            names = names[:at] + draw.bytes(1) + names[at + 1:]
        elif which < 22:
            names = names[:draw.below(len(names) + 1)]
        elif which < 60:
            # The fields that are in use are the first five of a row.
            at = draw.below(rows) * FIELDS + draw.below(5)
            numbers[at] = draw.pick((draw.below(rows + 2), draw.pick(BOUNDS)))
        elif which < 80:
            other = draw.below(rows) * FIELDS
            at = draw.below(rows) * FIELDS
            numbers[at:at + FIELDS] = numbers[other:other + FIELDS]
        else:
            numbers[at] = numbers[at] + draw.pick((1, -1)) & GREATEST
    return numbers, names


# --- reading -------------------------------------------------------------------------------

def read_cases(seed, count):
    for index in range(count):
        draw = Draw(seed, 'read', index)
        subject = Subject(draw)
        text = draw_text(draw, subject.table, subject.value)
        numbers, names = subject.numbers, subject.names
        if draw.chance(4):
            numbers, names = broken_table(draw, numbers, names)
        yield (numbers, names, text) + draw_rooms(draw, numbers, names, text)


def draw_rooms(draw, numbers, names, text):
    """Mostly wide rooms; else exact ones, too small in either respect, or no whole rows."""
    if draw.chance(75):
        return 0x4000, 0x4000
    try:
        rows, pool = calls.read(numbers, names, text, ALL_ROOM, ALL_ROOM)
    except Refusal:
        return draw.pick(((0, 0), (3, 0), (4, 1)))
    exact, bytes_needed = 4 * len(rows), len(pool)
    return draw.pick((
        (exact, bytes_needed), (exact - 1, bytes_needed), (exact - 4, bytes_needed),
        (exact + 3, bytes_needed), (exact, max(bytes_needed - 1, 0)), (0, 0),
        (exact - 1, max(bytes_needed - 1, 0)), (exact + 1, bytes_needed + 1)))


# --- writing -------------------------------------------------------------------------------

def write_cases(seed, count):
    for index in range(count):
        draw = Draw(seed, 'write', index)
        subject = Subject(draw)
        rows, pool = values.lay_out(subject.value)
        numbers = [number for row in rows for number in row]
        if draw.chance(55):
            numbers, pool = broken_value(draw, numbers, pool)
        type_numbers, names = subject.numbers, subject.names
        if draw.chance(3):
            type_numbers, names = broken_table(draw, type_numbers, names)
        room = draw_text_room(draw, type_numbers, names, numbers, pool)
        yield type_numbers, names, numbers, pool, room


def draw_text_room(draw, type_numbers, names, numbers, pool):
    if draw.chance(60):
        return 65536
    try:
        length = len(calls.write(type_numbers, names, numbers, pool, 65536))
    except Refusal:
        return draw.pick((0, 1, 100))
    return draw.pick((length, length - 1, 0, length + 1))


def broken_value(draw, numbers, pool):
    numbers = list(numbers)
    rows = len(numbers) // 4
    which = draw.below(100)
    at = draw.below(rows) * 4
    if which < 45:
        field = at + draw.below(4)
        numbers[field] = draw.pick((
            numbers[field] + draw.pick((1, -1)) & GREATEST, draw.pick(BOUNDS),
            draw.below(rows + 2)))
    elif which < 53:
        numbers[at:at + 4] = []
    elif which < 61:
        numbers[at:at] = draw.pick((numbers[at:at + 4], [15, 0, 0, 1], [0, 0, 0, 1]))
    elif which < 70:
        numbers[at:at + 4] = draw.pick(([15, 0, 0, 1], [15, 0, 0, 2], [3, 0, 0, 1]))
    elif which < 78:
        numbers = numbers[:draw.below(len(numbers))]
    elif which < 84:
        numbers += [draw.pick((0, 15))] * draw.between(1, 5)
    elif which < 92:
        pool = draw.pick((pool + draw.bytes(1), pool[:-1], b'', pool[1:]))
    else:
        cut = draw.below(len(pool) + 1)
        pool = pool[:cut] + draw.pick(damage.BAD_UTF8)[:1] + pool[cut + 1:]
    return numbers, pool


# --- the two programs ----------------------------------------------------------------------

def jerread_cases(seed, count):
    for index in range(count):
        draw = Draw(seed, 'jerread', index)
        subject = Subject(draw, (3, 5), 12)
        lines = (number_line(subject.numbers), byte_line(subject.names),
                 byte_line(draw_text(draw, subject.table, subject.value)))
        yield standard_input(draw, lines)


def jerwrite_cases(seed, count):
    for index in range(count):
        draw = Draw(seed, 'jerwrite', index)
        subject = Subject(draw, (3, 5), 12)
        rows, pool = values.lay_out(subject.value)
        numbers = [number for row in rows for number in row]
        if draw.chance(50):
            numbers, pool = broken_value(draw, numbers, pool)
        lines = (number_line(subject.numbers), byte_line(subject.names),
                 number_line(numbers), byte_line(pool))
        yield standard_input(draw, lines)


def standard_input(draw, lines):
    """The lines in some letter case, one input in five with a wound."""
    text = ''.join(line + '\n' for line in lines).encode('ascii')
    if draw.chance(40):
        text = text.lower()
    if draw.chance(20):
        wound = draw.pick((damage.cut, damage.drop, damage.put, damage.change))
        text = wound(draw, text)
    return text
