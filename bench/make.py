"""Makes the benchmark's inputs, the same each time, and what the second program answers to them.

    python3 bench/make.py FOLDER

Each FOLDER/NAME.case has six lines of hexadecimal: type table, names, text; value rows, pool and written text by the
second program (second/), to which the benchmark holds the library before it times it.
"""
import pathlib
import sys

HERE = pathlib.Path(__file__).resolve().parent
BOOKING = HERE.parent / 'examples' / 'booking'
sys.path[:0] = [str(BOOKING), str(HERE.parent / 'second')]

from gen.draw import Draw  # noqa: E402
from jer import calls  # noqa: E402
from notation import hexadecimal, table  # noqa: E402

ROOM_ROWS, ROOM_POOL, ROOM_TEXT = 130 * 65536 * 4, 65536, 65536

LISTS = (300, 1200, 4800, 19200, 60000)

LIST = """
List ::= SEQUENCE OF Passenger
Passenger ::= SEQUENCE { name UTF8String, age INTEGER OPTIONAL, aboard BOOLEAN, class Class, ... }
Class ::= ENUMERATED { standard, flexible, resident, ... }
"""
CLASSES = ('standard', 'flexible', 'resident')

# A manifest's hold has 60 members: a weight, a count, a seal and a sign of each of fifteen goods.
GOODS = ('barley', 'boats', 'bricks', 'cattle', 'cheese', 'coal', 'fish', 'fuel', 'hay', 'mail', 'salt', 'sheep',
         'timber', 'whisky', 'wool')
ASPECTS = (('Weight', 'INTEGER'), ('Count', 'INTEGER'), ('Seal', 'UTF8String'), ('Cooled', 'BOOLEAN'))
HOLD = [(good + aspect, kind) for good in GOODS for aspect, kind in ASPECTS]
MANIFEST = ('Manifest ::= SEQUENCE OF Hold Hold ::= SEQUENCE { '
            + ''.join('%s %s, ' % member for member in HOLD) + '... }')


def draw_word(draw, length):
    return ''.join(chr(ord('a') + draw.below(26)) for _ in range(length))


def passenger(draw):
    age = '"age":%d,' % draw.between(1, 99) if draw.chance(70) else ''
    return '{"name":"%s %s",%s"aboard":%s,"class":"%s"}' % (
        draw_word(draw, 6).title(), draw_word(draw, draw.between(4, 10)).title(), age,
        draw.pick(('true', 'false')), draw.pick(CLASSES))


def joined(items, least):
    """As few items as make an array of so many bytes."""
    text = next(items)
    while len(text) + 2 < least:
        text += ',' + next(items)
    return ('[' + text + ']').encode()


def passengers(draw):
    while True:
        yield passenger(draw)


def holds(draw):
    values = {'INTEGER': lambda: str(draw.below(100000)), 'BOOLEAN': lambda: draw.pick(('true', 'false')),
              'UTF8String': lambda: '"%s"' % draw_word(draw, 8)}
    while True:
        members = ['"%s":%s' % (name, values[kind]()) for name, kind in HOLD]
        yield '{' + ','.join(draw.shuffled(members)) + '}'


def cases():
    """(name, description of the type, text)."""
    spring = (BOOKING / 'spring.asn1').read_text()
    yield 'booking', spring, (BOOKING / 'texts/house.json').read_bytes().rstrip()
    yield 'options', spring, (HERE / 'options.json').read_bytes().rstrip()
    yield 'manifest', MANIFEST, joined(holds(Draw(1, 'manifest')), 20000)
    for size in LISTS:
        yield 'list-%d' % size, LIST, joined(passengers(Draw(1, 'list')), size)


def make(folder, made):
    folder.mkdir(parents=True, exist_ok=True)
    for name, description, text in made:
        numbers, names = table(description)
        rows, pool = calls.read(numbers, names, text, ROOM_ROWS, ROOM_POOL)
        values = [number for row in rows for number in row]
        written = calls.write(numbers, names, values, pool, ROOM_TEXT)
        lines = [text.hex(), ''.join('%08x' % value for value in values), pool.hex(), written.hex()]
        (folder / (name + '.case')).write_text(hexadecimal(numbers, names) + '\n'.join(lines).upper() + '\n')


if __name__ == '__main__':
    make(pathlib.Path(sys.argv[1]), cases())
