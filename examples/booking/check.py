"""Holds the booking to the second program (second/): exit 1 on any difference.

    python3 examples/booking/check.py           checks
    python3 examples/booking/check.py --store   stores the second program's rows.txt and refused/answers.txt anew
"""
import pathlib
import subprocess
import sys

HERE = pathlib.Path(__file__).resolve().parent
sys.path.insert(0, str(HERE.parents[1] / 'second'))

from checks.newer import cut, paired  # noqa: E402
from jer import calls  # noqa: E402
from jer.lines import numbers_of, value_lines  # noqa: E402
from jer.reading import read_value  # noqa: E402
from jer.refusal import Refusal  # noqa: E402
from jer.text import parse_text  # noqa: E402
from jer.values import lay_out  # noqa: E402

SENDERS = ('house', 'agency', 'portal', 'broker')
ROOM_NUMBERS, ROOM_POOL, ROOM_TEXT = 4096 * 4, 16384, 65536

wrong = []


def expect(good, what):
    if not good:
        wrong.append(what)
    print('%s  %s' % ('ok  ' if good else 'FAIL', what))


def load(version):
    numbers, names = (HERE / (version + '.hex')).read_text().splitlines()
    return numbers_of(numbers), bytes.fromhex(names)


def text(name):
    return (HERE / 'texts' / (name + '.json')).read_bytes()


def read(table, source):
    """(rows, pool), or the refusal's (number, first, second)."""
    try:
        return calls.read(*table, source, ROOM_NUMBERS, ROOM_POOL)
    except Refusal as refusal:
        return refusal.answer()


def write(table, rows, pool):
    return calls.write(*table, [number for row in rows for number in row], pool, ROOM_TEXT)


def stored(path, made):
    """The file's content; with --store, the file gets what was made."""
    if '--store' in sys.argv:
        path.write_text(made)
    return path.read_text() if path.exists() else None


def check_tables(spring, summer):
    made = subprocess.run([sys.executable, str(HERE / 'make.py'), '--check']).returncode
    expect(made == 0, 'spring.hex and summer.hex are what make.py makes')
    for version, table in (('spring', spring), ('summer', summer)):
        expect(calls.check_table(*table) is None, version + "'s type table is good")
    expect(paired(calls.judged_table(*spring), calls.judged_table(*summer)),
           "summer's table is made from spring's by additions")


def check_senders(spring):
    rows, pool = read(spring, text('house'))
    expect(stored(HERE / 'rows.txt', value_lines(rows, pool)) == value_lines(rows, pool), 'house: rows.txt')
    for sender in SENDERS[1:]:
        expect(read(spring, text(sender)) == (rows, pool), sender + ': the same rows and pool')
    expect(write(spring, rows, pool) + b'\n' == text('house'), 'written again: house.json')
    return rows, pool


def check_newer(spring, summer, booking):
    expect(read(spring, text('summer')) == booking, "summer.json by spring's table: the same rows and pool")
    newer = read_value(calls.judged_table(*summer), 0, parse_text(text('summer')))
    rows, pool = lay_out(cut(calls.judged_table(*spring), 0, newer))
    expect((rows, pool) == booking, 'these are the rows of its value cut to spring')
    expect(write(summer, *lay_out(newer)) + b'\n' == text('summer'), "written again by summer's table: summer.json")


def check_refusals(spring, summer):
    lines = ''
    for path in sorted((HERE / 'refused').glob('*.json')):
        number, first, second = answer = read(spring, path.read_bytes())
        expect(answer == (int(path.name[:2]), first, 0), '%s: %d at byte %d' % (path.name, number, first))
        lines += '%s %d %d\n' % (path.name, number, first)
    expect(stored(HERE / 'refused/answers.txt', lines) == lines, 'numbers and places: refused/answers.txt')
    voucher = (HERE / 'refused/11-voucher-of-summer.json').read_bytes()
    expect(len(read(summer, voucher)) == 2, "summer's table reads the voucher")


def main():
    spring, summer = load('spring'), load('summer')
    check_tables(spring, summer)
    booking = check_senders(spring)
    check_newer(spring, summer, booking)
    check_refusals(spring, summer)
    print('%d differences' % len(wrong))
    return 1 if wrong else 0


if __name__ == '__main__':
    sys.exit(main())
