"""Makes spring.hex and summer.hex from their descriptions: type table and names, as jerread's first two lines; and both tables
with their pairing of rows as terms that a theorem of crates/promises speaks of.

    python3 examples/booking/make.py            makes them
    python3 examples/booking/make.py --check    compares with what is stored; exit 1 on a difference
"""
import pathlib
import sys

from notation import hexadecimal, table

HERE = pathlib.Path(__file__).resolve().parent
TERMS = HERE.parents[1] / 'crates/promises/proofs/BookingTables.antt'
HEAD = """-- The spring and the summer table of `examples/booking`, and which rows of theirs are paired; `examples/booking/make.py` makes this file.
use mathlib.Core.List.{List, [], ◌∷◌}
use Rattle.jer.specs.Table.{Table}
use Rattle.jer.proofs.CutTested.{Pair, pair}
"""
FIELDS, ENUMERATED, SEQUENCE, SEQUENCE_OF, CHOICE = 8, 2, 6, 7, 8


def pairs(newer, older):
    """The pairs (newer row, older row) that are met from row 0 on, elements and members by position."""
    found = [(0, 0)]
    for a, b in found:
        kind, _, first, count = older[b * FIELDS:b * FIELDS + 4]
        inside = []
        if kind == SEQUENCE_OF:
            inside = [(newer[a * FIELDS + 2], first)]
        if kind in (ENUMERATED, SEQUENCE, CHOICE):
            start = newer[a * FIELDS + 2]
            inside = [(newer[(start + i) * FIELDS + 2], older[(first + i) * FIELDS + 2]) for i in range(count)]
        found += [pair for pair in dict.fromkeys(inside) if pair not in found]
    return found


def listed(terms):
    return ' ∷ '.join(list(map(str, terms)) + ['[]'])


def terms(spring, summer):
    text = HEAD
    for version, (numbers, names) in (('spring', spring), ('summer', summer)):
        text += '\nunfoldable pub %s : Table\n%s = record { rows = %s; names = %s }\n' % (version, version, listed(numbers), listed(names))
    met = ['pair %d %d' % pair for pair in pairs(summer[0], spring[0])]
    return text + '\nunfoldable pub rows_paired : List Pair\nrows_paired = %s\n' % listed(met)


def main():
    spring, summer = (table((HERE / (version + '.asn1')).read_text()) for version in ('spring', 'summer'))
    differ = 0
    for path, made in ((HERE / 'spring.hex', hexadecimal(*spring)), (HERE / 'summer.hex', hexadecimal(*summer)), (TERMS, terms(spring, summer))):
        if '--check' not in sys.argv:
            path.write_text(made)
        elif not path.exists() or path.read_text() != made:
            print(path.name + ' is not what make.py makes')
            differ = 1
    return differ


if __name__ == '__main__':
    sys.exit(main())
