"""A value as a tree, and its value table: rows of four numbers with a pool beside.

A value is a tuple that begins with its type's kind: (BOOLEAN, 0 or 1), (INTEGER, number),
(ENUMERATED, position), (NULL,), (OCTET_STRING, octets), (UTF8_STRING, bytes),
(SEQUENCE, values), (SEQUENCE_OF, values), (CHOICE, position, value). An absent member is
None in its SEQUENCE.
"""

from jer.table import (
    BOOLEAN, CHOICE, ENUMERATED, INTEGER, NULL, OCTET_STRING, SEQUENCE, SEQUENCE_OF,
    UTF8_STRING)

FIELDS = 4

# 01: "an absent one, OPTIONAL or an addition, is the row (15, 0, 0, 1)."
ABSENT_ROW = (15, 0, 0, 1)

LOW_HALF = (1 << 32) - 1
ALL_BITS = (1 << 64) - 1


def needed(value):
    """The rows and pool bytes of a value, before any of them is laid out."""
    if value is None:
        return 1, 0
    if value[0] in (OCTET_STRING, UTF8_STRING):
        return 1, len(value[1])
    rows, pool = 1, 0
    for part in parts(value):
        part_rows, part_pool = needed(part)
        rows += part_rows
        pool += part_pool
    return rows, pool


def parts(value):
    """01: "A value is its row followed by its parts"."""
    if value[0] in (SEQUENCE, SEQUENCE_OF):
        return value[1]
    return value[2:] if value[0] == CHOICE else ()


def lay_out(value):
    """The value table of a value: a list of rows, and the pool."""
    rows, pool = [], bytearray()
    lay_out_at_end(value, rows, pool)
    return rows, bytes(pool)


def lay_out_at_end(value, rows, pool):
    if value is None:
        rows.append(ABSENT_ROW)
        return
    here = len(rows)
    rows.append(None)
    a, b = numbers_beside(value, pool)
    # 01: "Strings stand in the pool in row order from 0 without gaps."
    if value[0] in (OCTET_STRING, UTF8_STRING):
        pool += value[1]
    for part in parts(value):
        lay_out_at_end(part, rows, pool)
    # 01: "size counts all these rows."
    rows[here] = (value[0], a, b, len(rows) - here)


def numbers_beside(value, pool):
    """Fields a and b of a value's own row. 01: "Other numbers are 0." """
    kind = value[0]
    if kind in (BOOLEAN, ENUMERATED, CHOICE):
        # 01: "BOOLEAN: a 0 or 1"; "ENUMERATED: a the item's position from 0";
        # "CHOICE: a the position".
        return value[1], 0
    if kind == INTEGER:
        # 01: "a the low and b the high half of its 64-bit two's complement."
        bits = value[1] & ALL_BITS
        return bits & LOW_HALF, bits >> 32
    if kind in (OCTET_STRING, UTF8_STRING):
        # 01: "a start, b length in the pool."
        return len(pool), len(value[1])
    if kind == SEQUENCE:
        # 01: "a the number present".
        return sum(1 for member in value[1] if member is not None), 0
    if kind == SEQUENCE_OF:
        # 01: "a the count, then the items."
        return len(value[1]), 0
    assert kind == NULL
    return 0, 0
