"""The calls from outside: judging a type table and a text, reading, writing."""

from jer import sizes
from jer import table_rules
from jer import values
from jer.reading import read_value
from jer.refusal import ROOM, TABLE, WRITTEN_TOO_LONG, Refusal
from jer.table import FIELDS, Table, split_rows
from jer.text import parse_text
from jer.value_rules import judge_value
from jer.writing import write_value


def check_table(numbers, names):
    """None, or the first bad row."""
    return table_rules.check_table(numbers, names)


def check_text(text):
    """None, or (number, place)."""
    try:
        parse_text(text)
    except Refusal as refusal:
        return refusal.number, refusal.first
    return None


def judged_table(numbers, names):
    bad_row = table_rules.check_table(numbers, names)
    if bad_row is not None:
        raise Refusal(TABLE, bad_row)
    return Table(split_rows(numbers, FIELDS), bytes(names))


def read(numbers, names, text, room_numbers, room_pool):
    """(rows, pool); raises the refusal. The room for rows counts 32-bit numbers."""
    # 01: "Order when reading: 1, 2, then 3 or 4 by first byte (3 where both fall on one
    # byte), then the typed reading, then 14."
    table = judged_table(numbers, names)
    value = read_value(table, 0, parse_text(text))
    rows, pool = values.needed(value)
    # 01, refusal 14: "lent room too small", with "rows and pool bytes ... needed".
    if rows * values.FIELDS > room_numbers or pool > room_pool:
        raise Refusal(ROOM, rows, pool)
    return values.lay_out(value)


def write(numbers, names, value_numbers, pool, room_text):
    """The text; raises the refusal."""
    # 01: "Writing: 1, 12, 13, 14."
    table = judged_table(numbers, names)
    value = judge_value(table, value_numbers, pool)
    text = write_value(table, 0, value)
    # 01, refusal 13: "written text over 65,536 bytes", with "bytes needed".
    if len(text) > sizes.TEXT_BYTES:
        raise Refusal(WRITTEN_TOO_LONG, len(text))
    # 01, refusal 14: "text bytes, needed".
    if len(text) > room_text:
        raise Refusal(ROOM, len(text))
    return text
