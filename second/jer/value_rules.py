"""Judgement of a value table against its type: refusal 12 and its first bad row."""

from jer import sizes
from jer.refusal import VALUE, Refusal
from jer.table import (
    BOOLEAN, CHOICE, ENUMERATED, INTEGER, NULL, OCTET_STRING, SEQUENCE, SEQUENCE_OF,
    UTF8_STRING, split_rows)
from jer.table_rules import is_utf8
from jer.values import ABSENT_ROW, FIELDS


def judge_value(table, numbers, pool):
    """The value that the table holds; raises refusal 12."""
    taking = Taking(table, split_rows(numbers, FIELDS), bytes(pool))
    value = taking.value(0, 0)
    # 01: "rows left over, a broken one too, as the first of them."
    if taking.at * FIELDS < len(numbers):
        taking.refuse(taking.at)
    # 01: "pool bytes left over, count as the row after the last".
    if taking.pool_at < len(taking.pool):
        taking.refuse(taking.at)
    return value


class Taking:
    """01: "For 12, rows are taken in order": the row and the pool byte come to next."""

    def __init__(self, table, rows, pool):
        self.table = table
        self.rows = rows
        self.pool = pool
        self.at = 0
        self.pool_at = 0

    def refuse(self, row):
        raise Refusal(VALUE, row)

    def need(self, good, row):
        if not good:
            self.refuse(row)

    def row(self):
        # 01: "A row short of the table's end ... count as the row after the last".
        self.need(self.at < len(self.rows), len(self.rows))
        self.at += 1
        return self.rows[self.at - 1]

    def value(self, of_type, depth):
        """The value whose row comes next, inside so many open brackets."""
        here = self.at
        kind, a, b, size = self.row()
        self.need(kind == self.table.kind(of_type), here)
        # 01: "Other numbers are 0."
        if kind not in (INTEGER, OCTET_STRING, UTF8_STRING):
            self.need(b == 0, here)
        value = self.inside(of_type, here, depth, a, b)
        # 01: "size counts all these rows"; "a wrong size or number present is bad at its
        # own row once the parts are right."
        self.need(size == self.at - here, here)
        if kind == SEQUENCE:
            present = sum(1 for member in value[1] if member is not None)
            self.need(a == present, here)
        return value

    def inside(self, of_type, here, depth, a, b):
        kind = self.table.kind(of_type)
        if kind in (OCTET_STRING, UTF8_STRING):
            return self.string(kind, here, a, b)
        if kind == CHOICE:
            return self.choice(of_type, here, depth, a)
        if kind == SEQUENCE:
            return self.sequence(of_type, here, depth)
        if kind == SEQUENCE_OF:
            self.open(here, depth)
            element = self.table.element(of_type)
            return (kind, [self.value(element, depth + 1) for _ in range(a)])
        return self.plain(of_type, here, a, b)

    def plain(self, of_type, here, a, b):
        kind = self.table.kind(of_type)
        if kind == INTEGER:
            # 01: "a the low and b the high half of its 64-bit two's complement."
            bits = b << 32 | a
            return (kind, bits - (1 << 64) if bits >> 63 else bits)
        if kind == NULL:
            self.need(a == 0, here)
            return (kind,)
        # 01: "BOOLEAN: a 0 or 1"; "ENUMERATED: a the item's position from 0".
        assert kind in (BOOLEAN, ENUMERATED)
        self.need(a < (2 if kind == BOOLEAN else self.table.count(of_type)), here)
        return (kind, a)

    def string(self, kind, here, start, length):
        # 01: "Strings stand in the pool in row order from 0 without gaps."
        self.need(start == self.pool_at and start + length <= len(self.pool), here)
        text = self.pool[start:start + length]
        if kind == UTF8_STRING:
            self.need(is_utf8(text), here)
        self.pool_at += length
        return (kind, text)

    def open(self, here, depth):
        # 01, refusal 12: "or is 33 brackets deep".
        self.need(depth < sizes.OPEN_BRACKETS, here)

    def sequence(self, of_type, here, depth):
        self.open(here, depth)
        members = []
        # 01: "then one value for each member in table order".
        for position, member in enumerate(self.table.members(of_type)):
            if self.absent_next() and self.table.may_be_absent(of_type, position):
                self.at += 1
                members.append(None)
            else:
                members.append(self.value(self.table.type_of(member), depth + 1))
        return (SEQUENCE, members)

    def absent_next(self):
        """Any row of kind 15 but this one fails as a value: no type has that kind."""
        return self.at < len(self.rows) and self.rows[self.at] == ABSENT_ROW

    def choice(self, of_type, here, depth, position):
        # 01: "CHOICE: a the position, then the chosen value."
        self.need(position < self.table.count(of_type), here)
        # An UNWRAPPED choice writes no bracket of its own (X.697 31.2).
        if not self.table.unwrapped(of_type):
            self.open(here, depth)
            depth += 1
        chosen = self.table.type_of(self.table.members(of_type)[position])
        return (CHOICE, position, self.value(chosen, depth))
