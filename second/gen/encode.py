"""Texts of a value under its type table, with every option that a sender has."""

from gen.any_json import any_json
from gen.spell import Spelling
from gen.words import draw_name
from jer import sizes
from jer.octets import write_base64, write_hexadecimal
from jer.table import (
    BOOLEAN, CHOICE, ENUMERATED, INTEGER, NULL, OCTET_STRING, SEQUENCE, SEQUENCE_OF)


class Encoder:
    """The skipped values come from a stream of their own, so that two texts can differ
    in nothing else."""

    def __init__(self, draw, table, skipped=None):
        self.draw = draw
        self.table = table
        self.spelling = Spelling(draw)
        self.skipped = skipped or draw.fork()
        self.order_chance = draw.pick((0, 100))
        self.null_chance = draw.pick((0, 50, 100))
        self.unknown_chance = draw.pick((0, 30, 60))

    def text(self, value):
        space = self.spelling.space
        return space() + self.value(0, value, 0) + space()

    def value(self, row, value, depth):
        """The text of a value inside so many open brackets."""
        table, kind = self.table, self.table.kind(row)
        if table.unwrapped(row):
            return self.value(self.chosen(row, value), value[2], depth)
        if kind == SEQUENCE and table.array(row):
            return self.spelling.array(self.elements(row, value[1], depth + 1))
        if kind == SEQUENCE:
            return self.spelling.object(self.members(row, value[1], depth + 1))
        if kind == SEQUENCE_OF:
            element = table.element(row)
            return self.spelling.array(
                [self.value(element, item, depth + 1) for item in value[1]])
        if kind == CHOICE:
            return self.spelling.object([self.alternative(row, value, depth + 1)])
        return self.plain(row, value)

    def chosen(self, row, value):
        return self.table.type_of(self.table.members(row)[value[1]])

    def alternative(self, row, value, depth):
        name = self.table.name(self.table.members(row)[value[1]])
        text = self.value(self.chosen(row, value), value[2], depth)
        return self.spelling.string(name), text

    def plain(self, row, value):
        kind = self.table.kind(row)
        if kind == NULL:
            return b'null'
        if kind == BOOLEAN:
            return b'true' if value[1] else b'false'
        if kind == INTEGER:
            return self.spelling.integer(value[1])
        if kind == ENUMERATED:
            return self.spelling.string(self.table.name(self.table.members(row)[value[1]]))
        if kind == OCTET_STRING:
            if self.table.instructed(row):
                return self.spelling.string(write_base64(value[1]))
            digits = self.spelling.letter_case(write_hexadecimal(value[1]))
            return self.spelling.string(digits)
        return self.spelling.string(value[1])

    def members(self, row, values, depth):
        """The (name, value) texts of an object sequence."""
        table, pairs = self.table, []
        for member, value in zip(table.members(row), values):
            name = self.spelling.string(table.name(member))
            if value is not None:
                pairs.append((name, self.value(table.type_of(member), value, depth)))
            elif table.optional(member) and not table.null_is_its_own(table.type_of(member)):
                # X.697 27.3.4: a null may stand for an absent OPTIONAL member.
                if self.draw.chance(self.null_chance):
                    pairs.append((name, b'null'))
        while table.extensible(row) and self.draw.chance(self.unknown_chance):
            pairs += self.unknown(row, depth)
        return self.draw.shuffled(pairs) if self.draw.chance(self.order_chance) else pairs

    def unknown(self, row, depth):
        name = draw_name(self.draw)
        if self.table.position_of(row, name) is not None:
            return []
        return [(self.spelling.string(name), self.skipped_value(depth))]

    def skipped_value(self, depth):
        return any_json(self.skipped, sizes.OPEN_BRACKETS - depth)

    def elements(self, row, values, depth):
        """The element texts of an ARRAY sequence."""
        table = self.table
        texts = [b'null' if value is None
                 else self.value(table.type_of(member), value, depth)
                 for member, value in zip(table.members(row), values)]
        whole = len(texts)
        # X.697 27.2.2: nulls at the end may be left out.
        while texts and texts[-1] == b'null' and self.draw.chance(self.null_chance):
            texts.pop()
        if len(texts) == whole:
            while table.extensible(row) and self.draw.chance(self.unknown_chance):
                texts.append(self.skipped_value(depth))
        return texts
