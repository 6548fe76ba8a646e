"""Random values of a drafted type."""

from gen.draw_types import least_rows
from gen.drafts import reachable
from gen.words import draw_text
from jer import sizes
from jer.table import (
    BOOLEAN, CHOICE, ENUMERATED, INTEGER, NULL, OCTET_STRING, SEQUENCE, SEQUENCE_OF)

INTEGERS = (
    0, 1, -1, 9, 10, -10, 255, (1 << 31) - 1, 1 << 31, -(1 << 31), (1 << 32) - 1, 1 << 32,
    -(1 << 32), (1 << 63) - 1, -(1 << 63), -(1 << 63) + 1, 999999999999999999)


def draw_value(draw, draft, budget=40):
    """A value of about so many rows at most."""
    return Drawing(draw, draft, budget).value(draft, 0)


class Drawing:
    def __init__(self, draw, draft, budget):
        self.draw = draw
        self.budget = budget
        drafts = reachable(draft)
        self.least = least_rows(drafts)
        # A smallest value repeats no type on its way down, so this many brackets do.
        self.deepest = sizes.OPEN_BRACKETS - len(drafts)

    def small(self, depth):
        return self.budget <= 0 or depth >= self.deepest

    def value(self, draft, depth):
        self.budget -= 1
        draw, kind = self.draw, draft.kind
        if kind == SEQUENCE:
            return (kind, [self.member(draft, at, depth + 1)
                           for at in range(len(draft.members))])
        if kind == SEQUENCE_OF:
            return (kind, self.items(draft, depth + 1))
        if kind == CHOICE:
            position = self.alternative(draft, depth)
            return (kind, position, self.value(draft.members[position].of_type, depth + 1))
        if kind == BOOLEAN:
            return (kind, draw.below(2))
        if kind == ENUMERATED:
            return (kind, draw.below(len(draft.members)))
        if kind == NULL:
            return (kind,)
        if kind == INTEGER:
            return (kind, draw_integer(draw))
        if kind == OCTET_STRING:
            return (kind, draw.bytes(draw.below(draw.pick((2, 5, 20)))))
        return (kind, draw_text(draw, draw.pick((0, 3, 12))).encode('utf-8'))

    def possible(self, draft):
        return self.least[id(draft)] <= 100

    def member(self, draft, position, depth):
        of_type = draft.members[position].of_type
        if draft.may_be_absent(position):
            if self.small(depth) or not self.possible(of_type) or self.draw.chance(40):
                return None
        return self.value(of_type, depth)

    def items(self, draft, depth):
        if self.small(depth) or not self.possible(draft.element):
            return []
        count = self.draw.weighted(((0, 20), (1, 30), (2, 30), (3, 15), (9, 5)))
        return [self.value(draft.element, depth) for _ in range(count)]

    def alternative(self, draft, depth):
        rows = [self.least[id(member.of_type)] for member in draft.members]
        if self.small(depth):
            return rows.index(min(rows))
        return self.draw.pick([at for at, least in enumerate(rows) if least <= 100])


def draw_integer(draw):
    if draw.chance(50):
        return draw.pick(INTEGERS)
    bits = draw.between(1, 63)
    return draw.below(1 << bits) * draw.pick((1, -1))
