"""Rows and names of drafted types, in the plain order of document 01 or scattered."""

from gen.drafts import reachable
from jer.table import ENUMERATED, MEMBER, SEQUENCE_OF


def plain(draft):
    """Each type's row, its member rows behind it, then the types they name, as document
    01 lays out T. Returns (numbers, names)."""
    drafts = reachable(draft)
    place = Places()
    row = 0
    for each in drafts:
        place.types.append((each, row))
        if each.members:
            place.blocks.append((each.members, row + 1))
        row += 1 + len(each.members)
    return write_rows(place, row, PlainNames())


def scattered(draw, draft):
    """Types and member blocks in any order, blocks shared where their rows agree, and
    rows that nobody points to between them."""
    pieces = draw.shuffled(reachable(draft)[1:]) + [None] * draw.weighted(
        ((0, 70), (1, 20), (2, 10)))
    blocks = []
    for each in reachable(draft):
        if each.members and not in_a_block(blocks, each.members):
            blocks.append(each.members)
    pieces = [draft] + draw.shuffled(pieces + blocks)
    place = Places()
    row = 0
    for piece in pieces:
        if isinstance(piece, list):
            place.blocks.append((piece, row))
            row += len(piece)
        else:
            place.types.append((piece, row))
            row += 1
    return write_rows(place, row, ScatteredNames(draw))


def in_a_block(blocks, members):
    return any(offset_in(block, members) is not None for block in blocks)


def offset_in(block, members):
    """Where the members stand in the block as consecutive rows that serve both."""
    for offset in range(len(block) - len(members) + 1):
        if all(block[offset + at].same_row(member) for at, member in enumerate(members)):
            return offset
    return None


class Places:
    """Rows given out: (draft, row) and (members, first row); None is a spare row."""

    def __init__(self):
        self.types = []
        self.blocks = []

    def row_of(self, draft):
        if draft is None:
            return 0
        return next(row for each, row in self.types if each is draft)

    def first_of(self, members):
        if not members:
            return 0
        for block, row in self.blocks:
            offset = offset_in(block, members)
            if offset is not None:
                return row + offset
        raise AssertionError('members without a block')


class PlainNames:
    """Each name behind the one before, as in document 01."""

    def __init__(self):
        self.names = bytearray()

    def start_of(self, name):
        self.names += name
        return len(self.names) - len(name)


class ScatteredNames:
    """Names that share bytes where they can, with bytes between them that are no name."""

    def __init__(self, draw):
        self.draw = draw
        self.names = bytearray()

    def start_of(self, name):
        start = self.names.find(name)
        if start >= 0 and self.draw.chance(70):
            return start
        if self.draw.chance(10):
            self.names += self.draw.bytes(self.draw.between(1, 3))
        self.names += name
        return len(self.names) - len(name)


def write_rows(place, count, names):
    rows = [None] * count
    for draft, row in place.types:
        rows[row] = type_row(place, draft)
    for members, first in place.blocks:
        for at, member in enumerate(members):
            rows[first + at] = (
                MEMBER, int(member.optional), place.row_of(member.of_type),
                names.start_of(member.name), len(member.name), 0, 0, 0)
    return [number for row in rows for number in row], bytes(names.names)


def type_row(place, draft):
    if draft is None:
        return (0,) * 8
    if draft.kind == SEQUENCE_OF:
        return (draft.kind, 0, place.row_of(draft.element), 0, 0, 0, 0, 0)
    if draft.members or draft.kind >= ENUMERATED:
        count = len(draft.members)
        root = draft.root if draft.members else 0
        return (draft.kind, draft.marks, place.first_of(draft.members), count, root, 0, 0, 0)
    return (draft.kind, draft.marks, 0, 0, 0, 0, 0, 0)
