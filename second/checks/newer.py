"""Newer tables made from older ones by additions, pairing, and cutting a value."""

from gen.drafts import Draft, Member
from gen.words import draw_names
from jer import sizes
from jer.table import (
    BOOLEAN, CHOICE, ENUMERATED, INTEGER, NULL, OCTET_STRING, SEQUENCE, SEQUENCE_OF,
    UTF8_STRING)

NEW_KINDS = (BOOLEAN, INTEGER, NULL, OCTET_STRING, UTF8_STRING)


class Newer:
    """A copy of an older type with more members in its extensible types. An older type
    may have two copies: "A row may have several partners." """

    def __init__(self, draw):
        self.draw = draw
        self.copies = {}

    def copy(self, older):
        known = self.copies.setdefault(id(older), [])
        if known and (len(known) == 2 or self.draw.chance(80)):
            return self.draw.pick(known)
        newer = Draft(older.kind, older.marks)
        known.append(newer)
        newer.root = older.root
        newer.members = [
            Member(m.name, m.of_type and self.copy(m.of_type), m.optional)
            for m in older.members]
        newer.element = older.element and self.copy(older.element)
        # 01: "More members stand only in extensible types."
        if newer.extensible() and self.draw.chance(85):
            self.add_members(newer)
        return newer

    def add_members(self, newer):
        taken = [member.name for member in newer.members]
        for name in draw_names(self.draw, self.draw.between(1, 4)):
            if name in taken or len(newer.members) == sizes.MEMBERS:
                continue
            of_type = None if newer.kind == ENUMERATED else self.new_type(newer)
            if of_type is None and newer.kind != ENUMERATED:
                continue
            optional = newer.kind == SEQUENCE and self.draw.chance(40)
            newer.members.append(Member(name, of_type, optional))

    def new_type(self, newer):
        """A type that an addition to this type may have, or None."""
        copied = [copy for copies in self.copies.values() for copy in copies]
        fresh = Draft(self.draw.pick(NEW_KINDS))
        of_type = self.draw.pick(copied) if self.draw.chance(40) else fresh
        if newer.unwrapped():
            kinds = {member.of_type.token_kind() for member in newer.members}
            if of_type.unwrapped() or of_type.token_kind() in kinds:
                return None
        # A copy still being filled answers as an extensible choice or not at all.
        if newer.array() and (of_type.unwrapped() or of_type.null_is_its_own()):
            return None
        return of_type


def paired(older, newer):
    """Whether row 0 pairs with row 0 in the greatest relation that the rules keep."""
    pairs, open_pairs = {(0, 0)}, [(0, 0)]
    while open_pairs:
        row, other = open_pairs.pop()
        following = pairs_inside(older, row, newer, other)
        if following is None:
            return False
        for pair in following:
            if pair not in pairs:
                pairs.add(pair)
                open_pairs.append(pair)
    return True


def pairs_inside(older, row, newer, other):
    """The pairs that this one calls for; None where it cannot stand."""
    # 01: "paired types have equal kind, marks and number of root members".
    if older.rows[row][:2] != newer.rows[other][:2]:
        return None
    if older.kind(row) == SEQUENCE_OF:
        return [(older.element(row), newer.element(other))]
    if older.kind(row) not in (ENUMERATED, SEQUENCE, CHOICE):
        return []
    if older.root(row) != newer.root(other) or older.count(row) > newer.count(other):
        return None
    if older.count(row) < newer.count(other) and not newer.extensible(other):
        return None
    following = []
    # 01: "the older's members, in order, pair with the newer's first ones, with equal
    # names, equal OPTIONAL marks and paired types."
    for member, partner in zip(older.members(row), newer.members(other)):
        if older.name(member) != newer.name(partner):
            return None
        if older.optional(member) != newer.optional(partner):
            return None
        if older.kind(row) != ENUMERATED:
            following.append((older.type_of(member), newer.type_of(partner)))
    return following


class Lacking(Exception):
    """The cut value holds an item or alternative that the older table lacks."""


def cut(older, row, value):
    """01: "Cutting a value to the older table drops the members it lacks; an item or
    alternative that it lacks stays": then there is no value of the older table."""
    if value is None:
        return None
    kind = value[0]
    if kind == SEQUENCE:
        return (kind, [cut(older, older.type_of(member), part)
                       for member, part in zip(older.members(row), value[1])])
    if kind == SEQUENCE_OF:
        return (kind, [cut(older, older.element(row), part) for part in value[1]])
    if kind in (ENUMERATED, CHOICE) and value[1] >= older.count(row):
        raise Lacking()
    if kind == CHOICE:
        chosen = older.type_of(older.members(row)[value[1]])
        return (kind, value[1], cut(older, chosen, value[2]))
    return value


def widened(newer, row, value):
    """A value of the older table with the newer's additions absent."""
    if value is None:
        return None
    kind = value[0]
    if kind == SEQUENCE:
        members = list(newer.members(row))
        parts = list(value[1]) + [None] * (len(members) - len(value[1]))
        return (kind, [widened(newer, newer.type_of(member), part)
                       for member, part in zip(members, parts)])
    if kind == SEQUENCE_OF:
        return (kind, [widened(newer, newer.element(row), part) for part in value[1]])
    if kind == CHOICE:
        chosen = newer.type_of(newer.members(row)[value[1]])
        return (kind, value[1], widened(newer, chosen, value[2]))
    return value
