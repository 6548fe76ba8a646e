"""Random types within the rules of document 01, recursive ones included."""

from gen.drafts import Draft, Member, boolean, reachable
from gen.words import draw_names
from jer.table import (
    BOOLEAN, CHOICE, ENUMERATED, EXTENSIBLE, INSTRUCTION, INTEGER, NULL, OCTET_STRING,
    SEQUENCE, SEQUENCE_OF, UTF8_STRING)

FIRST_KINDS = ((SEQUENCE, 64), (SEQUENCE_OF, 7), (CHOICE, 18), (ENUMERATED, 3),
               (BOOLEAN, 1), (INTEGER, 2), (NULL, 1), (OCTET_STRING, 2), (UTF8_STRING, 2))
OTHER_KINDS = ((SEQUENCE, 22), (SEQUENCE_OF, 8), (CHOICE, 17), (ENUMERATED, 9),
               (BOOLEAN, 9), (INTEGER, 13), (NULL, 9), (OCTET_STRING, 10),
               (UTF8_STRING, 8))

# How often each kind carries each of its marks, in percent.
MARK_CHANCES = {
    OCTET_STRING: (50, 0), ENUMERATED: (0, 50), SEQUENCE: (45, 50), CHOICE: (50, 50)}

ENDLESS = 1 << 40


def draw_type(draw, most):
    """A type that has a value of few rows, out of at most so many types."""
    while True:
        draft = draw_any_type(draw, most)
        if least_rows(reachable(draft))[id(draft)] <= 60:
            return draft


def draw_any_type(draw, most):
    """A type, perhaps one without any finite value."""
    count = draw.between(1 + most // 3, most)
    drafts = [draw_kind(draw, FIRST_KINDS if at == 0 else OTHER_KINDS)
              for at in range(count)]
    # Choices come before sequences: the ARRAY rule asks whether a choice can be null.
    for kind, fill in ((ENUMERATED, fill_items), (CHOICE, fill_alternatives),
                       (SEQUENCE, fill_members), (SEQUENCE_OF, fill_element)):
        for at, draft in enumerate(list(drafts)):
            if draft.kind == kind:
                fill(draw, drafts, at)
    return drafts[0]


def draw_kind(draw, kinds):
    kind = draw.weighted(kinds)
    instructed, extensible = MARK_CHANCES.get(kind, (0, 0))
    marks = INSTRUCTION * draw.chance(instructed) + EXTENSIBLE * draw.chance(extensible)
    return Draft(kind, marks)


def draw_count(draw, least, most):
    return 64 if draw.chance(1) else draw.between(least, most)


def draw_root(draw, draft, least):
    count = len(draft.members)
    if not draft.extensible():
        return count
    return draw.between(min(least, count), count)


def another(draw, drafts, at, fits=lambda draft: True):
    """A type to point to, mostly a later one so that recursion stays the exception."""
    later = [draft for draft in drafts[at + 1:] if fits(draft)]
    if later and draw.chance(85):
        return draw.pick(later)
    every = [draft for draft in drafts if fits(draft)]
    if every and (not later or draw.chance(60)):
        return draw.pick(every)
    drafts.append(draw.pick((boolean, lambda: Draft(INTEGER)))())
    return drafts[-1]


def fill_items(draw, drafts, at):
    draft = drafts[at]
    shared = [d for d in drafts[:at] if d.kind == ENUMERATED]
    if shared and draw.chance(40):
        draft.members = slice_of(draw, draw.pick(shared).members)
    else:
        draft.members = [Member(name) for name in draw_names(draw, draw_count(draw, 1, 4))]
    draft.root = draw_root(draw, draft, 1)


def slice_of(draw, members):
    """Consecutive members of another type, so that a layout can share their rows."""
    first = draw.below(len(members))
    return members[first:draw.between(first + 1, len(members))]


def fill_alternatives(draw, drafts, at):
    draft = drafts[at]
    shared = [d for d in drafts[:at] if d.kind == CHOICE and not draft.unwrapped()]
    if shared and draw.chance(25):
        draft.members = slice_of(draw, draw.pick(shared).members)
    else:
        types = alternative_types(draw, drafts, at)
        draft.members = [Member(name, of_type) for name, of_type in
                         zip(draw_names(draw, len(types)), types)]
    draft.root = draw_root(draw, draft, 1)


def alternative_types(draw, drafts, at):
    count = draw.between(1, 6) if drafts[at].unwrapped() else draw_count(draw, 1, 4)
    if not drafts[at].unwrapped():
        return [another(draw, drafts, at) for _ in range(count)]
    # "at most one alternative for each of null, boolean, number, string, array, object".
    types, kinds = [], set()
    for _ in range(2 * count):
        of_type = another(draw, drafts, at, lambda draft: not draft.unwrapped())
        if len(types) < count and of_type.token_kind() not in kinds:
            kinds.add(of_type.token_kind())
            types.append(of_type)
    return types


def fill_members(draw, drafts, at):
    draft = drafts[at]
    shared = [d for d in drafts[:at] if d.kind == SEQUENCE and d.members]
    if shared and not draft.array() and draw.chance(20):
        draft.members = slice_of(draw, draw.pick(shared).members)
        draft.root = draw_root(draw, draft, 0)
        return
    count = draw_count(draw, 0 if draw.chance(15) else 2, 5)
    draft.members = [Member(name, None, draw.chance(40)) for name in draw_names(draw, count)]
    draft.root = draw_root(draw, draft, 0)
    for position, member in enumerate(draft.members):
        if draft.array() and draft.may_be_absent(position):
            member.of_type = another(draw, drafts, at, lambda d: not d.null_is_its_own())
        else:
            member.of_type = another(draw, drafts, at)


def fill_element(draw, drafts, at):
    drafts[at].element = another(draw, drafts, at)


def least_rows(drafts):
    """By type, the rows of its smallest value; ENDLESS where there is none."""
    least = {id(draft): ENDLESS for draft in drafts}
    changed = True
    while changed:
        changed = False
        for draft in drafts:
            rows = least_rows_by(draft, least)
            if rows < least[id(draft)]:
                least[id(draft)] = rows
                changed = True
    return least


def least_rows_by(draft, least):
    if draft.kind == SEQUENCE:
        rows = [1 if draft.may_be_absent(position) else least[id(member.of_type)]
                for position, member in enumerate(draft.members)]
        return min(ENDLESS, 1 + sum(rows))
    if draft.kind == CHOICE:
        return 1 + min(least[id(member.of_type)] for member in draft.members)
    return 1
