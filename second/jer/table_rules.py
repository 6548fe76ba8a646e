"""Judgement of a type table: refusal 1 and its first bad row."""

from jer import sizes
from jer.table import (
    BOOLEAN, CHOICE, ENUMERATED, EXTENSIBLE, FIELDS, INTEGER, MEMBER, NULL,
    OCTET_STRING, OPTIONAL, SEQUENCE, SEQUENCE_OF, UTF8_STRING, INSTRUCTION,
    Table, split_rows)


def check_table(numbers, names):
    """None for a good table, else the first bad row."""
    # 01, refusal 1: "0 if the table is empty, has a broken row or over 4,096,
    # or names are too long".
    if not numbers or len(numbers) % FIELDS != 0:
        return 0
    if len(numbers) > sizes.TABLE_ROWS * FIELDS or len(names) > sizes.NAMES_BYTES:
        return 0
    table = Table(split_rows(numbers, FIELDS), bytes(names))
    # 01: "rows are checked upwards three times: each by itself (row 0 is a type); by
    # the kinds of the rows it points to; each type by its other rules."
    for good in (good_by_itself, good_by_kinds_pointed_to, good_by_other_rules):
        for row in range(len(table.rows)):
            if not good(table, row):
                return row
    return None


# --- first pass -------------------------------------------------------------------

# 01: "Field 1, sum of marks: 1 = BASE64 (4), ARRAY (6), UNWRAPPED (8);
# 2 = extensible (2, 6, 8)." On a member row "field 1 is 1 if OPTIONAL".
MARKS = {
    BOOLEAN: 0, INTEGER: 0, NULL: 0, UTF8_STRING: 0, SEQUENCE_OF: 0,
    OCTET_STRING: INSTRUCTION, ENUMERATED: EXTENSIBLE,
    SEQUENCE: INSTRUCTION | EXTENSIBLE, CHOICE: INSTRUCTION | EXTENSIBLE,
    MEMBER: OPTIONAL}

# 01: "Unused fields are 0": the fields from this one on are unused by the kind.
FIRST_UNUSED = {
    BOOLEAN: 2, INTEGER: 2, NULL: 2, OCTET_STRING: 2, UTF8_STRING: 2,
    ENUMERATED: 5, SEQUENCE: 5, CHOICE: 5, SEQUENCE_OF: 3, MEMBER: 5}


def good_by_itself(table, row):
    fields = table.rows[row]
    kind = fields[0]
    # 01: "Row 0 is the whole message's type."
    if kind not in MARKS or (row == 0 and kind == MEMBER):
        return False
    if fields[1] & ~MARKS[kind] != 0:
        return False
    if any(fields[FIRST_UNUSED[kind]:]):
        return False
    if kind in (ENUMERATED, SEQUENCE, CHOICE):
        return good_counts(table, fields)
    if kind in (SEQUENCE_OF, MEMBER) and fields[2] >= len(table.rows):
        return False
    return kind != MEMBER or good_name(table, row)


def good_counts(table, fields):
    kind, marks, first, count, root = fields[:5]
    # 01: "SEQUENCE 0 to 64, ENUMERATED and CHOICE 1 to 64."
    least = 0 if kind == SEQUENCE else 1
    if not least <= count <= sizes.MEMBERS:
        return False
    # 01: "A SEQUENCE of 0 has 0 in field 2."
    if count == 0 and first != 0:
        return False
    if first + count > len(table.rows):
        return False
    # 01, field 4: "how many of them are root, the rest are additions; equal to field 3
    # if not extensible, at least 1 in kinds 2 and 8."
    if not marks & EXTENSIBLE:
        return root == count
    return least <= root <= count


def good_name(table, row):
    # 01: "fields 3 and 4 start and length of its name, 1 to 128 bytes of UTF-8."
    start, length = table.rows[row][3:5]
    if not 1 <= length <= sizes.NAME_BYTES:
        return False
    return start + length <= len(table.names) and is_utf8(table.name(row))


def is_utf8(text):
    """RFC 3629: Python's strict decoder refuses surrogates, long forms and what
    lies past U+10FFFF."""
    try:
        text.decode('utf-8', 'strict')
    except UnicodeDecodeError:
        return False
    return True


# --- second pass ------------------------------------------------------------------

def good_by_kinds_pointed_to(table, row):
    kind = table.kind(row)
    # 01: "A member row has kind 9".
    if kind in (ENUMERATED, SEQUENCE, CHOICE):
        return all(table.kind(member) == MEMBER for member in table.members(row))
    # 01: "element type row (7)"; a member row's "field 2 its type row (0 for an
    # enumeration item)": row 0 is a type, so that an item passes here too.
    if kind in (SEQUENCE_OF, MEMBER):
        return table.kind(table.rows[row][2]) != MEMBER
    return True


# --- third pass -------------------------------------------------------------------

def good_by_other_rules(table, row):
    kind = table.kind(row)
    if kind not in (ENUMERATED, SEQUENCE, CHOICE):
        return True
    members = table.members(row)
    # 01: "names within one type differ."
    if len({table.name(member) for member in members}) != len(members):
        return False
    # 01: "field 1 is 1 if OPTIONAL (SEQUENCE only)".
    if kind != SEQUENCE and any(table.optional(member) for member in members):
        return False
    if kind == ENUMERATED:
        # 01: "0 for an enumeration item".
        return all(table.rows[member][2] == 0 for member in members)
    if not table.instructed(row):
        return True
    return good_array(table, row) if kind == SEQUENCE else good_unwrapped(table, row)


def good_array(table, row):
    # 01: "In an ARRAY sequence, no OPTIONAL member and no addition has a type that can
    # be null (NULL, or UNWRAPPED with a NULL alternative) or is an extensible UNWRAPPED
    # choice (X.697 14.2)."
    for position, member in enumerate(table.members(row)):
        if table.may_be_absent(row, position):
            if table.null_is_its_own(table.type_of(member)):
                return False
    return True


def good_unwrapped(table, row):
    # 01: "An UNWRAPPED choice has no UNWRAPPED alternative (house) and at most one
    # alternative for each of null, boolean, number, string, array, object (19.2.2; for
    # object, house)."
    types = [table.type_of(member) for member in table.members(row)]
    if any(table.unwrapped(alternative) for alternative in types):
        return False
    kinds = [table.token_kind(alternative) for alternative in types]
    return len(set(kinds)) == len(kinds)
