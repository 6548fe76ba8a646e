"""Typed reading: a JSON tree under a type table becomes a value (refusals 5 to 11)."""

from jer.octets import read_base64, read_hexadecimal
from jer.refusal import (
    LACKING, MEMBERS, NAME, NUMBER, REPEATED, STRING, TOKEN, Refusal)
from jer.table import (
    BOOLEAN, CHOICE, ENUMERATED, INTEGER, NULL, OCTET_STRING, SEQUENCE, SEQUENCE_OF,
    UTF8_STRING)

LEAST_INTEGER = -(1 << 63)
GREATEST_INTEGER = (1 << 63) - 1
# A sign and the 19 digits of 2^63: a longer number is outside the range.
MOST_DIGITS = 20

NULL_VALUE = (NULL,)


def read_value(table, row, node):
    """The value of this type that the token denotes, or its refusal."""
    if table.unwrapped(row):
        return read_unwrapped(table, row, node)
    # 01, refusal 5: "token of another kind", at its place.
    if node.kind != table.token_kind(row):
        raise Refusal(TOKEN, node.place)
    kind = table.kind(row)
    if kind == SEQUENCE:
        if table.array(row):
            return read_array(table, row, node)
        return read_object(table, row, node)
    if kind == SEQUENCE_OF:
        element = table.element(row)
        return (SEQUENCE_OF, [read_value(table, element, item) for item in node.content])
    if kind == CHOICE:
        return read_wrapped(table, row, node)
    return read_plain(table, row, node)


def read_plain(table, row, node):
    """A type without parts; the token is already of its kind."""
    kind = table.kind(row)
    if kind == NULL:
        return NULL_VALUE
    if kind == INTEGER:
        return read_integer(node)
    if kind == ENUMERATED:
        return read_item(table, row, node)
    if kind == OCTET_STRING:
        read = read_base64 if table.instructed(row) else read_hexadecimal
        octets = read(node.content)
        # 01, refusal 7: "bad octets", at the string.
        if octets is None:
            raise Refusal(STRING, node.place)
        return (OCTET_STRING, octets)
    assert kind in (BOOLEAN, UTF8_STRING)
    return (kind, node.content)


def read_integer(node):
    # 01: "a number without fraction or exponent, from -2^63 to 2^63-1; -0 is 0."
    digits = node.content
    if any(mark in digits for mark in b'.eE') or len(digits) > MOST_DIGITS:
        raise Refusal(NUMBER, node.place)
    number = int(digits)
    if not LEAST_INTEGER <= number <= GREATEST_INTEGER:
        raise Refusal(NUMBER, node.place)
    return (INTEGER, number)


def read_item(table, row, node):
    position = table.position_of(row, node.content)
    if position is None:
        # 01, 11: "item or alternative unknown, extensible"; 7: "no such item and not
        # extensible"; both at the string.
        raise Refusal(LACKING if table.extensible(row) else STRING, node.place)
    return (ENUMERATED, position)


def read_object(table, row, node):
    """01: "The typed reading of an object sequence: 5; names in text order, 8 or 9; then
    members in table order, missing or read." """
    met = meet_names(table, row, node)
    members = []
    for position, member in enumerate(table.members(row)):
        members.append(read_member(table, row, position, member, met.get(position), node))
    return (SEQUENCE, members)


def meet_names(table, row, node):
    met = {}
    for name, token in node.content:
        position = table.position_of(row, name.content)
        if position is None:
            # 01: "A member that the table does not know is skipped, value and all its
            # nesting, if the sequence is extensible." Else 8, at the name.
            if not table.extensible(row):
                raise Refusal(NAME, name.place)
        elif position in met:
            # 01, refusal 9: "known name repeated", at the second.
            raise Refusal(REPEATED, name.place)
        else:
            met[position] = token
    return met


def read_member(table, row, position, member, token, node):
    of_type = table.type_of(member)
    if token is None:
        # 01: "An addition may be absent, whichever others are present".
        if table.may_be_absent(row, position):
            return None
        # 01, refusal 10: "member missing", at the opening bracket.
        raise Refusal(MEMBERS, node.place)
    # 01: "Null means absent where the member is OPTIONAL and its type neither can be
    # null nor is an extensible UNWRAPPED choice (27.3.4)." For an addition: "if not
    # OPTIONAL, its null is read as a value."
    if token.kind == 'null' and table.optional(member):
        if not table.null_is_its_own(of_type):
            return None
    return read_value(table, of_type, token)


def read_array(table, row, node):
    """01: "An ARRAY: 5; elements in member order, read or missing; then the first surplus
    one." """
    members = []
    for position, member in enumerate(table.members(row)):
        if position < len(node.content):
            token = node.content[position]
            members.append(read_element(table, row, position, member, token))
        else:
            members.append(missing_element(table, row, position, member, node))
    # 01: "Surplus elements are skipped if extensible." Else 10, at the element.
    if len(node.content) > len(members) and not table.extensible(row):
        raise Refusal(MEMBERS, node.content[len(members)].place)
    return (SEQUENCE, members)


def read_element(table, row, position, member, token):
    # 01: "Null is absent for an OPTIONAL member or an addition."
    if token.kind == 'null' and table.may_be_absent(row, position):
        return None
    return read_value(table, table.type_of(member), token)


def missing_element(table, row, position, member, node):
    # 01: "An element missing at the end counts as null (27.2.2): absent for those, the
    # null value where the type can be null, 11 where it is an extensible UNWRAPPED
    # choice without NULL, else 10." Both at the array's opening bracket.
    if table.may_be_absent(row, position):
        return None
    of_type = table.type_of(member)
    if table.can_be_null(of_type):
        if table.kind(of_type) == NULL:
            return NULL_VALUE
        return (CHOICE, table.null_position(of_type), NULL_VALUE)
    lacking = table.unwrapped(of_type) and table.extensible(of_type)
    raise Refusal(LACKING if lacking else MEMBERS, node.place)


def read_wrapped(table, row, node):
    """01: "A wrapped choice: 5, 10, name (8 or 11), value." """
    # 01: "Wrapped CHOICE: an object of exactly one member."
    if len(node.content) != 1:
        raise Refusal(MEMBERS, node.place)
    name, token = node.content[0]
    position = table.position_of(row, name.content)
    if position is None:
        # 01: 8 at "the name", 11 at the "choice's bracket".
        if table.extensible(row):
            raise Refusal(LACKING, node.place)
        raise Refusal(NAME, name.place)
    chosen = table.type_of(table.members(row)[position])
    return (CHOICE, position, read_value(table, chosen, token))


def read_unwrapped(table, row, node):
    # 01: "UNWRAPPED: the token's kind picks the alternative."
    for position, member in enumerate(table.members(row)):
        alternative = table.type_of(member)
        if table.token_kind(alternative) == node.kind:
            return (CHOICE, position, read_value(table, alternative, node))
    # 01, 11: "item or alternative unknown, extensible", at the token; else 5.
    raise Refusal(LACKING if table.extensible(row) else TOKEN, node.place)
